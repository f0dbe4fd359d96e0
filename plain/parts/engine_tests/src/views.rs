//! A reader and a view of a volume.

use crate::bench::{Memory, board_of};
use crate::images::{filed, put, small};
use liverymenhir::file_read::read_at;
use liverymenhir::flash_view::{StepErr, View};
use liverymenhir::image_model::Damage;
use liverymenhir::table_model::{Differ, FsErr, Tag};
use liverymenhir::vol_mount::{Reader, ReaderLent, accept_reader};
use rattle_host::assert;
#[allow(unused_imports)]
use rattle_host::prelude::*;
use rattle_host::test::Fail;

#[test]
fn a_reader_tells_files_damage_and_bytes() {
    rattle_host::test::run(a_reader_tells_files_damage_and_bytes_with)
}

fn a_reader_tells_files_damage_and_bytes_with(rt: HostRuntime) -> Result<(), Fail> {
    let alloc = rt.alloc();
    let g = small()?;
    let mut image = filed(alloc, &g, 2)?;
    // the header page of a file that lacks its data page
    put(&mut image, 2, &[2, 0x80]);
    put(&mut image, 512, &[2, 0x80, 0, 0, 0xF8]);
    put(&mut image, 520, &[10, 0, 0, 0, 1, b'c']);
    put(&mut image, 526, &[0; 31]);
    let mut board = board_of(alloc, &g, &image)?;
    let mut memory = Memory::new(alloc, &g)?;
    let lent = memory.lend_reader();
    accept_reader(&g, &board, &lent)?;
    let mut reader = Reader::new(g, &mut board, lent);
    reader.mount()?;
    let first = reader.next(0)?;
    assert!(rt;
        first
            .as_ref()
            .is_some_and(|stat| stat.id == 1 && stat.size == 502)
    );
    assert!(rt; first.is_some_and(|stat| stat.name.as_slice() == b"ba".as_slice()));
    assert!(rt; matches!(reader.next(1), Ok(None)));
    assert!(rt; reader.next_damaged(0) == Ok(Some((2, Damage::Missing(0)))));
    assert!(rt; reader.next_damaged(2) == Ok(None));
    let mut into = [7u8; 4];
    assert!(rt; reader.read_at(1, 249, &mut into) == Ok(4));
    assert!(rt; into == [0, 0, 1, 1]);
    assert!(rt; reader.read_at(2, 0, &mut into) == Err(FsErr::NotFound));
    reader.say(b"o")?;
    reader.say(b"k")?;
    let lent = reader.give_back().lent;
    assert!(rt; lent.work.len() == g.work_need() as usize);
    assert!(rt; board.said() == b"ok".as_slice());
    Ok(())
}

#[test]
fn a_view_tells_a_page_that_is_gone() {
    rattle_host::test::run(a_view_tells_a_page_that_is_gone_with)
}

fn a_view_tells_a_page_that_is_gone_with(rt: HostRuntime) -> Result<(), Fail> {
    let alloc = rt.alloc();
    let g = small()?;
    let mut image = filed(alloc, &g, 2)?;
    put(&mut image, 18 * 256 + 4, &[0x7C]);
    let mut board = board_of(alloc, &g, &image)?;
    let mut memory = Memory::new(alloc, &g)?;
    let lent = memory.lend_reader();
    accept_reader(&g, &board, &lent)?;
    let ReaderLent { work, cache, .. } = lent;
    let mut v = View::new(g, &mut board, work, &mut [], cache);
    let mut into = [7u8; 4];
    assert!(rt; read_at(&mut v, 1, 247, &mut into) == Ok(4));
    assert!(rt; into == [0; 4]);
    let wanted = Tag { id: 1, span: 1 };
    let found = Tag {
        id: 0xFFFF,
        span: 0xFFFF,
    };
    let differ = Differ {
        page: 0xFFFF,
        wanted,
        found,
    };
    assert!(rt; read_at(&mut v, 1, 249, &mut into) == Err(StepErr::Damaged(differ)));
    let (nor, work, cache) = v.give_back();
    assert!(rt; nor.image().get(4096..4098) == Some([1u8, 0].as_slice()));
    assert!(rt; work.len() == g.work_need() as usize);
    assert!(rt; cache.len() == g.cache_need() as usize);
    Ok(())
}
