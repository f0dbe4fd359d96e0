//! Names, faults and full volumes on a volume itself.

use crate::bench::{Memory, board_of};
use crate::images::{filed, small};
use crate::steps::check;
use liverymenhir::table_model::FsErr;
use liverymenhir::vol_mount::accept;
use liverymenhir::volume::Volume;
use rattle_host::assert;
#[allow(unused_imports)]
use rattle_host::prelude::*;
use rattle_host::test::Fail;
use spiffs::nor_memory::CallKind;

#[test]
fn a_name_on_a_volume_has_from_1_to_31_bytes() {
    rattle_host::test::run(a_name_on_a_volume_has_from_1_to_31_bytes_with)
}

fn a_name_on_a_volume_has_from_1_to_31_bytes_with(rt: HostRuntime) -> Result<(), Fail> {
    let alloc = rt.alloc();
    let g = small()?;
    let mut board = board_of(alloc, &g, &filed(alloc, &g, 2)?)?;
    let mut memory = Memory::new(alloc, &g)?;
    let lent = memory.lend();
    accept(&g, &board, &lent)?;
    let mut volume = Volume::new(g, &mut board, lent);
    volume.mount()?;
    check(&mut volume)?;
    let long = [b'n'; 32];
    for (name, told) in [
        (b"".as_slice(), Err(FsErr::BadName)),
        (&long, Err(FsErr::NameTooLong)),
        (&long[..31], Ok(())),
        (&long[1..], Err(FsErr::ConflictingName)),
    ] {
        assert!(rt; volume.create(name) == told);
    }
    assert!(rt; volume.rename(b"ba", b"ba") == Err(FsErr::ConflictingName));
    assert!(rt; volume.rename(b"ba", b"") == Err(FsErr::BadName));
    Ok(())
}

#[test]
fn a_volume_whose_chip_failed_takes_no_call() {
    rattle_host::test::run(a_volume_whose_chip_failed_takes_no_call_with)
}

fn a_volume_whose_chip_failed_takes_no_call_with(rt: HostRuntime) -> Result<(), Fail> {
    let alloc = rt.alloc();
    let g = small()?;
    let mut board = board_of(alloc, &g, &filed(alloc, &g, 2)?)?;
    // a create makes four programs: the seventh is the third of the second create
    board.fail_nth(CallKind::Program, 7);
    let mut memory = Memory::new(alloc, &g)?;
    let lent = memory.lend();
    accept(&g, &board, &lent)?;
    let mut volume = Volume::new(g, &mut board, lent);
    volume.mount()?;
    check(&mut volume)?;
    assert!(rt; volume.create(b"a") == Ok(()));
    assert!(rt; !volume.has_failed());
    assert!(rt; volume.create(b"b") == Err(FsErr::DeviceFault));
    assert!(rt; volume.has_failed());
    assert!(rt; volume.create(b"c") == Err(FsErr::Failed));
    volume.mount()?;
    check(&mut volume)?;
    assert!(rt; volume.stat(b"a").is_ok());
    assert!(rt; matches!(volume.stat(b"b"), Err(FsErr::NotFound)));
    Ok(())
}

#[test]
fn a_volume_of_one_free_block_is_read() {
    rattle_host::test::run(a_volume_of_one_free_block_is_read_with)
}

fn a_volume_of_one_free_block_is_read_with(rt: HostRuntime) -> Result<(), Fail> {
    let alloc = rt.alloc();
    let g = small()?;
    let image = filed(alloc, &g, 30)?;
    let mut board = board_of(alloc, &g, &image)?;
    let mut memory = Memory::new(alloc, &g)?;
    let lent = memory.lend();
    accept(&g, &board, &lent)?;
    let mut volume = Volume::new(g, &mut board, lent);
    volume.mount()?;
    check(&mut volume)?;
    let mut bytes = [7u8; 4];
    assert!(rt; volume.open_file(b"ba", 8) == Ok(1));
    assert!(rt; volume.read(1, &mut bytes) == Ok(4));
    assert!(rt; bytes == [0, 0, 0, 0]);
    assert!(rt; volume.rename(b"ba", b"b") == Err(FsErr::Tight));
    assert!(rt; volume.gc() == Ok(()));
    assert!(rt; volume.nor().image() == image.as_slice());
    assert!(rt; volume.remove(b"ba") == Ok(()));
    Ok(())
}
