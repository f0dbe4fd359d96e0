//! Calls, and what the plain flat table answers to each of them.

use liverymenhir::geometry::{Geometry, MagicKind};
use liverymenhir::table_model::{Call, FsErr};
use rattle_host::assert;
#[allow(unused_imports)]
use rattle_host::prelude::*;
use rattle_host::process::Abort;
use rattle_host::test::Fail;
use spiffs::plain_table::{Flat, Said};

// What a call is to answer: a file by its id, size, name and meta bytes.
#[derive(Clone, Copy)]
enum Want<'a> {
    Done,
    Number(u32),
    Bytes(&'a [u8]),
    File(u16, usize, &'a [u8], &'a [u8]),
    NoMore,
    Refusal(FsErr),
}

fn is_wanted(said: &Said, want: &Want<'_>) -> bool {
    match (said, want) {
        (Said::Done, Want::Done) => true,
        (Said::Number(n), Want::Number(m)) => n == m,
        (Said::Bytes(bytes), Want::Bytes(wanted)) => bytes.as_slice() == *wanted,
        (Said::File(f), Want::File(id, size, name, meta)) => {
            f.id == *id
                && f.kind == 1
                && f.bytes.len() == *size
                && f.name.as_slice() == *name
                && f.meta.as_slice() == *meta
        }
        (Said::NoMore, Want::NoMore) => true,
        (Said::Refusal(why), Want::Refusal(wanted)) => why == wanted,
        _ => false,
    }
}

fn run(rt: &impl Abort, flat: &mut Flat, rows: &[(Call<'_>, Want<'_>)]) -> Result<(), Fail> {
    for (call, want) in rows.iter() {
        let said = flat.answer(true, call)?;
        assert!(rt; is_wanted(&said, want), "{:?} answers {:?}", call, said);
    }
    Ok(())
}

fn open(name: &[u8], flags: u32) -> Call<'_> {
    Call::OpenFile { name, flags }
}

fn create(name: &[u8]) -> Call<'_> {
    Call::Create { name }
}

fn set_meta(meta: &[u8]) -> Call<'_> {
    Call::SetMeta { name: b"a", meta }
}

#[test]
fn calls_are_answered_by_the_rules() {
    rattle_host::test::run(calls_are_answered_by_the_rules_with)
}

fn calls_are_answered_by_the_rules_with(rt: HostRuntime) -> Result<(), Fail> {
    let g = Geometry::new(256, 4096, 16, 4096, 4, MagicKind::Length)?;
    let mut flat = Flat::new(rt.alloc(), g, 2)?;
    let hello = Call::Write {
        fd: 1,
        bytes: b"hello",
    };
    let by_descriptor = Call::FSetMeta {
        fd: 2,
        meta: b"wxyz",
    };
    run(
        &rt,
        &mut flat,
        &[
            (create(b""), Want::Refusal(FsErr::BadName)),
            (create(&[97; 32]), Want::Refusal(FsErr::NameTooLong)),
            (open(b"a", 28), Want::Number(1)),
            (hello, Want::Number(5)),
            (open(b"a", 8), Want::Number(2)),
            (open(b"b", 20), Want::Refusal(FsErr::OutOfDescriptors)),
            (Call::Read { fd: 2, count: 10 }, Want::Bytes(b"hello")),
            (Call::Truncate { fd: 1, size: 2 }, Want::Done),
            (Call::Tell { fd: 2 }, Want::Number(2)),
            (
                Call::Truncate { fd: 1, size: 3 },
                Want::Refusal(FsErr::SeekBounds),
            ),
            (set_meta(b"abc"), Want::Refusal(FsErr::BadFlags)),
            (set_meta(b"abcd"), Want::Done),
            (by_descriptor, Want::Refusal(FsErr::NotWritable)),
            (Call::FStat { fd: 2 }, Want::File(1, 2, b"a", b"abcd")),
            (Call::FRemove { fd: 1 }, Want::Done),
            (Call::Tell { fd: 2 }, Want::Refusal(FsErr::BadDescriptor)),
            (create(b"c"), Want::Done),
            (create(b"c"), Want::Refusal(FsErr::ConflictingName)),
            (Call::Next { after: 0 }, Want::File(1, 0, b"c", &[0xFF; 4])),
            (Call::Next { after: 1 }, Want::NoMore),
        ],
    )?;
    // with fewer than two free blocks
    let tight = flat.answer(false, &create(b"d"))?;
    assert!(rt; is_wanted(&tight, &Want::Refusal(FsErr::Tight)));
    let removed = flat.answer(false, &Call::Remove { name: b"c" })?;
    assert!(rt; is_wanted(&removed, &Want::Done));
    Ok(())
}
