//! The calls of descriptors on a volume itself.

use crate::bench::board_of;
use crate::images::{filed, small};
use crate::steps::{Step, go};
use liverymenhir::table_model::FsErr;
#[allow(unused_imports)]
use rattle_host::prelude::*;
use rattle_host::test::Fail;

#[test]
fn a_file_is_opened_read_and_closed() {
    rattle_host::test::run(a_file_is_opened_read_and_closed_with)
}

fn a_file_is_opened_read_and_closed_with(rt: HostRuntime) -> Result<(), Fail> {
    let alloc = rt.alloc();
    let g = small()?;
    let mut board = board_of(alloc, &g, &filed(alloc, &g, 2)?)?;
    let steps = [
        Step::Opens(b"ba", 8, Err(FsErr::Failed)),
        Step::Starts(2),
        Step::Opens(b"ba", 8, Ok(1)),
        Step::Opens(b"ba", 8, Err(FsErr::OutOfDescriptors)),
        Step::Seeks(1, 249, Ok(249)),
        Step::Reads(1, Ok(4), &[0, 0, 1, 1]),
        Step::Tells(1, Ok(253)),
        Step::Seeks(1, 500, Ok(500)),
        Step::Reads(1, Ok(2), &[1, 1, 7, 7]),
        Step::Reads(1, Ok(0), &[7; 4]),
        Step::Reads(1, Ok(0), &[]),
        Step::StatsOpen(1, 1, 502),
        Step::SetsMeta(b"ba", Ok(())),
        Step::SetsMetaOpen(1, Err(FsErr::NotWritable)),
        Step::Flushes(1, Ok(())),
        Step::Closes(1, Ok(())),
        Step::Tells(1, Err(FsErr::BadDescriptor)),
        Step::HasCounted,
    ];
    go(&rt, alloc, &g, &mut board, &steps, Ok(()))
}

#[test]
fn an_opening_makes_a_file_and_a_remove_closes_it() {
    rattle_host::test::run(an_opening_makes_a_file_and_a_remove_closes_it_with)
}

fn an_opening_makes_a_file_and_a_remove_closes_it_with(rt: HostRuntime) -> Result<(), Fail> {
    let alloc = rt.alloc();
    let g = small()?;
    let mut board = board_of(alloc, &g, &filed(alloc, &g, 2)?)?;
    let steps = [
        Step::Starts(2),
        Step::Opens(b"new", 12, Ok(1)),
        Step::StatsOpen(1, 2, 0),
        Step::Removes(b"new", Ok(())),
        Step::Tells(1, Err(FsErr::BadDescriptor)),
        Step::Opens(b"ba", 10, Err(FsErr::BadFlags)),
        Step::Opens(b"ba", 26, Ok(1)),
        Step::StatsOpen(1, 1, 0),
        Step::RemovesOpen(1, Ok(())),
        Step::Tells(1, Err(FsErr::BadDescriptor)),
        Step::HasNone,
        Step::HasCounted,
    ];
    go(&rt, alloc, &g, &mut board, &steps, Ok(()))
}
