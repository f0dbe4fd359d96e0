//! A volume of fewer than two free blocks, which no command takes.

use crate::bench::board_of;
use crate::images::{filed, small};
use crate::steps::{Step, go};
use liverymenhir::table_model::FsErr;
use liverymenhir::volume::Space;
#[allow(unused_imports)]
use rattle_host::prelude::*;
use rattle_host::test::Fail;

#[test]
fn a_volume_of_one_free_block_removes_and_then_collects() {
    rattle_host::test::run(a_volume_of_one_free_block_removes_and_then_collects_with)
}

fn a_volume_of_one_free_block_removes_and_then_collects_with(rt: HostRuntime) -> Result<(), Fail> {
    let alloc = rt.alloc();
    let g = small()?;
    let image = filed(alloc, &g, 30)?;
    let mut board = board_of(alloc, &g, &image)?;
    let empty = Space {
        free_blocks: 4,
        free_pages: 60,
        deleted_pages: 0,
    };
    // no page is had, and nothing can be cleaned; then a removed file's pages are collected
    let steps = [
        Step::Starts(1),
        Step::Creates(b"a", Err(FsErr::Tight)),
        Step::Creates(b"ba", Err(FsErr::ConflictingName)),
        Step::Renames(b"ba", b"a", Err(FsErr::Tight)),
        Step::Collects(Ok(())),
        Step::Holds(&image),
        Step::Stats(b"ba", 1, 7530),
        Step::Removes(b"ba", Ok(())),
        Step::HasNone,
        Step::Creates(b"a", Err(FsErr::Tight)),
        Step::Collects(Ok(())),
        Step::HasSpace(Ok(empty)),
        Step::Creates(b"a", Ok(())),
        Step::HasIndexPages(1),
        Step::HasCounted,
        Step::HasFailed(false),
    ];
    go(&rt, alloc, &g, &mut board, &steps, Ok(()))
}
