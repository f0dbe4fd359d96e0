//! What is free on a volume, as files come and go.

use crate::bench::board_of;
use crate::images::{filed, small};
use crate::steps::{Step, go};
use liverymenhir::table_model::FsErr;
use liverymenhir::volume::Space;
#[allow(unused_imports)]
use rattle_host::prelude::*;
use rattle_host::test::Fail;

#[test]
fn space_tells_what_is_on_the_chip() {
    rattle_host::test::run(space_tells_what_is_on_the_chip_with)
}

fn space_tells_what_is_on_the_chip_with(rt: HostRuntime) -> Result<(), Fail> {
    let alloc = rt.alloc();
    let g = small()?;
    let mut board = board_of(alloc, &g, &filed(alloc, &g, 2)?)?;
    let first = Space {
        free_blocks: 2,
        free_pages: 57,
        deleted_pages: 0,
    };
    let overwritten = Space {
        free_blocks: 2,
        free_pages: 55,
        deleted_pages: 2,
    };
    let empty = Space {
        free_blocks: 4,
        free_pages: 60,
        deleted_pages: 0,
    };
    let steps = [
        Step::HasSpace(Err(FsErr::Failed)),
        Step::Starts(2),
        Step::HasSpace(Ok(first)),
        Step::Opens(b"ba", 16, Ok(1)),
        Step::Writes(1, b"xyz", Ok(3)),
        Step::HasSpace(Ok(first)),
        Step::Flushes(1, Ok(())),
        Step::HasSpace(Ok(overwritten)),
        Step::Removes(b"ba", Ok(())),
        Step::Collects(Ok(())),
        Step::HasSpace(Ok(empty)),
    ];
    go(&rt, alloc, &g, &mut board, &steps, Ok(()))
}
