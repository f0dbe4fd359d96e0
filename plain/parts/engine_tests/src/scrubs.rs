//! Scrubs: the least worn block in use is moved.

use crate::bench::{Memory, board_of};
use crate::images::{filed, formatted, has_erases, put, small};
use crate::steps::{Step, go};
use liverymenhir::flash_view::View;
use liverymenhir::geometry::{Geometry, MagicKind};
use liverymenhir::table_model::FsErr;
use liverymenhir::vol_mount::{ReaderLent, accept_reader};
use liverymenhir::volume::{Scrub, Space};
use liverymenhir::wear_scrub::scrub_step;
use rattle_host::alloc::{AllocError, Global};
use rattle_host::assert;
#[allow(unused_imports)]
use rattle_host::prelude::*;
use rattle_host::test::Fail;
use spiffs::nor_memory::CallKind;

// Pages of 256 bytes in sixteen blocks of 4,096.
fn wide() -> Result<Geometry, Fail> {
    Ok(Geometry::new(256, 4096, 16, 4096, 0, MagicKind::Length)?)
}

// The file `ba` of two data pages. Its blocks 0 and 1 have the erase count 0, and all others 5.
fn worn(alloc: Global, g: &Geometry) -> Result<Vec<u8>, AllocError> {
    let mut image = filed(alloc, g, 2)?;
    for block in 2..g.blocks {
        put(&mut image, block as usize * 4096 + 254, &[5, 0]);
    }
    Ok(image)
}

// The block of the header page is moved, and the next erase count is 6.
const FIRST: Scrub = Scrub::Moved { block: 0, age: 6 };

// Then that of the data pages, and the next one is 7.
const SECOND: Scrub = Scrub::Moved { block: 1, age: 7 };

// The erase counts before it,
const BEFORE: [u8; 16] = [0, 0, 5, 5, 5, 5, 5, 5, 5, 5, 5, 5, 5, 5, 5, 5];

// between them,
const BETWEEN: [u8; 16] = [6, 0, 5, 5, 5, 5, 5, 5, 5, 5, 5, 5, 5, 5, 5, 5];

// and after them.
const AFTER: [u8; 16] = [6, 7, 5, 5, 5, 5, 5, 5, 5, 5, 5, 5, 5, 5, 5, 5];

#[test]
fn the_least_worn_blocks_in_use_are_moved() {
    rattle_host::test::run(the_least_worn_blocks_in_use_are_moved_with)
}

fn the_least_worn_blocks_in_use_are_moved_with(rt: HostRuntime) -> Result<(), Fail> {
    let alloc = rt.alloc();
    let g = wide()?;
    let image = worn(alloc, &g)?;
    let mut board = board_of(alloc, &g, &image)?;
    // in use are the header page, its copy of before the data pages were moved, and the data pages
    let space = Space {
        free_blocks: 14,
        free_pages: 236,
        deleted_pages: 1,
    };
    let steps = [
        Step::Scrubs(5, Err(FsErr::Failed)),
        Step::Starts(14),
        Step::Scrubs(6, Ok(Scrub::Rested)),
        Step::Holds(&image),
        Step::HasErases(&BEFORE),
        Step::Scrubs(5, Ok(FIRST)),
        Step::HasErases(&BETWEEN),
        Step::Scrubs(5, Ok(SECOND)),
        Step::HasErases(&AFTER),
        // its blocks are three counts behind the next one now, as the free ones are
        Step::Scrubs(1, Ok(Scrub::Rested)),
        Step::HasErases(&AFTER),
        Step::HasSpace(Ok(space)),
        Step::Stats(b"ba", 1, 502),
        Step::Opens(b"ba", 8, Ok(1)),
        Step::Seeks(1, 249, Ok(249)),
        Step::Reads(1, Ok(4), &[0, 0, 1, 1]),
        Step::HasFailed(false),
    ];
    go(&rt, alloc, &g, &mut board, &steps, Ok(()))
}

#[test]
fn bytes_that_wait_are_put_onto_the_chip_by_a_scrub() {
    rattle_host::test::run(bytes_that_wait_are_put_onto_the_chip_by_a_scrub_with)
}

fn bytes_that_wait_are_put_onto_the_chip_by_a_scrub_with(rt: HostRuntime) -> Result<(), Fail> {
    let alloc = rt.alloc();
    for (g, free, limit, told) in [
        (wide()?, 14, 5, FIRST),
        (wide()?, 14, 6, Scrub::Rested),
        // with two free blocks those with deleted pages are cleaned first, and then none is old enough
        (small()?, 2, 5, Scrub::Rested),
    ] {
        let image = worn(alloc, &g)?;
        let mut board = board_of(alloc, &g, &image)?;
        // a mount drops what waits
        let steps = [
            Step::Starts(free),
            Step::Opens(b"ba", 24, Ok(1)),
            Step::Writes(1, b"lost", Ok(4)),
            Step::Starts(free),
            Step::Opens(b"ba", 24, Ok(1)),
            Step::Writes(1, b"xyz", Ok(3)),
            Step::Holds(&image),
            Step::Scrubs(limit, Ok(told)),
            Step::Starts(free),
        ];
        go(&rt, alloc, &g, &mut board, &steps, Ok(()))?;
        let fresh = [
            Step::Starts(free),
            Step::Stats(b"ba", 1, 502),
            Step::Opens(b"ba", 8, Ok(1)),
            Step::Reads(1, Ok(4), b"xyz\0"),
        ];
        go(&rt, alloc, &g, &mut board, &fresh, Ok(()))?;
    }
    Ok(())
}

#[test]
fn a_volume_that_has_failed_is_not_scrubbed() {
    rattle_host::test::run(a_volume_that_has_failed_is_not_scrubbed_with)
}

fn a_volume_that_has_failed_is_not_scrubbed_with(rt: HostRuntime) -> Result<(), Fail> {
    let alloc = rt.alloc();
    let g = wide()?;
    let image = worn(alloc, &g)?;
    let waits = Step::Writes(1, b"xyz", Ok(3));
    let none_waits = Step::Tells(1, Ok(0));
    let settle = Step::Settles(Err(FsErr::DeviceFault));
    let scrub = Step::Scrubs(5, Err(FsErr::DeviceFault));
    // where the erase of the block fails its page was moved out, and it is in use still
    for (kind, before, fails, free) in [
        (CallKind::Program, waits, settle, 14),
        (CallKind::Program, waits, scrub, 14),
        (CallKind::Program, none_waits, scrub, 14),
        (CallKind::Erase, none_waits, scrub, 13),
    ] {
        let mut board = board_of(alloc, &g, &image)?;
        board.fail_nth(kind, 1);
        let steps = [
            Step::Starts(14),
            Step::Opens(b"ba", 16, Ok(1)),
            before,
            fails,
            Step::HasFailed(true),
            Step::Scrubs(5, Err(FsErr::Failed)),
            Step::HasErases(&BEFORE),
            Step::Starts(free),
            Step::Scrubs(5, Ok(FIRST)),
            Step::HasErases(&BETWEEN),
        ];
        go(&rt, alloc, &g, &mut board, &steps, Ok(()))?;
    }
    Ok(())
}

#[test]
fn a_scrub_that_rests_asks_for_no_program_and_no_erase() {
    rattle_host::test::run(a_scrub_that_rests_asks_for_no_program_and_no_erase_with)
}

fn a_scrub_that_rests_asks_for_no_program_and_no_erase_with(rt: HostRuntime) -> Result<(), Fail> {
    let alloc = rt.alloc();
    let g = wide()?;
    for (image, free) in [(formatted(alloc, &g)?, 16), (filed(alloc, &g, 2)?, 14)] {
        let mut board = board_of(alloc, &g, &image)?;
        // the first program or erase ends the power
        board.cut_after(0, 1);
        let steps = [
            Step::Starts(free),
            Step::Scrubs(1, Ok(Scrub::Rested)),
            Step::Holds(&image),
            Step::HasFailed(false),
            Step::Creates(b"a", Err(FsErr::DeviceFault)),
            Step::HasFailed(true),
        ];
        go(&rt, alloc, &g, &mut board, &steps, Err(FsErr::Failed))?;
    }
    Ok(())
}

#[test]
fn a_scrub_step_of_a_view_without_counts_moves_the_same_blocks() {
    rattle_host::test::run(a_scrub_step_of_a_view_without_counts_moves_the_same_blocks_with)
}

fn a_scrub_step_of_a_view_without_counts_moves_the_same_blocks_with(
    rt: HostRuntime,
) -> Result<(), Fail> {
    let alloc = rt.alloc();
    let g = wide()?;
    let mut board = board_of(alloc, &g, &worn(alloc, &g)?)?;
    let mut memory = Memory::new(alloc, &g)?;
    let lent = memory.lend_reader();
    accept_reader(&g, &board, &lent)?;
    let ReaderLent { work, cache, .. } = lent;
    let mut v = View::new(g, &mut board, work, &mut [], cache);
    for (limit, told) in [
        (6, Scrub::Rested),
        (5, FIRST),
        (5, SECOND),
        (1, Scrub::Rested),
    ] {
        assert!(rt; scrub_step(&mut v, limit) == Ok(told));
    }
    let (nor, ..) = v.give_back();
    assert!(rt; has_erases(nor.image(), &AFTER));
    Ok(())
}
