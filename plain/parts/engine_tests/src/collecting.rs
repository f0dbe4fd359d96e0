//! Collection in idle time and for a file, a start without a check, and calls before a check or after one.

use crate::bench::board_of;
use crate::images::{filed, small};
use crate::steps::{Step, go};
use liverymenhir::table_model::FsErr;
use liverymenhir::volume::{CheckErr, Scrub, Space};
#[allow(unused_imports)]
use rattle_host::prelude::*;
use rattle_host::test::Fail;

// What is free once the file's bytes are overwritten: the old header page and the old data page are deleted.
const OVERWRITTEN: Space = Space {
    free_blocks: 2,
    free_pages: 55,
    deleted_pages: 2,
};

// .. and once each block is cleaned that is worth it.
const CLEANED: Space = Space {
    free_blocks: 2,
    free_pages: 57,
    deleted_pages: 0,
};

#[test]
fn steps_of_a_collection_end_where_a_collection_ends() {
    rattle_host::test::run(steps_of_a_collection_end_where_a_collection_ends_with)
}

fn steps_of_a_collection_end_where_a_collection_ends_with(rt: HostRuntime) -> Result<(), Fail> {
    let alloc = rt.alloc();
    let g = small()?;
    let mut board = board_of(alloc, &g, &filed(alloc, &g, 2)?)?;
    let steps = [
        Step::Starts(2),
        Step::Opens(b"ba", 16, Ok(1)),
        // what waits is put onto the chip first
        Step::Writes(1, b"xyz", Ok(3)),
        Step::HasErases(&[0, 0, 0, 0]),
        // the block of the header page, that of the data pages, and that of the header page again, which names the moved ones
        Step::CollectsStep(Ok(true)),
        Step::HasErases(&[1, 0, 0, 0]),
        Step::CollectsStep(Ok(true)),
        Step::HasErases(&[1, 2, 0, 0]),
        Step::CollectsStep(Ok(true)),
        Step::HasErases(&[1, 2, 3, 0]),
        Step::CollectsStep(Ok(false)),
        Step::HasErases(&[1, 2, 3, 0]),
        Step::HasSpace(Ok(CLEANED)),
        Step::Collects(Ok(())),
        Step::HasSpace(Ok(CLEANED)),
        Step::Stats(b"ba", 1, 502),
    ];
    go(&rt, alloc, &g, &mut board, &steps, Ok(()))
}

#[test]
fn blocks_are_cleaned_for_a_file_only_if_there_is_need() {
    rattle_host::test::run(blocks_are_cleaned_for_a_file_only_if_there_is_need_with)
}

fn blocks_are_cleaned_for_a_file_only_if_there_is_need_with(rt: HostRuntime) -> Result<(), Fail> {
    let alloc = rt.alloc();
    let g = small()?;
    let mut board = board_of(alloc, &g, &filed(alloc, &g, 2)?)?;
    let steps = [
        Step::Starts(2),
        Step::Opens(b"ba", 16, Ok(1)),
        Step::Writes(1, b"xyz", Ok(3)),
        Step::Flushes(1, Ok(())),
        Step::HasSpace(Ok(OVERWRITTEN)),
        // block 1 has 12 pages that were never written
        Step::CollectsFor(12 * 251, Ok(())),
        Step::HasSpace(Ok(OVERWRITTEN)),
        Step::CollectsFor(12 * 251 + 1, Ok(())),
        Step::CollectsFor(13 * 251, Ok(())),
        Step::CollectsFor(13 * 251 + 1, Err(FsErr::Full)),
        Step::CollectsFor(u32::MAX, Err(FsErr::Full)),
        Step::HasSpace(Ok(CLEANED)),
    ];
    go(&rt, alloc, &g, &mut board, &steps, Ok(()))
}

#[test]
fn a_volume_is_taken_up_again_where_its_unmount_left_it() {
    rattle_host::test::run(a_volume_is_taken_up_again_where_its_unmount_left_it_with)
}

fn a_volume_is_taken_up_again_where_its_unmount_left_it_with(rt: HostRuntime) -> Result<(), Fail> {
    let alloc = rt.alloc();
    let g = small()?;
    let mut board = board_of(alloc, &g, &filed(alloc, &g, 2)?)?;
    let before = [
        Step::Starts(2),
        Step::Opens(b"ba", 16, Ok(1)),
        Step::Writes(1, b"xyz", Ok(3)),
    ];
    go(&rt, alloc, &g, &mut board, &before, Ok(()))?;
    let image = board.image().to_vec();
    let after = [
        Step::Mounts,
        Step::FailsRead(1),
        Step::ResumesNot(CheckErr::DeviceFault),
        Step::Settles(Err(FsErr::Failed)),
        Step::FailsRead(0),
        Step::Resumes,
        Step::HasCounted,
        Step::Holds(&image),
        Step::HasSpace(Ok(OVERWRITTEN)),
        // descriptor 1 was closed
        Step::Flushes(1, Err(FsErr::BadDescriptor)),
        Step::Opens(b"ba", 8, Ok(1)),
        Step::Reads(1, Ok(4), &[b'x', b'y', b'z', 0]),
    ];
    go(&rt, alloc, &g, &mut board, &after, Ok(()))
}

#[test]
fn calls_out_of_turn_are_refused_and_leave_the_chip() {
    rattle_host::test::run(calls_out_of_turn_are_refused_and_leave_the_chip_with)
}

fn calls_out_of_turn_are_refused_and_leave_the_chip_with(rt: HostRuntime) -> Result<(), Fail> {
    let alloc = rt.alloc();
    let g = small()?;
    // page 5 of block 0 has an entry that no file needs, which a check would kill
    let mut image = filed(alloc, &g, 2)?;
    crate::images::put(&mut image, 10, &[2, 0]);
    let mut board = board_of(alloc, &g, &image)?;
    let refused = [
        Step::CollectsStep(Err(FsErr::Failed)),
        Step::CollectsFor(1, Err(FsErr::Failed)),
        Step::Collects(Err(FsErr::Failed)),
        Step::Scrubs(1, Err(FsErr::Failed)),
        Step::Settles(Err(FsErr::Failed)),
        Step::HasSpace(Err(FsErr::Failed)),
        Step::Creates(b"f", Err(FsErr::Failed)),
        Step::Opens(b"ba", 8, Err(FsErr::Failed)),
        Step::Removes(b"ba", Err(FsErr::Failed)),
        Step::Renames(b"ba", b"f", Err(FsErr::Failed)),
        Step::SetsMeta(b"ba", Err(FsErr::Failed)),
        Step::Writes(1, b"f", Err(FsErr::Failed)),
        Step::Truncates(1, 0, Err(FsErr::Failed)),
        Step::Closes(1, Err(FsErr::Failed)),
        Step::RemovesOpen(1, Err(FsErr::Failed)),
        Step::Holds(&image),
    ];
    let unmounted = [
        Step::ChecksNot(CheckErr::NotMounted),
        Step::ResumesNot(CheckErr::NotMounted),
        Step::Holds(&image),
    ];
    let mounted = [Step::Mounts];
    let all: std::vec::Vec<Step<'_>> = unmounted.iter().chain(&refused).chain(&mounted).chain(&refused).copied().collect();
    go(&rt, alloc, &g, &mut board, &all, Ok(()))?;
    let mut board = board_of(alloc, &g, &filed(alloc, &g, 2)?)?;
    let checked = [
        Step::Starts(2),
        Step::Opens(b"ba", 16, Ok(1)),
        Step::ChecksNot(CheckErr::NotMounted),
        Step::ResumesNot(CheckErr::NotMounted),
        // the descriptor is open still, and bytes go on waiting
        Step::Writes(1, b"xyz", Ok(3)),
        Step::ChecksNot(CheckErr::NotMounted),
        Step::Flushes(1, Ok(())),
        Step::HasSpace(Ok(OVERWRITTEN)),
        Step::Scrubs(1, Ok(Scrub::Rested)),
    ];
    go(&rt, alloc, &g, &mut board, &checked, Ok(()))
}
