//! Writes and truncates on a volume itself, and devices that fail in them.

use crate::bench::{Memory, board_of};
use crate::images::{filed, small};
use crate::steps::{Step, go};
use liverymenhir::table_model::FsErr;
use liverymenhir::vol_mount::{Reader, accept_reader};
use rattle_host::alloc::Global;
use rattle_host::assert;
#[allow(unused_imports)]
use rattle_host::prelude::*;
use rattle_host::test::Fail;
use spiffs::nor_memory::{CallKind, MemBoard};

// A device with the file `ba` of 502 bytes in two data pages, of which the program of that number is to fail.
fn board(alloc: Global, nth: u64) -> Result<MemBoard, Fail> {
    let g = small()?;
    let mut board = board_of(alloc, &g, &filed(alloc, &g, 2)?)?;
    board.fail_nth(CallKind::Program, nth);
    Ok(board)
}

#[test]
fn a_volume_that_is_unmounted_has_all_its_bytes_on_the_chip() {
    rattle_host::test::run(a_volume_that_is_unmounted_has_all_its_bytes_on_the_chip_with)
}

fn a_volume_that_is_unmounted_has_all_its_bytes_on_the_chip_with(
    rt: HostRuntime,
) -> Result<(), Fail> {
    let alloc = rt.alloc();
    let g = small()?;
    let mut board = board(alloc, 0)?;
    // calls that write and cut, and one that waits in the end
    let steps = [
        Step::Starts(2),
        Step::Opens(b"ba", 24, Ok(1)),
        Step::Writes(1, b"", Ok(0)),
        Step::Writes(1, b"xyz", Ok(3)),
        Step::Tells(1, Ok(3)),
        Step::Seeks(1, 1, Ok(1)),
        Step::Reads(1, Ok(4), &[b'y', b'z', 0, 0]),
        Step::Truncates(1, 503, Err(FsErr::SeekBounds)),
        Step::Truncates(1, 4, Ok(())),
        Step::Tells(1, Ok(4)),
        Step::FillsThree(1),
        Step::StatsOpen(1, 1, 7),
        Step::Writes(1, b"w", Ok(1)),
    ];
    go(&rt, alloc, &g, &mut board, &steps, Ok(()))?;
    let mut memory = Memory::new(alloc, &g)?;
    let lent = memory.lend_reader();
    accept_reader(&g, &board, &lent)?;
    let mut reader = Reader::new(g, &mut board, lent);
    reader.mount()?;
    let mut into = [7u8; 9];
    assert!(rt; reader.read_at(1, 0, &mut into) == Ok(8));
    assert!(rt; into == *b"xyz\0fffw\x07");
    Ok(())
}

#[test]
fn a_fault_as_waiting_bytes_are_put_onto_the_chip_is_told() {
    rattle_host::test::run(a_fault_as_waiting_bytes_are_put_onto_the_chip_is_told_with)
}

fn a_fault_as_waiting_bytes_are_put_onto_the_chip_is_told_with(
    rt: HostRuntime,
) -> Result<(), Fail> {
    let alloc = rt.alloc();
    let g = small()?;
    let mut board = board(alloc, 2)?;
    let steps = [
        Step::Starts(2),
        Step::Opens(b"ba", 16, Ok(1)),
        Step::Writes(1, b"xyz", Ok(3)),
        Step::HasFailed(false),
        Step::Settles(Err(FsErr::DeviceFault)),
        Step::HasFailed(true),
        Step::Tells(1, Ok(3)),
        Step::Writes(1, b"1", Err(FsErr::Failed)),
        Step::Truncates(1, 0, Err(FsErr::Failed)),
        Step::Settles(Err(FsErr::Failed)),
        Step::Starts(2),
        Step::Tells(1, Err(FsErr::BadDescriptor)),
        Step::Opens(b"ba", 25, Ok(1)),
        Step::Reads(1, Ok(2), &[0, 0]),
        Step::Writes(1, b"1", Ok(1)),
        Step::Settles(Ok(())),
        Step::StatsOpen(1, 1, 503),
    ];
    go(&rt, alloc, &g, &mut board, &steps, Ok(()))
}

#[test]
fn a_fault_of_the_last_work_is_told_as_the_volume_is_unmounted() {
    rattle_host::test::run(a_fault_of_the_last_work_is_told_as_the_volume_is_unmounted_with)
}

fn a_fault_of_the_last_work_is_told_as_the_volume_is_unmounted_with(
    rt: HostRuntime,
) -> Result<(), Fail> {
    let alloc = rt.alloc();
    let g = small()?;
    let steps = [
        Step::Starts(2),
        Step::Opens(b"ba", 17, Ok(1)),
        Step::Writes(1, b"xyz", Ok(3)),
    ];
    for (nth, last) in [(1, Err(FsErr::DeviceFault)), (100, Ok(()))] {
        let mut board = board(alloc, nth)?;
        go(&rt, alloc, &g, &mut board, &steps, last)?;
    }
    Ok(())
}
