use rattle_host::assert;
#[allow(unused_imports)]
use rattle_host::prelude::*;
use rattle_host::vec;

use liverymenhir::nor_core::Nor;
use rattle_host::alloc::Global;
use rattle_host::test::Fail;
use spiffs::chip_row::{Chip, ChipRow, RowErr};
use spiffs::nor_memory::{CallKind, MemChip};

// A chip of two units of 8 bytes, all of them `fill`.
fn chip_of(alloc: Global, fill: u8) -> Result<MemChip, Fail> {
    let image = vec![in alloc; fill; 16]?;
    Ok(MemChip::new(alloc, image, 8)?)
}

// A row of these chips, in the order that they are given.
fn row_of(
    alloc: Global,
    first: MemChip,
    second: MemChip,
    third: MemChip,
) -> Result<ChipRow<MemChip>, Fail> {
    let mut chips = Vec::new(alloc);
    chips.push(first)?;
    chips.push(second)?;
    chips.push(third)?;
    Ok(ChipRow::new(chips, 16, 8).ok().ok_or("row")?)
}

// A row of three chips of 0xFF.
fn fresh_row(alloc: Global) -> Result<ChipRow<MemChip>, Fail> {
    let first = chip_of(alloc, 0xff)?;
    let second = chip_of(alloc, 0xff)?;
    row_of(alloc, first, second, chip_of(alloc, 0xff)?)
}

// Whether these bytes stand from `at` on.
fn holds(row: &mut ChipRow<MemChip>, at: u32, wanted: &[u8]) -> bool {
    let mut bytes = [0u8; 48];
    let into = &mut bytes[..wanted.len()];
    let answer = row.read(at, into);
    answer.is_ok() && *into == *wanted
}

fn programs(row: &mut ChipRow<MemChip>, at: u32, from: &[u8]) -> bool {
    row.program(at, from).is_ok()
}

#[test]
fn a_row_is_read_and_programmed_across_its_boundaries() {
    rattle_host::test::run(a_row_is_read_and_programmed_across_its_boundaries_with)
}

fn a_row_is_read_and_programmed_across_its_boundaries_with(rt: HostRuntime) -> Result<(), Fail> {
    let mut row = fresh_row(rt.alloc())?;
    assert!(rt; (row.size(), row.unit()) == (48, 8));
    assert!(rt; programs(&mut row, 14, &[1, 2, 3]));
    assert!(rt; holds(&mut row, 13, &[0xff, 1, 2, 3, 0xff]));
    assert!(rt; row.fuse_chip().is_none());
    Ok(())
}

#[test]
fn a_cut_in_a_program_leaves_a_front_of_it() {
    rattle_host::test::run(a_cut_in_a_program_leaves_a_front_of_it_with)
}

fn a_cut_in_a_program_leaves_a_front_of_it_with(rt: HostRuntime) -> Result<(), Fail> {
    for pick in 0..6 {
        let first = chip_of(rt.alloc(), 0xff)?;
        let mut second = chip_of(rt.alloc(), 0xff)?;
        second.cut_after(0, pick);
        let mut row = row_of(rt.alloc(), first, second, chip_of(rt.alloc(), 0xff)?)?;
        assert!(rt; !programs(&mut row, 14, &[0x0f; 20]));
        assert!(rt; row.fuse_chip() == Some(1));
        assert!(rt; holds(&mut row, 12, &[0xff, 0xff, 0x0f, 0x0f]));
        assert!(rt; holds(&mut row, 32, &[0xff, 0xff]));
        assert!(rt; !programs(&mut row, 16, &[0]));
        assert!(rt; programs(&mut row, 32, &[0]));
    }
    Ok(())
}

#[test]
fn a_chip_that_does_not_fit_is_handed_back() {
    rattle_host::test::run(a_chip_that_does_not_fit_is_handed_back_with)
}

fn a_chip_that_does_not_fit_is_handed_back_with(rt: HostRuntime) -> Result<(), Fail> {
    let mut row = fresh_row(rt.alloc())?;
    assert!(rt; programs(&mut row, 31, &[3, 4]));
    let Err(refusal) = row.replace(3, chip_of(rt.alloc(), 0xa5)?) else {
        return Err("no refusal".into());
    };
    assert!(rt; refusal.why == RowErr::NoSuchChip);
    assert!(rt; refusal.chip.image().starts_with(&[0xa5]));
    let short = MemChip::new(rt.alloc(), vec![in rt.alloc(); 0x5a; 8]?, 8)?;
    let Err(refusal) = row.replace(1, short) else {
        return Err("no refusal".into());
    };
    assert!(rt; refusal.why == RowErr::WrongSize);
    assert!(rt; refusal.chip.image().starts_with(&[0x5a]));
    let fine = MemChip::new(rt.alloc(), vec![in rt.alloc(); 0x5a; 16]?, 4)?;
    let Err(refusal) = row.replace(2, fine) else {
        return Err("no refusal".into());
    };
    assert!(rt; refusal.why == RowErr::WrongSize);
    assert!(rt; holds(&mut row, 30, &[0xff, 3, 4, 0xff]));
    Ok(())
}

#[test]
fn boxed_chips_make_a_row() {
    rattle_host::test::run(boxed_chips_make_a_row_with)
}

fn boxed_chips_make_a_row_with(rt: HostRuntime) -> Result<(), Fail> {
    let mut chips: Vec<Box<dyn Chip>> = Vec::new(rt.alloc());
    let mut first = chip_of(rt.alloc(), 0xff)?;
    first.fail_nth(CallKind::Program, 2);
    chips.push(rattle_host::boxed(rt.alloc(), first)?)?;
    chips.push(rattle_host::boxed(rt.alloc(), chip_of(rt.alloc(), 0xff)?)?)?;
    let mut row: ChipRow = ChipRow::new(chips, 16, 8).ok().ok_or("row")?;
    assert!(rt; row.size() == 32);
    row.program(15, &[1, 2]).ok().ok_or("program")?;
    row.erase(2, None).ok().ok_or("erase")?;
    assert!(rt; row.program(15, &[0, 0]).is_err());
    assert!(rt; row.fuse_chip() == Some(0));
    let mut bytes = [0u8; 4];
    row.read(14, &mut bytes).ok().ok_or("read")?;
    assert!(rt; bytes == [0xff, 1, 0xff, 0xff]);
    let other: Box<dyn Chip> = rattle_host::boxed(rt.alloc(), chip_of(rt.alloc(), 0)?)?;
    assert!(rt; row.replace(1, other).is_ok());
    row.read(14, &mut bytes).ok().ok_or("read again")?;
    assert!(rt; bytes == [0xff, 1, 0, 0]);
    Ok(())
}
