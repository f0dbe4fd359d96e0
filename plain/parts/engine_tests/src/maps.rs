//! The map of a file: when its bytes are lent and given back, and what it tells.

use crate::bench::{Memory, board_of};
use crate::images::{filed, put, small};
use crate::steps::{Step, follow};
use liverymenhir::geometry::{Geometry, MagicKind};
use liverymenhir::nor_core::Failed;
use liverymenhir::table_model::FsErr;
use liverymenhir::vol_mount::accept;
use liverymenhir::volume::{MapErr, Scrub, Volume, map_need};
use rattle_host::assert;
#[allow(unused_imports)]
use rattle_host::prelude::*;
use rattle_host::test::Fail;
use spiffs::nor_memory::CallKind;

// No number, for a span that the file doesn't have.
const NONE: u16 = 0xFFFF;

#[test]
fn a_map_tells_the_pages_of_its_spans() {
    rattle_host::test::run(a_map_tells_the_pages_of_its_spans_with)
}

fn a_map_tells_the_pages_of_its_spans_with(rt: HostRuntime) -> Result<(), Fail> {
    let alloc = rt.alloc();
    let g = small()?;
    let mut board = board_of(alloc, &g, &filed(alloc, &g, 0)?)?;
    let mut memory = Memory::new(alloc, &g)?;
    let mut numbers = [7u8; 2];
    let lent = memory.lend();
    accept(&g, &board, &lent)?;
    let mut volume = Volume::new(g, &mut board, lent);
    let opened = [
        Step::Starts(3),
        Step::ReadsMap(0, Err(MapErr::NoMap), &[7]),
        Step::HasNumbers(&[]),
        Step::IsAttached(false),
        Step::Detaches(None),
        Step::Opens(b"a", 20 | 8, Ok(1)),
        Step::Writes(1, b"hello", Ok(5)),
    ];
    follow(&rt, &mut volume, &opened);
    assert!(rt; volume.attach_map(1, 0, &mut numbers).is_ok());
    // the bytes that waited are on the chip
    let grown = [
        Step::IsAttached(true),
        Step::ReadsMap(0, Ok(5), b"hello\x07\x07"),
        Step::ReadsMap(1, Ok(3), b"ell"),
        Step::ReadsMap(5, Ok(0), &[7]),
        Step::ReadsMap(6, Ok(0), &[7]),
        Step::ReadsMap(4_294_967_295, Ok(0), &[7]),
        Step::ReadsMap(0, Ok(0), &[]),
        Step::Writes(1, b"ab", Ok(2)),
        Step::ReadsMap(3, Ok(4), b"loab\x07"),
        Step::Opens(b"ba", 8, Err(FsErr::OutOfDescriptors)),
    ];
    follow(&rt, &mut volume, &grown);
    // one byte lies in the second span, for which there is no room
    assert!(rt; volume.write(1, &[b'x'; 245]) == Ok(245));
    let closed = [
        Step::ReadsMap(250, Ok(1), b"x"),
        Step::ReadsMap(250, Err(MapErr::NotMapped), &[7, 7]),
        Step::ReadsMap(251, Err(MapErr::NotMapped), &[7]),
        Step::ReadsMap(252, Ok(0), &[7]),
        Step::Closes(1, Ok(())),
        Step::Collects(Ok(())),
        Step::ReadsMap(4, Ok(4), b"oabx"),
        Step::Removes(b"a", Ok(())),
        Step::ReadsMap(0, Err(MapErr::NoMap), &[7]),
        Step::HasNumbers(&[]),
        Step::IsAttached(true),
        // a file that takes its id isn't mapped
        Step::Creates(b"c", Ok(())),
        Step::Stats(b"c", 2, 0),
        Step::ReadsMap(0, Err(MapErr::NoMap), &[7]),
        Step::Detaches(Some(2)),
        Step::IsAttached(false),
        Step::Detaches(None),
    ];
    follow(&rt, &mut volume, &closed);
    Ok(())
}

#[test]
fn a_map_that_is_refused_gives_its_bytes_back() {
    rattle_host::test::run(a_map_that_is_refused_gives_its_bytes_back_with)
}

fn a_map_that_is_refused_gives_its_bytes_back_with(rt: HostRuntime) -> Result<(), Fail> {
    let alloc = rt.alloc();
    let g = small()?;
    let mut board = board_of(alloc, &g, &filed(alloc, &g, 2)?)?;
    let mut memory = Memory::new(alloc, &g)?;
    let mut numbers = [9u8; 4];
    let mut more = [5u8; 6];
    let lent = memory.lend();
    accept(&g, &board, &lent)?;
    let mut volume = Volume::new(g, &mut board, lent);
    let Err(back) = volume.attach_map_of(1, 0, &mut numbers) else {
        return Err(Failed)?;
    };
    assert!(rt; back.why == MapErr::Call(FsErr::Failed) && *back.numbers == [9; 4]);
    follow(
        &rt,
        &mut volume,
        &[Step::Starts(2), Step::IsAttached(false)],
    );
    let Err(back) = volume.attach_map(1, 0, back.numbers) else {
        return Err(Failed)?;
    };
    assert!(rt; back.why == MapErr::Call(FsErr::BadDescriptor) && *back.numbers == [9; 4]);
    let Err(back) = volume.attach_map_of(2, 0, back.numbers) else {
        return Err(Failed)?;
    };
    assert!(rt; back.why == MapErr::Call(FsErr::NotFound) && back.numbers.len() == 4);
    assert!(rt; volume.attach_map_of(1, 0, back.numbers).is_ok());
    // that a map is attached is told before the id is looked for
    let Err(back) = volume.attach_map_of(2, 0, &mut more) else {
        return Err(Failed)?;
    };
    assert!(rt; back.why == MapErr::MapBusy && *back.numbers == [5; 6]);
    let Err(back) = volume.attach_map(9, 0, back.numbers) else {
        return Err(Failed)?;
    };
    assert!(rt; back.why == MapErr::MapBusy && *back.numbers == [5; 6]);
    let kept = [
        Step::HasNumbers(&[17, 18]),
        Step::ReadsMap(250, Ok(2), &[0, 1]),
        Step::Detaches(Some(4)),
    ];
    follow(&rt, &mut volume, &kept);
    assert!(rt; volume.attach_map_of(1, 1, back.numbers).is_ok());
    follow(&rt, &mut volume, &[Step::HasNumbers(&[18, NONE, NONE])]);
    Ok(())
}

#[test]
fn a_map_of_few_bytes_tells_as_many_spans_as_have_room() {
    rattle_host::test::run(a_map_of_few_bytes_tells_as_many_spans_as_have_room_with)
}

fn a_map_of_few_bytes_tells_as_many_spans_as_have_room_with(rt: HostRuntime) -> Result<(), Fail> {
    let alloc = rt.alloc();
    let g = small()?;
    let mut board = board_of(alloc, &g, &filed(alloc, &g, 2)?)?;
    let mut memory = Memory::new(alloc, &g)?;
    let mut one = [7u8; 1];
    let mut three = [7u8; 3];
    let mut five = [7u8; 5];
    let lent = memory.lend();
    accept(&g, &board, &lent)?;
    let mut volume = Volume::new(g, &mut board, lent);
    follow(&rt, &mut volume, &[Step::Starts(2)]);
    assert!(rt; map_need(&g, 502) == 4 && map_need(&g, 503) == 6 && map_need(&g, 0) == 0);
    assert!(rt; volume.attach_map_of(1, 0, &mut []).is_ok());
    let none = [
        Step::IsAttached(false),
        Step::HasNumbers(&[]),
        Step::ReadsMap(0, Err(MapErr::NotMapped), &[7]),
        Step::ReadsMap(502, Ok(0), &[7]),
        Step::Detaches(None),
        Step::ReadsMap(502, Err(MapErr::NoMap), &[7]),
    ];
    follow(&rt, &mut volume, &none);
    assert!(rt; volume.attach_map_of(1, 0, &mut one).is_ok());
    let no_room = [
        Step::IsAttached(true),
        Step::HasNumbers(&[]),
        Step::ReadsMap(0, Err(MapErr::NotMapped), &[7]),
        Step::ReadsMap(0, Ok(0), &[]),
        Step::Detaches(Some(1)),
    ];
    follow(&rt, &mut volume, &no_room);
    assert!(rt; volume.attach_map_of(1, 1, &mut three).is_ok());
    let second = [
        Step::HasNumbers(&[18]),
        Step::ReadsMap(250, Err(MapErr::NotMapped), &[7]),
        Step::ReadsMap(251, Ok(2), &[1, 1]),
        Step::ReadsMap(500, Ok(2), &[1, 1, 7]),
        Step::Detaches(Some(3)),
    ];
    follow(&rt, &mut volume, &second);
    // the last span of all has room for one number
    assert!(rt; volume.attach_map_of(1, 65535, &mut five).is_ok());
    let last = [
        Step::HasNumbers(&[NONE]),
        Step::ReadsMap(0, Err(MapErr::NotMapped), &[7]),
        Step::ReadsMap(502, Ok(0), &[7]),
    ];
    follow(&rt, &mut volume, &last);
    Ok(())
}

#[test]
fn spans_past_the_end_are_told_once_they_are_there() {
    rattle_host::test::run(spans_past_the_end_are_told_once_they_are_there_with)
}

fn spans_past_the_end_are_told_once_they_are_there_with(rt: HostRuntime) -> Result<(), Fail> {
    let alloc = rt.alloc();
    let g = small()?;
    let mut board = board_of(alloc, &g, &filed(alloc, &g, 2)?)?;
    let mut memory = Memory::new(alloc, &g)?;
    let mut numbers = [7u8; 6];
    let lent = memory.lend();
    accept(&g, &board, &lent)?;
    let mut volume = Volume::new(g, &mut board, lent);
    follow(
        &rt,
        &mut volume,
        &[Step::Starts(2), Step::Opens(b"ba", 17, Ok(1))],
    );
    assert!(rt; volume.attach_map(1, 2, &mut numbers).is_ok());
    let steps = [
        Step::HasNumbers(&[NONE, NONE, NONE]),
        Step::ReadsMap(0, Err(MapErr::NotMapped), &[7]),
        Step::ReadsMap(501, Err(MapErr::NotMapped), &[7]),
        Step::ReadsMap(502, Ok(0), &[7]),
        // bytes that wait are not in a page yet
        Step::Writes(1, b"xyz", Ok(3)),
        Step::HasNumbers(&[NONE, NONE, NONE]),
        Step::ReadsMap(502, Ok(3), b"xyz\x07"),
        Step::HasNumbers(&[19, NONE, NONE]),
        Step::ReadsMap(501, Err(MapErr::NotMapped), &[7, 7]),
        Step::Truncates(1, 502, Ok(())),
        Step::HasNumbers(&[NONE, NONE, NONE]),
        Step::ReadsMap(502, Ok(0), &[7]),
        Step::Writes(1, b"w", Ok(1)),
        Step::Flushes(1, Ok(())),
        Step::HasNumbers(&[20, NONE, NONE]),
        Step::ReadsMap(502, Ok(1), b"w\x07"),
        // a file that is opened to be emptied keeps its id, and its map
        Step::Closes(1, Ok(())),
        Step::Opens(b"ba", 18, Ok(1)),
        Step::HasNumbers(&[NONE, NONE, NONE]),
        Step::ReadsMap(0, Ok(0), &[7]),
        Step::IsAttached(true),
    ];
    follow(&rt, &mut volume, &steps);
    Ok(())
}

#[test]
fn a_map_tells_where_pages_were_moved() {
    rattle_host::test::run(a_map_tells_where_pages_were_moved_with)
}

fn a_map_tells_where_pages_were_moved_with(rt: HostRuntime) -> Result<(), Fail> {
    let alloc = rt.alloc();
    let g = Geometry::new(256, 4096, 16, 4096, 0, MagicKind::Length)?;
    let mut image = filed(alloc, &g, 2)?;
    for block in 2..16 {
        put(&mut image, block * 4096 + 254, &[5, 0]);
    }
    let mut board = board_of(alloc, &g, &image)?;
    let mut memory = Memory::new(alloc, &g)?;
    let mut numbers = [7u8; 4];
    let lent = memory.lend();
    accept(&g, &board, &lent)?;
    let mut volume = Volume::new(g, &mut board, lent);
    follow(&rt, &mut volume, &[Step::Starts(14)]);
    assert!(rt; volume.attach_map_of(1, 0, &mut numbers).is_ok());
    let steps = [
        Step::HasNumbers(&[17, 18]),
        // the header page goes to the first free block, then the data pages to the next one
        Step::Scrubs(5, Ok(Scrub::Moved { block: 0, age: 6 })),
        Step::HasNumbers(&[17, 18]),
        Step::Scrubs(5, Ok(Scrub::Moved { block: 1, age: 7 })),
        Step::HasNumbers(&[49, 50]),
        Step::ReadsMap(250, Ok(2), &[0, 1]),
        Step::Scrubs(1, Ok(Scrub::Rested)),
        Step::HasNumbers(&[49, 50]),
        // an overwritten page gets another number
        Step::Opens(b"ba", 24, Ok(1)),
        Step::Writes(1, b"x", Ok(1)),
        Step::HasNumbers(&[49, 50]),
        Step::Settles(Ok(())),
        Step::HasNumbers(&[51, 50]),
        Step::Renames(b"ba", b"b", Ok(())),
        Step::ReadsMap(0, Ok(2), &[b'x', 0]),
        // a check gives the map up; the bytes stay lent
        Step::Mounts,
        Step::Checks,
        Step::HasNumbers(&[]),
        Step::ReadsMap(0, Err(MapErr::NoMap), &[7]),
    ];
    follow(&rt, &mut volume, &steps);
    let Some(numbers) = volume.detach_map() else {
        return Err(Failed)?;
    };
    assert!(rt; volume.attach_map_of(1, 1, numbers).is_ok());
    // and so does a mount
    let mounts = [
        Step::HasNumbers(&[50, NONE]),
        Step::Mounts,
        Step::HasNumbers(&[]),
        Step::Detaches(Some(4)),
    ];
    follow(&rt, &mut volume, &mounts);
    Ok(())
}

#[test]
fn a_volume_that_has_failed_has_no_map() {
    rattle_host::test::run(a_volume_that_has_failed_has_no_map_with)
}

fn a_volume_that_has_failed_has_no_map_with(rt: HostRuntime) -> Result<(), Fail> {
    let alloc = rt.alloc();
    let g = small()?;
    let mut board = board_of(alloc, &g, &filed(alloc, &g, 2)?)?;
    board.fail_nth(CallKind::Program, 1);
    let mut memory = Memory::new(alloc, &g)?;
    let mut numbers = [7u8; 4];
    let lent = memory.lend();
    accept(&g, &board, &lent)?;
    let mut volume = Volume::new(g, &mut board, lent);
    follow(
        &rt,
        &mut volume,
        &[Step::Starts(2), Step::Opens(b"ba", 24, Ok(1))],
    );
    assert!(rt; volume.attach_map(1, 0, &mut numbers).is_ok());
    let fault = Err(MapErr::Call(FsErr::DeviceFault));
    let failed = Err(MapErr::Call(FsErr::Failed));
    let steps = [
        Step::Writes(1, b"x", Ok(1)),
        Step::HasNumbers(&[17, 18]),
        // what waits can't be put onto the chip
        Step::ReadsMap(0, fault, &[7]),
        Step::HasFailed(true),
        Step::HasNumbers(&[]),
        Step::ReadsMap(0, failed, &[7]),
    ];
    follow(&rt, &mut volume, &steps);
    let Some(numbers) = volume.detach_map() else {
        return Err(Failed)?;
    };
    let Err(back) = volume.attach_map_of(1, 0, numbers) else {
        return Err(Failed)?;
    };
    assert!(rt; back.why == MapErr::Call(FsErr::Failed) && back.numbers.len() == 4);
    follow(
        &rt,
        &mut volume,
        &[Step::IsAttached(false), Step::Starts(2)],
    );
    assert!(rt; volume.attach_map_of(1, 0, back.numbers).is_ok());
    follow(&rt, &mut volume, &[Step::ReadsMap(250, Ok(2), &[0, 1])]);
    Ok(())
}
