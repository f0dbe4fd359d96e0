//! Reads of the device: how many a read through a map asks for, and what is left of a map where one fails.

use crate::bench::{Memory, board_of};
use crate::images::{filed, small};
use crate::map_numbers::is_right;
use crate::steps::{Step, follow};
use liverymenhir::geometry::Geometry;
use liverymenhir::nor_core::Failed;
use liverymenhir::table_model::FsErr;
use liverymenhir::vol_mount::accept;
use liverymenhir::volume::{MapErr, Volume};
use rattle_host::alloc::Global;
use rattle_host::assert;
#[allow(unused_imports)]
use rattle_host::prelude::*;
use rattle_host::process::Abort;
use rattle_host::test::Fail;

#[test]
fn a_read_through_a_map_reads_each_data_page_once() {
    rattle_host::test::run(a_read_through_a_map_reads_each_data_page_once_with)
}

fn a_read_through_a_map_reads_each_data_page_once_with(rt: HostRuntime) -> Result<(), Fail> {
    let alloc = rt.alloc();
    let g = small()?;
    let mut board = board_of(alloc, &g, &filed(alloc, &g, 5)?)?;
    let mut memory = Memory::new(alloc, &g)?;
    let mut numbers = [7u8; 10];
    let lent = memory.lend();
    accept(&g, &board, &lent)?;
    let mut volume = Volume::new(g, &mut board, lent);
    follow(&rt, &mut volume, &[Step::Starts(2)]);
    assert!(rt; volume.attach_map_of(1, 0, &mut numbers).is_ok());
    // from where, how many bytes, and in how many pages they lie
    for (at, len, met) in [
        (0, 1, 1),
        (250, 2, 2),
        (753, 251, 1),
        (1, 1000, 4),
        (1254, 9, 1),
        (1255, 9, 0),
    ] {
        let mut into = [7u8; 1000];
        let given = 1255u32.saturating_sub(at).min(len);
        follow(&rt, &mut volume, &[Step::FailsRead(met + 1)]);
        assert!(rt; volume.read_map(at, &mut into[..len as usize]) == Ok(given));
        assert!(rt; given == 0 || u32::from(into[0]) == at / 251);
    }
    let fault = Err(MapErr::Call(FsErr::DeviceFault));
    let failing = [
        Step::FailsRead(2),
        Step::ReadsMap(250, fault, &[0, 7]),
        Step::HasFailed(false),
        Step::ReadsMap(250, Ok(2), &[0, 1]),
        Step::HasNumbers(&[17, 18, 19, 20, 21]),
    ];
    follow(&rt, &mut volume, &failing);
    Ok(())
}

// How a write goes on a volume with a map.
#[derive(Clone, Copy, PartialEq, Eq)]
enum Way {
    /// The device failed in it.
    Fails,
    /// It is done, and there is no map any more.
    LosesMap,
    /// It is done, and the map is right.
    Keeps,
}

// How a write goes on a volume with a map, of which the nth read fails. A volume without a map tells the same, and has the same bytes.
fn write_failing(rt: &impl Abort, alloc: Global, g: &Geometry, nth: u64) -> Result<Way, Fail> {
    let image = filed(alloc, g, 2)?;
    let mut board = board_of(alloc, g, &image)?;
    let mut other = board_of(alloc, g, &image)?;
    let mut memory = Memory::new(alloc, g)?;
    let mut more = Memory::new(alloc, g)?;
    let mut numbers = [7u8; 8];
    let mut spare = [7u8; 8];
    let (lent, lent_too) = (memory.lend(), more.lend());
    accept(g, &board, &lent)?;
    accept(g, &other, &lent_too)?;
    let mut volume = Volume::new(*g, &mut board, lent);
    let mut without = Volume::new(*g, &mut other, lent_too);
    let begin = [Step::Starts(2), Step::Opens(b"ba", 56, Ok(1))];
    follow(rt, &mut volume, &begin);
    follow(rt, &mut without, &begin);
    assert!(rt; volume.attach_map(1, 0, &mut numbers).is_ok());
    // its cache is to hold the same pages
    assert!(rt; without.attach_map(1, 0, &mut spare).is_ok());
    let fails = [Step::FailsRead(nth)];
    follow(rt, &mut volume, &fails);
    follow(
        rt,
        &mut without,
        &[Step::Detaches(Some(8)), Step::FailsRead(nth)],
    );
    let told = volume.write(1, &[b'q'; 600]);
    assert!(rt; without.write(1, &[b'q'; 600]) == told);
    assert!(rt; volume.nor().image() == without.nor().image());
    if told != Ok(600) {
        assert!(rt; told == Err(FsErr::DeviceFault));
        assert!(rt; volume.has_failed() || is_right(&volume, g, 4));
        return Ok(Way::Fails);
    }
    let read = Step::ReadsMap(597, Ok(3), b"qqq\x07");
    if volume.map.used {
        assert!(rt; is_right(&volume, g, 4));
        follow(rt, &mut volume, &[Step::FailsRead(0), read]);
        return Ok(Way::Keeps);
    }
    follow(
        rt,
        &mut volume,
        &[
            Step::ReadsMap(0, Err(MapErr::NoMap), &[7]),
            Step::IsAttached(true),
        ],
    );
    let Some(numbers) = volume.detach_map() else {
        return Err(Failed)?;
    };
    assert!(rt; volume.attach_map(1, 0, numbers).is_ok());
    assert!(rt; is_right(&volume, g, 4));
    follow(rt, &mut volume, &[read]);
    Ok(Way::LosesMap)
}

#[test]
fn a_fault_loses_a_map_and_not_the_call() {
    rattle_host::test::run(a_fault_loses_a_map_and_not_the_call_with)
}

fn a_fault_loses_a_map_and_not_the_call_with(rt: HostRuntime) -> Result<(), Fail> {
    let alloc = rt.alloc();
    let g = small()?;
    let mut failed = 0u32;
    let mut lost = 0u32;
    let mut nth = 0u64;
    let mut last = Way::Fails;
    while nth < 200 && last != Way::Keeps {
        nth += 1;
        last = write_failing(&rt, alloc, &g, nth)?;
        match last {
            Way::Fails => failed += 1,
            Way::LosesMap => lost += 1,
            Way::Keeps => {}
        }
    }
    assert!(rt; failed > 0 && lost > 0 && last == Way::Keeps);
    Ok(())
}
