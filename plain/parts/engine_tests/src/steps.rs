//! Calls of a volume, one after the other, and what each is to tell.

use crate::bench::Memory;
use crate::images::has_erases;
use liverymenhir::geometry::Geometry;
use liverymenhir::nor_core::Nor;
use liverymenhir::table_model::{Call, FsErr, Whence};
use liverymenhir::vol_mount::accept;
use liverymenhir::volume::{CheckErr, MapErr, Report, Scrub, Space, Told, Volume};
use rattle_host::alloc::Global;
use rattle_host::assert;
#[allow(unused_imports)]
use rattle_host::prelude::*;
use rattle_host::process::Abort;
use rattle_host::test::Fail;
use spiffs::nor_memory::{CallKind, MemBoard};

/// A call of a volume, or a look at it, and what it is to tell.
#[derive(Clone, Copy)]
pub(crate) enum Step<'t> {
    /// It mounts, its check ends, and so many blocks are free.
    Starts(u32),
    /// A mount alone, and a check alone, ends.
    Mounts,
    Checks,
    Creates(&'t [u8], Result<(), FsErr>),
    Opens(&'t [u8], u32, Result<u16, FsErr>),
    /// A read into bytes of 7, as many as stand here: these are there afterwards.
    Reads(u16, Result<u32, FsErr>, &'t [u8]),
    Writes(u16, &'t [u8], Result<u32, FsErr>),
    /// Three bytes `f` are written.
    FillsThree(u16),
    Seeks(u16, u32, Result<u32, FsErr>),
    Tells(u16, Result<u32, FsErr>),
    Truncates(u16, u32, Result<(), FsErr>),
    Flushes(u16, Result<(), FsErr>),
    Closes(u16, Result<(), FsErr>),
    Removes(&'t [u8], Result<(), FsErr>),
    RemovesOpen(u16, Result<(), FsErr>),
    Renames(&'t [u8], &'t [u8], Result<(), FsErr>),
    SetsMeta(&'t [u8], Result<(), FsErr>),
    SetsMetaOpen(u16, Result<(), FsErr>),
    /// The file of a name has this id and this size.
    Stats(&'t [u8], u16, u32),
    /// The file of a descriptor has this id and this size.
    StatsOpen(u16, u16, u32),
    /// There is no file.
    HasNone,
    /// So many index pages.
    HasIndexPages(u32),
    Collects(Result<(), FsErr>),
    /// A step of a collection.
    CollectsStep(Result<bool, FsErr>),
    /// Room for a file of so many bytes.
    CollectsFor(u32, Result<(), FsErr>),
    /// A check, and a start without one, is refused.
    ChecksNot(CheckErr),
    ResumesNot(CheckErr),
    /// A mounted volume is taken as checked.
    Resumes,
    Settles(Result<(), FsErr>),
    HasSpace(Result<Space, FsErr>),
    /// A scrub with this limit, 1 to 32767.
    Scrubs(u16, Result<Scrub, FsErr>),
    /// The first blocks have these erase counts.
    HasErases(&'t [u8]),
    /// The chip holds these bytes.
    Holds(&'t [u8]),
    /// A read through the map, of the file's bytes from a place on, into bytes of 7, as many as stand here: these are there afterwards.
    ReadsMap(u32, Result<u32, MapErr>, &'t [u8]),
    /// The map tells these numbers, and no more.
    HasNumbers(&'t [u16]),
    /// The nth read of the chip from now on fails, and for 0 none.
    FailsRead(u64),
    /// Whether bytes are lent for a map.
    IsAttached(bool),
    /// The map's bytes are given back, so many; or none are lent.
    Detaches(Option<usize>),
    /// Whether a device fault ended the volume's work.
    HasFailed(bool),
    /// The blocks' numbers are counted.
    HasCounted,
}

/// Checks a volume, in bytes that are lent to that alone.
pub(crate) fn check<N: Nor>(volume: &mut Volume<'_, N>) -> Result<Report, CheckErr> {
    let mut marks = std::vec![0; volume.geometry.check_need() as usize];
    volume.check(&mut marks)
}

// Whether a volume mounts, its check ends, and so many blocks are free.
fn starts(volume: &mut Volume<'_, MemBoard>, free: u32) -> bool {
    let Ok(()) = volume.mount() else {
        return false;
    };
    matches!(check(volume), Ok(report) if report.free_blocks == free)
}

// Whether a read into bytes of 7 tells that, and leaves these.
fn reads(
    volume: &mut Volume<'_, MemBoard>,
    fd: u16,
    told: Result<u32, FsErr>,
    wanted: &[u8],
) -> bool {
    let mut bytes = [7u8; 4];
    let Some(into) = bytes.get_mut(..wanted.len()) else {
        return false;
    };
    volume.read(fd, into) == told && *into == *wanted
}

// The same of a read through the map.
fn reads_map(
    volume: &mut Volume<'_, MemBoard>,
    at: u32,
    told: Result<u32, MapErr>,
    wanted: &[u8],
) -> bool {
    let mut bytes = [7u8; 10];
    let Some(into) = bytes.get_mut(..wanted.len()) else {
        return false;
    };
    volume.read_map(at, into) == told && *into == *wanted
}

// Whether the map tells these numbers, and no more.
fn has_numbers(volume: &Volume<'_, MemBoard>, numbers: &[u16]) -> bool {
    let mut spans = 0u32;
    for number in numbers {
        if volume.map_page(spans) != Some(*number) {
            return false;
        }
        spans = spans.saturating_add(1);
    }
    volume.map_page(spans).is_none()
}

// Whether three bytes `f` are written.
fn fills_three(volume: &mut Volume<'_, MemBoard>, fd: u16) -> bool {
    let fill = Call::Fill {
        fd,
        count: 3,
        byte: b'f',
    };
    matches!(volume.answer(&fill, &mut [0; 3]), Told::Number(3))
}

// Whether a scrub with a limit from 1 to 32767 tells that.
fn scrubs(volume: &mut Volume<'_, MemBoard>, limit: u16, told: Result<Scrub, FsErr>) -> bool {
    limit >= 1 && limit <= 32767 && volume.scrub(limit) == told
}

// Whether a call of a descriptor is as its step says.
fn is_so_open(volume: &mut Volume<'_, MemBoard>, step: &Step<'_>) -> bool {
    match *step {
        Step::Reads(fd, told, wanted) => reads(volume, fd, told, wanted),
        Step::Writes(fd, bytes, told) => volume.write(fd, bytes) == told,
        Step::FillsThree(fd) => fills_three(volume, fd),
        Step::Seeks(fd, at, told) => volume.seek(fd, i64::from(at), Whence::Set) == told,
        Step::Tells(fd, told) => volume.tell(fd) == told,
        Step::Truncates(fd, size, told) => volume.truncate(fd, size) == told,
        Step::Flushes(fd, told) => volume.flush(fd) == told,
        Step::Closes(fd, told) => volume.close(fd) == told,
        Step::RemovesOpen(fd, told) => volume.fremove(fd) == told,
        Step::SetsMetaOpen(fd, told) => volume.fupdate_meta(fd, b"") == told,
        Step::StatsOpen(fd, id, size) => volume
            .fstat(fd)
            .is_ok_and(|stat| stat.id == id && stat.size == size),
        _ => false,
    }
}

/// Has the nth read of a volume's chip from now on fail, and for 0 none.
pub(crate) fn fail_read(volume: &mut Volume<'_, MemBoard>, nth: u64) {
    volume.nor_mut().fail_nth(CallKind::Read, nth);
}

// The same, as a step that is always as it says.
fn fails_read(volume: &mut Volume<'_, MemBoard>, nth: u64) -> bool {
    fail_read(volume, nth);
    true
}

// Whether a call of the map is as its step says.
fn is_so_mapped(volume: &mut Volume<'_, MemBoard>, step: &Step<'_>) -> bool {
    match *step {
        Step::ReadsMap(at, told, wanted) => reads_map(volume, at, told, wanted),
        Step::HasNumbers(numbers) => has_numbers(volume, numbers),
        Step::FailsRead(nth) => fails_read(volume, nth),
        Step::IsAttached(told) => volume.is_attached() == told,
        Step::Detaches(told) => volume.detach_map().map(|numbers| numbers.len()) == told,
        _ => is_so_open(volume, step),
    }
}

// Whether a step is as it says.
fn is_so(volume: &mut Volume<'_, MemBoard>, step: &Step<'_>) -> bool {
    match *step {
        Step::Starts(free) => starts(volume, free),
        Step::Mounts => volume.mount().is_ok(),
        Step::Checks => check(volume).is_ok(),
        Step::Creates(name, told) => volume.create(name) == told,
        Step::Opens(name, flags, told) => volume.open_file(name, flags) == told,
        Step::Removes(name, told) => volume.remove(name) == told,
        Step::Renames(old, new, told) => volume.rename(old, new) == told,
        Step::SetsMeta(name, told) => volume.update_meta(name, b"") == told,
        Step::Stats(name, id, size) => volume
            .stat(name)
            .is_ok_and(|stat| stat.id == id && stat.size == size),
        Step::HasNone => matches!(volume.next(0), Ok(None)),
        Step::HasIndexPages(count) => volume.info().is_ok_and(|info| info.index_pages == count),
        Step::HasSpace(told) => volume.space() == told,
        Step::Collects(told) => volume.gc() == told,
        Step::Settles(told) => volume.settle() == told,
        Step::CollectsStep(told) => volume.gc_step() == told,
        Step::CollectsFor(bytes, told) => volume.gc_for(bytes) == told,
        Step::ChecksNot(why) => check(volume) == Err(why),
        Step::ResumesNot(why) => volume.resume() == Err(why),
        Step::Resumes => volume.resume().is_ok(),
        Step::Scrubs(limit, told) => scrubs(volume, limit, told),
        Step::HasErases(counts) => has_erases(volume.nor().image(), counts),
        Step::Holds(image) => volume.nor().image() == image,
        Step::HasFailed(told) => volume.has_failed() == told,
        Step::HasCounted => volume.counted,
        _ => is_so_mapped(volume, step),
    }
}

/// Does steps on a volume.
pub(crate) fn follow(rt: &impl Abort, volume: &mut Volume<'_, MemBoard>, steps: &[Step<'_>]) {
    for (nth, step) in steps.iter().enumerate() {
        assert!(rt; is_so(volume, step), "step {nth}");
    }
}

/// Does steps on a device in memory that is lent anew. At the end the volume is unmounted, and `last` is told of its last work.
pub(crate) fn go(
    rt: &impl Abort,
    alloc: Global,
    g: &Geometry,
    board: &mut MemBoard,
    steps: &[Step<'_>],
    last: Result<(), FsErr>,
) -> Result<(), Fail> {
    let mut memory = Memory::new(alloc, g)?;
    let lent = memory.lend();
    accept(g, board, &lent)?;
    let mut volume = Volume::new(*g, board, lent);
    follow(rt, &mut volume, steps);
    assert!(rt; volume.unmount().last == last, "unmounted");
    Ok(())
}
