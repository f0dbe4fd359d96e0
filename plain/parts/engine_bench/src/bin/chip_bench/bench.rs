//! Volumes on counting chips, and what is counted of their calls.

use crate::chip::{Chip, Counts};
use liverymenhir::{
    CheckErr, FdSlot, FsErr, Geometry, Lent, OpenFlags, Volume, accept, accept_check,
};
use std::error::Error;

/// What a piece of the bench answers.
pub type Done<T = ()> = Result<T, Box<dyn Error>>;

/// A volume of the bench.
pub type On<'b> = Volume<'b, Chip>;

/// Descriptors of a volume.
const SLOTS: usize = 4;

/// The flags of a file that is made if it is missing and appended to.
pub fn append() -> OpenFlags {
    OpenFlags::CREAT | OpenFlags::WRONLY | OpenFlags::APPEND
}

/// What was counted of some calls of one kind.
#[derive(Default)]
pub struct Meter {
    pub calls: u64,
    pub all: Counts,
    pub longest: u64,
}

impl Meter {
    /// Counts one call.
    pub fn call<'b, T>(
        &mut self,
        volume: &mut On<'b>,
        work: impl FnOnce(&mut On<'b>) -> Result<T, FsErr>,
    ) -> Done<T> {
        let before = volume.nor().counts;
        let told = work(volume)?;
        self.count(before, volume.nor().counts);
        Ok(told)
    }

    /// Counts what was asked of the chip between two moments as one call.
    pub fn count(&mut self, before: Counts, after: Counts) {
        let asked = after - before;
        self.calls += 1;
        self.all.reads += asked.reads;
        self.all.bytes += asked.bytes;
        self.all.programs += asked.programs;
        self.all.erases += asked.erases;
        self.longest = self.longest.max(asked.ns());
    }
}

/// How a volume is started.
#[derive(Clone, Copy, PartialEq)]
pub enum Start {
    /// It is formatted first.
    Format,
    /// Mounted and checked.
    Check,
    /// Mounted, and checked as a volume that this engine alone wrote.
    Own,
    /// Mounted alone.
    Mount,
    /// Mounted, and resumed without a check.
    Resume,
}

fn text_of(why: CheckErr) -> String {
    format!("{why:?}")
}

/// Starts a volume on an image, with so many copies of pages, or with one for each page (0), does something with it, and answers the image
/// after that.
pub fn on(
    g: &Geometry,
    image: Vec<u8>,
    frames: usize,
    how: Start,
    starting: &mut Meter,
    work: impl FnOnce(&mut On<'_>) -> Done,
) -> Done<Vec<u8>> {
    let mut chip = Chip {
        bytes: image,
        unit: g.phys() as usize,
        counts: Counts::default(),
    };
    let frames = if frames == 0 {
        g.pages() as usize
    } else {
        frames
    };
    let mut bytes = vec![0; g.work_need() as usize];
    let mut slots = vec![FdSlot::empty(); SLOTS];
    let mut cache = vec![0; g.cache_need() as usize * frames];
    let mut check = vec![0; g.check_need() as usize];
    let mut window = vec![0; g.page() as usize];
    let lent = Lent {
        work: &mut bytes,
        slots: &mut slots,
        cache: &mut cache,
        window: &mut window,
    };
    accept(g, &chip, &lent)?;
    accept_check(g, &check)?;
    let mut volume = Volume::new(*g, &mut chip, lent);
    if how == Start::Format {
        volume = volume.formatted()?;
    }
    let before = volume.nor().counts;
    volume.mount()?;
    match how {
        Start::Mount => {}
        Start::Own => drop(volume.check_own(&mut check).map_err(text_of)?),
        Start::Resume => volume.resume().map_err(text_of)?,
        Start::Format | Start::Check => drop(volume.check(&mut check).map_err(text_of)?),
    }
    starting.count(before, volume.nor().counts);
    work(&mut volume)?;
    volume.unmount().last?;
    Ok(chip.bytes)
}

/// The next of a row of numbers that is the same each time, below another one.
pub fn drawn(x: &mut u64, below: u32) -> u32 {
    *x = x
        .wrapping_mul(6364136223846793005)
        .wrapping_add(1442695040888963407);
    ((*x >> 33) % u64::from(below)) as u32
}
