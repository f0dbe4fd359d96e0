//! Drawn calls with power cuts, on a volume with few page copies: `chip_soak BLOCKS FRAMES SEED COUNT`.
//!
//! The volume has pages of 256 bytes and blocks of 4,096, in memory. COUNT calls are made, and their answers, and all files now and then, are held
//! against files in memory. The power goes off inside drawn programs and erases, also while the volume is checked. Then the files have to be those
//! at some point of the calls, no earlier than the last one that returned but for bytes that may wait. With two free blocks each call, and a cut in it
//! with a check that isn't cut, leaves two, and no call but one that truncates is refused as `Tight`. A life of the volume that isn't cut ends
//! by an unmount, and half of these are followed by a `resume` in the place of a check. Half of the checks are `check_own`: before each start what
//! that wants of the chip is held to be so, and after it the chip and the report to be those of a `check`. It tells how many calls, cuts and refusals
//! there were; at the first thing that is wrong it tells that, and ends with 1.

mod chip;
mod life;
mod model;
mod own;

use chip::Chip;
use life::{End, Life, files_of, has_two, sizes};
use liverymenhir::{
    CheckErr, FdSlot, FsErr, Geometry, Lent, MagicKind, MountErr, Report, Volume, format,
};
use model::{Model, Table, Write};
use own::{checked, written_free_page};
use std::env;
use std::error::Error;

/// The next of a row of numbers that is the same each time, below another one.
pub fn drawn(x: &mut u64, below: u32) -> u32 {
    *x = x
        .wrapping_mul(6364136223846793005)
        .wrapping_add(1442695040888963407);
    ((*x >> 33) % u64::from(below)) as u32
}

/// Memory that is lent to a volume.
struct Memory {
    work: Vec<u8>,
    cache: Vec<u8>,
    window: Vec<u8>,
    slots: Vec<FdSlot>,
    check: Vec<u8>,
}

impl Memory {
    fn new(g: &Geometry, frames: usize) -> Self {
        Memory {
            work: vec![0xA5; g.work_need() as usize],
            cache: vec![0xA5; g.cache_need() as usize * frames],
            window: vec![0xA5; g.page() as usize],
            slots: vec![FdSlot::empty(); 4],
            check: vec![0xA5; g.check_need() as usize],
        }
    }

    // What is lent to a volume, and to its check.
    fn lent(&mut self) -> (Lent<'_>, &mut [u8]) {
        let lent = Lent {
            work: &mut self.work,
            slots: &mut self.slots,
            cache: &mut self.cache,
            window: &mut self.window,
        };
        (lent, &mut self.check)
    }
}

/// What follows a mount.
#[derive(Clone, Copy, PartialEq)]
enum Start {
    Check,
    Own,
    Resume,
}

/// What was left when the power went off: what was called, and what it would leave.
type Left = Option<(Option<Write>, Table)>;

struct Soak {
    g: Geometry,
    memory: Memory,
    chip: Chip,
    model: Model,
    seed: u64,
    left: Left,
    is_tidy: bool,
    // whether two blocks were free before the call that was cut, and no check was cut since
    had_two: bool,
    calls: u64,
    cuts: u64,
    owns: u64,
    resumes: u64,
    refusals: u64,
}

impl Soak {
    // How a volume is started: after an unmount some are resumed, and half of the others are checked as own volumes.
    fn draw_start(&mut self) -> Start {
        let resume = self.is_tidy && drawn(&mut self.seed, 2) == 0;
        self.is_tidy = false;
        if resume {
            self.resumes += 1;
            return Start::Resume;
        }
        if drawn(&mut self.seed, 2) == 0 {
            self.owns += 1;
            return Start::Own;
        }
        Start::Check
    }

    // Mounts and starts a volume, and reads its files. None are told where the power went off.
    fn start(
        g: &Geometry,
        volume: &mut Volume<'_, Chip>,
        check: &mut [u8],
        how: Start,
    ) -> Result<Option<Table>, String> {
        let before = volume.nor().bytes.clone();
        if let Some(page) = written_free_page(g, &before) {
            return Err(format!("page {page} is free and not erased"));
        }
        match volume.mount() {
            Ok(()) => {}
            Err(MountErr::DeviceFault) => return Ok(None),
            Err(why) => return Err(format!("mount of {} blocks: {why:?}", g.blocks())),
        }
        let started = match how {
            Start::Resume => volume.resume().map(|()| None),
            Start::Own => volume.check_own(check).map(Some),
            Start::Check => volume.check(check).map(|_| None),
        };
        match started {
            Ok(Some(report)) => Self::compare(g, before, report, &volume.nor().bytes)?,
            Ok(None) => {}
            Err(CheckErr::DeviceFault) => return Ok(None),
            Err(why) => return Err(format!("check: {why:?}")),
        }
        // (the files are read before anything is written, and nothing is cut there)
        files_of(volume)
            .map(Some)
            .map_err(|why| format!("files after a start: {why:?}"))
    }

    // Holds what a check of an own volume told and left against a check.
    fn compare(g: &Geometry, before: Vec<u8>, report: Report, now: &[u8]) -> Result<(), String> {
        let whole = checked(g, before)?;
        if whole.0 != report || whole.1 != now {
            return Err(format!("check_own: {report:?}; check: {:?}", whole.0));
        }
        Ok(())
    }

    // A life of the volume: it is started, and takes calls until the power goes off or so many are done.
    fn live(&mut self, most: u64) -> Result<(), String> {
        let how = self.draw_start();
        let Soak {
            g,
            memory,
            chip,
            model,
            seed,
            ..
        } = self;
        chip.is_off = false;
        chip.left =
            u64::from(drawn(seed, 6)) * u64::from(drawn(seed, 1000)) + u64::from(drawn(seed, 40));
        let (lent, check) = memory.lent();
        let mut volume = Volume::new(*g, chip, lent);
        let Some(found) = Self::start(g, &mut volume, check, how)? else {
            self.cuts += 1;
            self.had_two = false;
            return Ok(());
        };
        let body = g.body() as usize;
        let (write, after) = self.left.take().unwrap_or((None, model.sure.clone()));
        if !model.allows(body, write.as_ref(), &after, &found) {
            return Err(format!(
                "after a start: {:?}; sure were {:?}, after the call {:?}",
                sizes(&found),
                sizes(&model.sure),
                sizes(&after)
            ));
        }
        model.settle(found);
        match has_two(&mut volume) {
            Ok(false) if self.had_two => {
                return Err("fewer than two free blocks after a start".into());
            }
            Ok(_) => {}
            Err(_) => return Err("no space is told".into()),
        }
        let calls = 1 + u64::from(drawn(seed, 2000));
        let mut life = Life::new(&mut volume, model, seed, body);
        for _ in 0..calls.min(most) {
            self.calls += 1;
            match life.step() {
                Ok(()) => {}
                Err(End::Wrong(why)) => return Err(why),
                Err(End::Off) => {
                    self.cuts += 1;
                    self.refusals += life.refusals;
                    self.had_two = life.has_two;
                    self.left = Some(life.under_way());
                    return Ok(());
                }
            }
        }
        self.refusals += life.refusals;
        let now = model.now();
        self.had_two = matches!(has_two(&mut volume), Ok(true));
        self.left = Some((None, now));
        match volume.unmount().last {
            Ok(()) => {
                let now = model.now();
                model.settle(now);
                self.is_tidy = true;
                Ok(())
            }
            Err(FsErr::DeviceFault) => {
                self.cuts += 1;
                Ok(())
            }
            Err(why) => Err(format!("unmount: {why:?}")),
        }
    }
}

fn main() -> Result<(), Box<dyn Error>> {
    let words: Vec<String> = env::args().skip(1).collect();
    let [blocks, frames, seed, count] = words.as_slice() else {
        return Err("BLOCKS FRAMES SEED COUNT".into());
    };
    let g = Geometry::new(256, 4096, blocks.parse()?, 4096, 0, MagicKind::Length)?;
    let frames: usize = frames.parse()?;
    let seed: u64 = seed.parse()?;
    let mut chip = Chip {
        bytes: vec![0xFF; (g.blocks() * g.block()) as usize],
        unit: 4096,
        left: u64::MAX,
        is_off: false,
        seed,
    };
    format(&g, &mut chip)?;
    let memory = Memory::new(&g, frames);
    let mut soak = Soak {
        g,
        memory,
        chip,
        model: Model::default(),
        seed: seed.wrapping_mul(0x9E37_79B9_7F4A_7C15),
        left: None,
        is_tidy: false,
        had_two: true,
        calls: 0,
        cuts: 0,
        owns: 0,
        resumes: 0,
        refusals: 0,
    };
    let count: u64 = count.parse()?;
    while soak.calls < count {
        let most = count - soak.calls;
        if let Err(why) = soak.live(most) {
            return Err(format!("{why} ({} calls, {} cuts)", soak.calls, soak.cuts).into());
        }
    }
    let Soak {
        calls,
        cuts,
        owns,
        resumes,
        refusals,
        ..
    } = soak;
    println!(
        "{calls} calls, {cuts} cuts, {owns} checks of an own volume, {resumes} resumes, {refusals} refusals"
    );
    Ok(())
}
