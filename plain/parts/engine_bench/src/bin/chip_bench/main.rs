//! Counts what calls ask of a chip, for `bench/chip`: `chip_bench PAGE BLOCK BLOCKS FRAMES,.. [start]`.
//!
//! The volume is made in memory, with erase units of a block and no meta bytes. FRAMES are numbers of page copies. For each of them a line is
//! printed for each row: FRAMES, the row's name, how many calls (or files, or listings) were counted, all their reads, bytes that were read,
//! programs and erases, their time on a chip behind SPI, and that of the longest call, in nanoseconds; with tabs between. With `start` there are
//! only the rows of the start. Each number is the same each time.

mod bench;
mod chip;
mod images;
mod rows;

use bench::{Done, Meter, On, Start, on};
use liverymenhir::{Geometry, MagicKind};
use std::env;

/// Blocks of the volume that the log is rotated on, the least one for longer files.
const LOG_BLOCKS: u32 = 256;

/// A volume with so many page copies.
struct Sized<'g> {
    g: &'g Geometry,
    frames: usize,
}

fn tell(frames: usize, name: &str, meter: &Meter, longest: u64) {
    let Meter { calls, all, .. } = meter;
    let (reads, bytes, programs, erases) = (all.reads, all.bytes, all.programs, all.erases);
    println!(
        "{frames}\t{name}\t{calls}\t{reads}\t{bytes}\t{programs}\t{erases}\t{}\t{longest}",
        all.ns()
    );
}

impl Sized<'_> {
    // Starts a volume in a way, and tells of that.
    fn start(&self, name: &str, image: &[u8], how: Start) -> Done {
        let mut meter = Meter::default();
        on(self.g, image.to_vec(), self.frames, how, &mut meter, |_| {
            Ok(())
        })?;
        tell(self.frames, name, &meter, meter.longest);
        Ok(())
    }

    // Counts calls on a volume that was checked.
    fn counted(
        &self,
        image: &[u8],
        work: impl FnOnce(&mut On<'_>, &mut Meter) -> Done,
    ) -> Done<Meter> {
        let mut meter = Meter::default();
        on(
            self.g,
            image.to_vec(),
            self.frames,
            Start::Check,
            &mut Meter::default(),
            |volume| work(volume, &mut meter),
        )?;
        Ok(meter)
    }

    fn row(
        &self,
        name: &str,
        image: &[u8],
        work: impl FnOnce(&mut On<'_>, &mut Meter) -> Done,
    ) -> Done {
        let meter = self.counted(image, work)?;
        tell(self.frames, name, &meter, meter.longest);
        Ok(())
    }

    // A listing is one for its row, and its longest call is one `next`.
    fn listing(&self, image: &[u8], files: u32) -> Done {
        let mut meter = self.counted(image, |volume, meter| rows::next(volume, files, meter))?;
        meter.calls = 1;
        tell(
            self.frames,
            &format!("next over {files} files"),
            &meter,
            meter.longest,
        );
        Ok(())
    }

    // What a file of the log costs from its first byte to the removal of the oldest; the longest is a call.
    fn rotated(&self, image: &[u8], kept: u32, size: u32) -> Done {
        let mut files = Meter::default();
        let calls = self.counted(image, |volume, calls| {
            rows::rotate(volume, kept, size, calls, &mut files)
        })?;
        tell(
            self.frames,
            &format!("log of {kept} files of {} KiB, a file", size >> 10),
            &files,
            calls.longest,
        );
        Ok(())
    }
}

fn starts(g: &Geometry, half: &[u8], frames: &[usize]) -> Done {
    for &frames in frames {
        let sized = Sized { g, frames };
        sized.start("start, half full", half, Start::Check)?;
        sized.start("mount", half, Start::Mount)?;
        sized.start("mount and check_own", half, Start::Own)?;
        sized.start("mount and resume", half, Start::Resume)?;
    }
    Ok(())
}

fn listings(g: &Geometry, frames: &[usize]) -> Done {
    for files in [100, 300, 1000] {
        // (a file has two pages, and three blocks are left free)
        if 2 * files > (g.blocks() - 3) * g.entries() {
            continue;
        }
        let image = images::many(g, files)?;
        for &frames in frames {
            Sized { g, frames }.listing(&image, files)?;
        }
    }
    Ok(())
}

fn overwrites(g: &Geometry, frames: &[usize]) -> Done {
    for percent in [50, 70, 90, 98] {
        let (image, files) = images::worn(g, percent)?;
        for &frames in frames {
            let name = format!("overwrite of 100, {percent} % full");
            Sized { g, frames }.row(&name, &image, |volume, each| {
                rows::collecting(volume, files, each)
            })?;
        }
    }
    Ok(())
}

// Rows on volumes with files that are longer.
fn long_ones(g: &Geometry, frames: &[usize]) -> Done {
    let (empty, longer) = (images::empty(g)?, images::longer(g)?);
    for &frames in frames {
        let sized = Sized { g, frames };
        for (name, work) in rows::LONG_ONES {
            sized.row(name, &longer, work)?;
        }
        // (on a larger volume its files come and go without an erase for long)
        if g.blocks() == LOG_BLOCKS {
            sized.rotated(&empty, 20, 32 << 10)?;
        }
    }
    Ok(())
}

fn main() -> Done {
    let words: Vec<String> = env::args().skip(1).collect();
    let [page, block, blocks, frames, rest @ ..] = words.as_slice() else {
        return Err("PAGE BLOCK BLOCKS FRAMES,.. [start]".into());
    };
    let g = Geometry::new(
        page.parse()?,
        block.parse()?,
        blocks.parse()?,
        block.parse()?,
        0,
        MagicKind::Length,
    )?;
    let frames = frames
        .split(',')
        .map(str::parse)
        .collect::<Result<Vec<usize>, _>>()?;
    let half = images::half(&g)?;
    starts(&g, &half, &frames)?;
    if !rest.is_empty() {
        return Ok(());
    }
    for &frames in &frames {
        for (name, work) in rows::HALF {
            Sized { g: &g, frames }.row(name, &half, work)?;
        }
    }
    listings(&g, &frames)?;
    overwrites(&g, &frames)?;
    if g.blocks() >= LOG_BLOCKS {
        long_ones(&g, &frames)?;
    }
    Ok(())
}
