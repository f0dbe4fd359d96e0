//! Calls of a volume that no command makes, for `bench/speed`: `engine_bench CALL BLOCKS CHIP FRAMES CALLS`.
//!
//! The chip's file has pages of 256 bytes, blocks of 4,096, and the file `file1`, which is opened. FRAMES is how many pages are kept; 0 is
//! as many as the volume has. CALL is `none`, or what is done so many times at places that are the same each time:
//!
//! - `read`, `read-map`: a seek and a read of 1,024 bytes, or a read through a map of the whole file
//! - `write`, `write-map`, `write-part`: a seek and a write of 16 bytes that goes to the chip at once, without a map, with one of the whole
//!   file, or with one of the 124 data pages in its middle
//!
//! It prints how many reads of the chip the calls asked for.

use liverymenhir::{
    Failed, FdSlot, Geometry, Lent, MagicKind, Mark, Nor, Volume, Whence, accept, map_need,
};
use std::env;
use std::error::Error;
use std::fs;

/// A chip in memory that counts its reads.
struct Chip {
    bytes: Vec<u8>,
    reads: u64,
}

impl Nor for Chip {
    fn size(&self) -> u32 {
        self.bytes.len() as u32
    }

    fn unit(&self) -> u32 {
        4096
    }

    fn read(&mut self, at: u32, into: &mut [u8]) -> Result<(), Failed> {
        let from = at as usize;
        into.copy_from_slice(&self.bytes[from..from + into.len()]);
        self.reads += 1;
        Ok(())
    }

    fn program(&mut self, at: u32, from: &[u8]) -> Result<(), Failed> {
        for (byte, asked) in self.bytes[at as usize..].iter_mut().zip(from) {
            *byte &= asked;
        }
        Ok(())
    }

    fn erase(&mut self, unit_ix: u32, _: Option<Mark>) -> Result<(), Failed> {
        let from = unit_ix as usize * 4096;
        self.bytes[from..from + 4096].fill(0xFF);
        Ok(())
    }
}

// The next of a row of numbers that is the same each time, below another one.
fn drawn(x: &mut u64, below: u32) -> u32 {
    *x = x
        .wrapping_mul(6364136223846793005)
        .wrapping_add(1442695040888963407);
    ((*x >> 33) % u64::from(below)) as u32
}

// Does a call at a place of the file, and answers how many bytes were read or written.
fn call(
    volume: &mut Volume<'_, Chip>,
    fd: u16,
    kind: &str,
    at: u32,
) -> Result<u32, Box<dyn Error>> {
    let mut bytes = [7; 1024];
    if kind == "read-map" {
        return Ok(volume.read_map(at, &mut bytes)?);
    }
    volume.seek(fd, at.into(), Whence::Set)?;
    Ok(match kind {
        "read" => volume.read(fd, &mut bytes)?,
        _ => volume.write(fd, &bytes[..16])?,
    })
}

fn main() -> Result<(), Box<dyn Error>> {
    let words: Vec<String> = env::args().skip(1).collect();
    let [kind, blocks, path, frames, calls] = words.as_slice() else {
        return Err("CALL BLOCKS CHIP FRAMES CALLS".into());
    };
    let g = Geometry::new(256, 4096, blocks.parse()?, 4096, 0, MagicKind::Length)?;
    let mut chip = Chip {
        bytes: fs::read(path)?,
        reads: 0,
    };
    let frames = match frames.parse()? {
        0 => g.pages() as usize,
        count => count,
    };
    let mut work = vec![0; g.work_need() as usize];
    let mut slots = vec![FdSlot::empty(); 1];
    let mut cache = vec![0; g.cache_need() as usize * frames];
    let mut check = vec![0; g.check_need() as usize];
    let mut numbers = vec![0; 65536];
    let mut window = vec![0; g.page() as usize];
    let lent = Lent {
        work: &mut work,
        slots: &mut slots,
        cache: &mut cache,
        window: &mut window,
    };
    accept(&g, &chip, &lent)?;
    let mut volume = Volume::new(g, &mut chip, lent);
    volume.mount()?;
    volume.check(&mut check).map_err(|_| "the check is refused")?;
    // read, write, at once
    let fd = volume.open_file(b"file1", 8 | 16 | 32)?;
    let size = volume.fstat(fd)?.size;
    let need = map_need(&g, size);
    let (first, bytes) = match kind.as_str() {
        "read-map" | "write-map" => (0, need),
        "write-part" => (need / 4, 248),
        _ => (0, 0),
    };
    if bytes > 0 {
        let numbers = &mut numbers[..bytes as usize];
        if volume.attach_map(fd, first as u16, numbers).is_err() {
            return Err("the map is refused".into());
        }
    }
    let before = volume.nor().reads;
    let mut seed = 1;
    for _ in 0..calls.parse()? {
        let at = drawn(&mut seed, size - 1024);
        let wanted = if kind.starts_with("read") { 1024 } else { 16 };
        if kind != "none" && call(&mut volume, fd, kind, at)? != wanted {
            return Err("another number of bytes".into());
        }
    }
    println!("{}", volume.nor().reads - before);
    Ok(())
}
