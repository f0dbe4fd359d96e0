//! A chip in memory that counts what is asked of it.

use liverymenhir::{Failed, Mark, Nor};
use std::ops::Sub;

/// Nanoseconds for each byte of a read, the bytes of its command among them.
const BYTE_NS: u64 = 200;
/// Bytes of a read's command.
const COMMAND: u64 = 5;
/// Nanoseconds of a program.
const PROGRAM_NS: u64 = 700_000;
/// Nanoseconds of an erase of one unit.
const ERASE_NS: u64 = 45_000_000;

/// What a chip was asked for.
#[derive(Clone, Copy, Debug, Default)]
pub struct Counts {
    pub reads: u64,
    pub bytes: u64,
    pub programs: u64,
    pub erases: u64,
}

impl Counts {
    /// The time that a chip behind SPI takes for it.
    pub fn ns(&self) -> u64 {
        (self.bytes + COMMAND * self.reads) * BYTE_NS
            + self.programs * PROGRAM_NS
            + self.erases * ERASE_NS
    }
}

impl Sub for Counts {
    type Output = Counts;

    fn sub(self, before: Counts) -> Counts {
        Counts {
            reads: self.reads - before.reads,
            bytes: self.bytes - before.bytes,
            programs: self.programs - before.programs,
            erases: self.erases - before.erases,
        }
    }
}

/// A chip of NOR flash in memory.
pub struct Chip {
    pub bytes: Vec<u8>,
    pub unit: usize,
    pub counts: Counts,
}

impl Nor for Chip {
    fn size(&self) -> u32 {
        self.bytes.len() as u32
    }

    fn unit(&self) -> u32 {
        self.unit as u32
    }

    fn read(&mut self, at: u32, into: &mut [u8]) -> Result<(), Failed> {
        let from = at as usize;
        into.copy_from_slice(&self.bytes[from..from + into.len()]);
        self.counts.reads += 1;
        self.counts.bytes += into.len() as u64;
        Ok(())
    }

    // A program clears bits and sets none.
    fn program(&mut self, at: u32, from: &[u8]) -> Result<(), Failed> {
        let there = &mut self.bytes[at as usize..][..from.len()];
        for (byte, asked) in there.iter_mut().zip(from) {
            *byte &= asked;
        }
        self.counts.programs += 1;
        Ok(())
    }

    // The mark is seen to as drivers do: it is read, and cleared where it is that word.
    fn erase(&mut self, unit_ix: u32, mark: Option<Mark>) -> Result<(), Failed> {
        let start = unit_ix * self.unit as u32;
        if let Some(mark) = mark {
            let mut there = [0; 2];
            self.read(start + mark.at, &mut there)?;
            if u16::from_le_bytes(there) == mark.word {
                self.program(start + mark.at, &[0, 0])?;
            }
        }
        self.bytes[start as usize..][..self.unit].fill(0xFF);
        self.counts.erases += 1;
        Ok(())
    }
}
