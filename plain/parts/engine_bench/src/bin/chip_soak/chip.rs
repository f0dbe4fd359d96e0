//! A chip in memory whose power goes off inside a program or an erase.

use crate::drawn;
use liverymenhir::{Failed, Mark, Nor};

/// A chip of NOR flash in memory.
pub struct Chip {
    pub bytes: Vec<u8>,
    pub unit: usize,
    /// How many programs and erases are done before the one in which the power goes off.
    pub left: u64,
    pub is_off: bool,
    pub seed: u64,
}

impl Chip {
    // Tells whether the power goes off in this program or erase.
    fn goes_off(&mut self) -> bool {
        self.is_off = self.left == 0;
        self.left = self.left.saturating_sub(1);
        self.is_off
    }

    // Of a program that is cut a part of the bits is cleared, and in half of the cases the first bytes wholly.
    fn part_of(&mut self, asked: u8, whole: bool) -> u8 {
        match whole {
            true => asked,
            false => asked | drawn(&mut self.seed, 256) as u8,
        }
    }

    fn cut_program(&mut self, at: usize, from: &[u8]) {
        let first = drawn(&mut self.seed, 1 + from.len() as u32) as usize;
        let rest_too = drawn(&mut self.seed, 2) == 0;
        for (i, asked) in from.iter().enumerate() {
            if i < first || rest_too {
                let part = self.part_of(*asked, i < first);
                self.bytes[at + i] &= part;
            }
        }
    }

    // An erase that is cut leaves what stood there, or any bytes; the mark isn't there then.
    fn cut_erase(&mut self, start: usize, mark: Option<Mark>) {
        if drawn(&mut self.seed, 4) == 0 {
            return;
        }
        for i in start..start + self.unit {
            match drawn(&mut self.seed, 3) {
                0 => self.bytes[i] = 0xFF,
                1 => self.bytes[i] |= drawn(&mut self.seed, 256) as u8,
                _ => {}
            }
        }
        if let Some(mark) = mark {
            let at = start + mark.at as usize;
            if self.bytes[at..at + 2] == mark.word.to_le_bytes() {
                self.bytes[at..at + 2].fill(0);
            }
        }
    }
}

impl Nor for Chip {
    fn size(&self) -> u32 {
        self.bytes.len() as u32
    }

    fn unit(&self) -> u32 {
        self.unit as u32
    }

    fn read(&mut self, at: u32, into: &mut [u8]) -> Result<(), Failed> {
        if self.is_off {
            return Err(Failed);
        }
        into.copy_from_slice(&self.bytes[at as usize..][..into.len()]);
        Ok(())
    }

    fn program(&mut self, at: u32, from: &[u8]) -> Result<(), Failed> {
        if self.is_off {
            return Err(Failed);
        }
        if self.goes_off() {
            self.cut_program(at as usize, from);
            return Err(Failed);
        }
        for (byte, asked) in self.bytes[at as usize..].iter_mut().zip(from) {
            *byte &= asked;
        }
        Ok(())
    }

    fn erase(&mut self, unit_ix: u32, mark: Option<Mark>) -> Result<(), Failed> {
        let start = unit_ix as usize * self.unit;
        if self.is_off {
            return Err(Failed);
        }
        if self.goes_off() {
            self.cut_erase(start, mark);
            return Err(Failed);
        }
        self.bytes[start..][..self.unit].fill(0xFF);
        Ok(())
    }
}
