//! An image as a chip, and what a command says.

use liverymenhir::{Board, Failed, Mark, Nor};

/// Bytes as a chip. Behind them all bytes are 0xFF, and none can be written.
pub struct Chip<'a> {
    /// The bytes.
    pub bytes: &'a mut [u8],
    size: u32,
    unit: u32,
    said: &'a mut Vec<u8>,
}

impl<'a> Chip<'a> {
    /// A chip of one byte or more, in erase units of one byte.
    pub fn new(bytes: &'a mut [u8], said: &'a mut Vec<u8>) -> Chip<'a> {
        let size = u32::try_from(bytes.len()).unwrap_or(u32::MAX).max(1);
        Chip {
            bytes,
            size,
            unit: 1,
            said,
        }
    }

    /// The same of another size and with other erase units.
    pub fn with_numbers(self, size: u32, unit: u32) -> Chip<'a> {
        Chip { size, unit, ..self }
    }

    /// What was said, to be written otherwise.
    pub fn into_answer(self) -> &'a mut Vec<u8> {
        self.said
    }
}

impl Nor for Chip<'_> {
    fn size(&self) -> u32 {
        self.size
    }

    fn unit(&self) -> u32 {
        self.unit
    }

    fn read(&mut self, at: u32, into: &mut [u8]) -> Result<(), Failed> {
        let held = self.bytes.get(at as usize..).unwrap_or(&[]);
        let count = held.len().min(into.len());
        into[..count].copy_from_slice(&held[..count]);
        into[count..].fill(0xFF);
        Ok(())
    }

    fn program(&mut self, at: u32, from: &[u8]) -> Result<(), Failed> {
        let start = at as usize;
        let place = self
            .bytes
            .get_mut(start..start + from.len())
            .ok_or(Failed)?;
        for (byte, asked) in place.iter_mut().zip(from) {
            *byte &= *asked;
        }
        Ok(())
    }

    fn erase(&mut self, unit_ix: u32, _: Option<Mark>) -> Result<(), Failed> {
        let (start, size) = (unit_ix as usize * self.unit as usize, self.unit as usize);
        self.bytes
            .get_mut(start..start + size)
            .ok_or(Failed)?
            .fill(0xFF);
        Ok(())
    }
}

impl Board for Chip<'_> {
    fn say(&mut self, piece: &[u8]) -> Result<(), Failed> {
        self.said.try_reserve(piece.len()).map_err(|_| Failed)?;
        self.said.extend_from_slice(piece);
        Ok(())
    }
}
