//! Memory that is lent to a command, as much as the program lends.

use liverymenhir::FdSlot;
use liverymenhir::vol_mount::ReaderLent;
use spiffs::tool_parts::Buffers;

/// The status where there is no memory.
pub const NO_MEMORY: u8 = 15;

/// Bytes of work and of check: enough for every volume.
const WORK: usize = 1_048_576;
const CHECK: usize = 131_072;

/// Bytes of cache: enough for a frame of each of 65,535 pages of 4,096 bytes; and where there is no memory for them.
const MOST_CACHE: usize = 301_989_888;
const SMALL_CACHE: usize = 262_144;

/// Bytes of the write window: the longest page.
const WINDOW: usize = 4096;

const LINE: usize = 12_288;
const SLOTS: usize = 16;

/// So many bytes, or none where there is no memory.
pub fn filled(byte: u8, size: usize) -> Option<Vec<u8>> {
    let mut bytes = Vec::new();
    bytes.try_reserve_exact(size).ok()?;
    bytes.resize(size, byte);
    Some(bytes)
}

pub struct Memory {
    work: Vec<u8>,
    slots: Vec<FdSlot>,
    cache: Vec<u8>,
    check: Vec<u8>,
    window: Vec<u8>,
    line: Vec<u8>,
}

// A frame for each page of a volume of so many bytes: it has eight bytes more than a page, which has at least 128.
fn cache_for(volume: u32) -> usize {
    (volume.saturating_add(volume / 16) as usize).clamp(SMALL_CACHE, MOST_CACHE)
}

impl Memory {
    /// For a volume of so many bytes; none where there is no memory.
    pub fn new(volume: u32) -> Option<Memory> {
        Some(Memory {
            work: filled(0, WORK)?,
            slots: vec![FdSlot::empty(); SLOTS],
            check: filled(0, CHECK)?,
            window: filled(0, WINDOW)?,
            line: filled(0, LINE)?,
            cache: filled(0, cache_for(volume)).or_else(|| filled(0, SMALL_CACHE))?,
        })
    }

    /// Lends it to a command.
    pub fn lend(&mut self) -> Buffers<'_> {
        Buffers {
            work: &mut self.work,
            slots: &mut self.slots,
            cache: &mut self.cache,
            check: &mut self.check,
            window: &mut self.window,
            line: &mut self.line,
        }
    }

    /// Lends it to a reader.
    pub fn lend_to_reader(&mut self) -> ReaderLent<'_> {
        ReaderLent {
            work: &mut self.work,
            cache: &mut self.cache,
            check: &mut self.check,
        }
    }
}
