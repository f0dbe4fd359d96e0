//! The commands, as the program gives them.

use crate::chip::Chip;
use crate::memory::{Memory, NO_MEMORY, filled};
use liverymenhir::{Failed, Nor, Source};
use rattle_host::alloc::Global;
use rattle_host::prelude::String;
use spiffs::detect_tool::{Memory as Lent, blank_place, detect_tool, found_need};
use spiffs::folder_core::MemFolder;
use spiffs::tool_core::spiffs_tool;
use spiffs::tool_parts::{chip_size_of, unit_of};
use spiffs::volume_detect::words_need;

/// The status of words that are no command of the page.
const USAGE: u8 = 1;

/// Bytes of work and of marks of `detect`: enough for every volume.
const DETECT_WORK: usize = 557_056;
const DETECT_CHECK: usize = 65_535;

// A script without a line.
struct NoScript;

impl Source for NoScript {
    fn read(&mut self, _: &mut [u8]) -> Result<usize, Failed> {
        Ok(0)
    }
}

/// Does a command over a chip, and answers its status.
pub fn command(words: &[String], chip: Chip<'_>) -> u8 {
    let done = match words.first().map(|word| word.as_str()) {
        Some("detect") => detect(words, chip),
        Some("list" | "check") => spiffs_on(words, chip),
        _ => Some(USAGE),
    };
    done.unwrap_or(NO_MEMORY)
}

/// The chip as the words want it.
pub fn chip_for<'a>(words: &[String], chip: Chip<'a>) -> Chip<'a> {
    chip.with_numbers(chip_size_of(words, 1), unit_of(words))
}

// None where there is no memory.
fn detect(words: &[String], mut chip: Chip<'_>) -> Option<u8> {
    let size = chip.size();
    let mut found = Vec::new();
    found.try_reserve_exact(found_need(size) as usize).ok()?;
    found.resize(found_need(size) as usize, blank_place().ok()?);
    let mut lent = Lent {
        chip: &mut filled(0, size as usize)?,
        words: &mut filled(0, words_need(size) as usize)?,
        work: &mut filled(0, DETECT_WORK)?,
        check: &mut filled(0, DETECT_CHECK)?,
        found: &mut found,
    };
    Some(detect_tool(words, &mut chip, &mut lent))
}

// None where there is no memory.
fn spiffs_on(words: &[String], chip: Chip<'_>) -> Option<u8> {
    let mut board = chip_for(words, chip);
    let mut memory = Memory::new(board.size())?;
    let mut folder = MemFolder::new(Global);
    Some(spiffs_tool(
        words,
        &mut board,
        &mut NoScript,
        &mut folder,
        &mut memory.lend(),
    ))
}
