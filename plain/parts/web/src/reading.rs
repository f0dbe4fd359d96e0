//! One file, read by its id.

use crate::chip::Chip;
use crate::memory::{Memory, NO_MEMORY, filled};
use crate::tools::chip_for;
use liverymenhir::vol_mount::{Reader, accept_reader};
use liverymenhir::{Geometry, Nor};
use rattle_host::prelude::String;
use spiffs::tool_parts::read_numbers;

/// The status where a volume or a file can't be read.
pub const UNREAD: u8 = 7;

/// The geometry that the words tell, if it is one.
pub fn geometry_of(words: &[String]) -> Option<Geometry> {
    let n = read_numbers(words)?;
    Geometry::new(n.page, n.block, n.blocks, n.block, n.meta, n.magic).ok()
}

// The bytes of the file of an id above 0, or the status.
fn bytes_of(g: Geometry, chip: &mut Chip<'_>, id: u16) -> Result<Vec<u8>, u8> {
    let mut memory = Memory::new(chip.size()).ok_or(NO_MEMORY)?;
    let lent = memory.lend_to_reader();
    accept_reader(&g, chip, &lent).map_err(|_| UNREAD)?;
    let mut reader = Reader::new(g, chip, lent);
    reader.mount().map_err(|_| UNREAD)?;
    let before = id.checked_sub(1).ok_or(UNREAD)?;
    let file = reader.next(before).map_err(|_| UNREAD)?.ok_or(UNREAD)?;
    let mut bytes = filled(0, file.size as usize).ok_or(NO_MEMORY)?;
    match reader.read_at(id, 0, &mut bytes) {
        Ok(count) if count == file.size => Ok(bytes),
        _ => Err(UNREAD),
    }
}

/// Answers with the bytes of the file of an id; the status tells whether that went well.
pub fn read(words: &[String], chip: Chip<'_>, id: u16) -> u8 {
    let Some(g) = geometry_of(words) else {
        return UNREAD;
    };
    let mut chip = chip_for(words, chip);
    match bytes_of(g, &mut chip, id) {
        Ok(bytes) => {
            *chip.into_answer() = bytes;
            0
        }
        Err(status) => status,
    }
}
