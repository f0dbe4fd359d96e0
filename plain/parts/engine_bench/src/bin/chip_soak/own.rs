//! What a check of an own volume wants of the chip, and what it should leave.

use crate::Memory;
use crate::chip::Chip;
use liverymenhir::{Geometry, Report, Volume};

/// The first page with an entry of 0xFFFF, in a block with its magic, that isn't erased.
pub fn written_free_page(g: &Geometry, bytes: &[u8]) -> Option<usize> {
    let (page, block) = (g.page() as usize, g.block() as usize);
    let lookups = g.lookups() as usize;
    for (number, bytes) in bytes.chunks(block).enumerate() {
        let magic = &bytes[lookups * page - 4..][..2];
        if magic != g.magic_of(number as u32).to_le_bytes() {
            continue;
        }
        for i in 0..g.entries() as usize {
            let entry = &bytes[2 * i..][..2];
            let held = &bytes[(lookups + i) * page..][..page];
            if entry == [0xFF, 0xFF] && held.iter().any(|&byte| byte != 0xFF) {
                return Some(number * block / page + lookups + i);
            }
        }
    }
    None
}

/// The report of a whole check of a chip with these bytes, which is not cut, and the bytes after it.
pub fn checked(g: &Geometry, bytes: Vec<u8>) -> Result<(Report, Vec<u8>), String> {
    let mut memory = Memory::new(g, 1);
    let mut chip = Chip {
        bytes,
        unit: g.phys() as usize,
        left: u64::MAX,
        is_off: false,
        seed: 0,
    };
    let (lent, check) = memory.lent();
    let mut volume = Volume::new(*g, &mut chip, lent);
    volume.mount().map_err(|why| format!("mount: {why:?}"))?;
    let report = volume
        .check(check)
        .map_err(|why| format!("check: {why:?}"))?;
    Ok((report, chip.bytes))
}
