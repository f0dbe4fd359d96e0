//! Images of blocks of 4,096 bytes that are made by hand.

use liverymenhir::geometry::{Geometry, MagicKind};
use rattle_host::alloc::{AllocError, Global};
#[allow(unused_imports)]
use rattle_host::prelude::*;
use rattle_host::test::Fail;
use rattle_host::vec;

/// Pages of 256 bytes in four blocks of 4,096.
pub(crate) fn small() -> Result<Geometry, Fail> {
    Ok(Geometry::new(256, 4096, 4, 4096, 0, MagicKind::Length)?)
}

/// Puts bytes at a place of an image, as far as they fit.
pub(crate) fn put(image: &mut Vec<u8>, at: usize, bytes: &[u8]) {
    for (i, b) in bytes.iter().enumerate() {
        if let Some(x) = image.get_mut(at.saturating_add(i)) {
            *x = *b;
        }
    }
}

/// Whether the first blocks have these erase counts.
pub(crate) fn has_erases(image: &[u8], counts: &[u8]) -> bool {
    for (block, count) in counts.iter().enumerate() {
        let at = block.saturating_mul(4096).saturating_add(254);
        if image.get(at..at.saturating_add(2)) != Some([*count, 0].as_slice()) {
            return false;
        }
    }
    true
}

/// A volume without files: each block has its magic and the erase count 0.
pub(crate) fn formatted(alloc: Global, g: &Geometry) -> Result<Vec<u8>, AllocError> {
    let mut image = vec![in alloc; 0xFFu8; g.blocks as usize * 4096]?;
    for block in 0..g.blocks {
        let magic = g.magic_of(block);
        put(
            &mut image,
            block as usize * 4096 + 252,
            &[(magic % 256) as u8, (magic / 256) as u8, 0, 0],
        );
    }
    Ok(image)
}

/// The file `ba` of so many data pages, of which each is full of the number of its span: its header page is the first one of
/// block 0, and its data pages fill the blocks behind it.
pub(crate) fn filed(alloc: Global, g: &Geometry, spans: u8) -> Result<Vec<u8>, AllocError> {
    let mut image = formatted(alloc, g)?;
    let size = u32::from(spans) * 251;
    let low = [(size % 256) as u8, (size / 256) as u8, 0, 0, 1, b'b', b'a'];
    put(&mut image, 0, &[1, 0x80]);
    put(&mut image, 256, &[1, 0x80, 0, 0, 0xF8]);
    put(&mut image, 264, &low);
    put(&mut image, 271, &[0; 30]);
    for span in 0..spans.min(30) {
        let place = span + 15;
        let (block, entry) = (place / 15, place % 15);
        let page = block * 16 + 1 + entry;
        put(&mut image, 301 + 2 * span as usize, &[page, 0]);
        put(
            &mut image,
            block as usize * 4096 + 2 * entry as usize,
            &[1, 0],
        );
        put(&mut image, page as usize * 256, &[span; 256]);
        put(&mut image, page as usize * 256, &[1, 0, span, 0, 0xFC]);
    }
    Ok(image)
}
