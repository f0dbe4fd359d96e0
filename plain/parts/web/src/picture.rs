//! What each page of a volume is.

use crate::chip::Chip;
use crate::memory::{NO_MEMORY, filled};
use crate::reading::{UNREAD, geometry_of};
use liverymenhir::Geometry;
use rattle_host::prelude::String;
use spiffs::plain_image::{entry_of, is_live, page_of};

/// What a page is. The page of the browser has these numbers too.
#[derive(Clone, Copy)]
enum Kind {
    /// It holds the lookup entries of its block.
    Lookup,
    /// Its lookup entry is free.
    Free,
    /// Its lookup entry is zero: the page was deleted.
    Deleted,
    /// A live index page of span 0: it has a file's name and size.
    Header,
    /// A further live index page.
    Index,
    /// A live data page.
    Data,
    /// Its entry is in use, and the page isn't live.
    Neither,
}

const FREE: u16 = 0xFFFF;
const INDEX: u16 = 0x8000;

// What page p is, and the id of its file, which is 0 where it has none.
fn kind_of(g: &Geometry, image: &[u8], p: u32) -> (Kind, u16) {
    if p % g.per_block() < g.lookups() {
        return (Kind::Lookup, 0);
    }
    let entry = entry_of(g, image, p);
    let id = entry % INDEX;
    match entry {
        FREE if page_of(g, image, p).iter().all(|byte| *byte == 0xFF) => (Kind::Free, 0),
        FREE => (Kind::Neither, 0),
        0 => (Kind::Deleted, 0),
        _ if !is_live(g, image, p) => (Kind::Neither, id),
        _ if entry < INDEX => (Kind::Data, id),
        _ if page_of(g, image, p)[2..4] == [0, 0] => (Kind::Header, id),
        _ => (Kind::Index, id),
    }
}

// The bytes of the volume, with 0xFF for those that the image lacks.
fn whole(g: &Geometry, image: &[u8]) -> Option<Vec<u8>> {
    let size = g.blocks() as usize * g.block() as usize;
    let held = size.min(image.len());
    let mut bytes = filled(0xFF, size)?;
    bytes[..held].copy_from_slice(&image[..held]);
    Some(bytes)
}

/// Answers with four bytes of each page; the status tells whether that went well.
pub fn draw(words: &[String], chip: Chip<'_>) -> u8 {
    let Some(g) = geometry_of(words) else {
        return UNREAD;
    };
    let Some(image) = whole(&g, chip.bytes) else {
        return NO_MEMORY;
    };
    let answer = chip.into_answer();
    if answer.try_reserve_exact(4 * g.pages() as usize).is_err() {
        return NO_MEMORY;
    }
    for p in 0..g.pages() {
        let (kind, id) = kind_of(&g, &image, p);
        let [low, high] = id.to_le_bytes();
        answer.extend([kind as u8, 0, low, high]);
    }
    0
}
