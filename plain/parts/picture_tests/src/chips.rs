//! Chips, written byte by byte.

use liverymenhir::geometry::{Geometry, MagicKind};
use rattle_host::alloc::Global;
use rattle_host::prelude::*;
use spiffs::image_picture::{Style, draw};
use spiffs::nor_memory::MemBoard;
use std::string::String;
use std::vec::Vec;

/// A volume of three blocks, each of one lookup page and three entry pages of 256 bytes.
pub fn small() -> Geometry {
    Geometry::new(256, 1024, 3, 1024, 0, MagicKind::Plain).expect("a geometry")
}

/// The magic of its blocks.
pub const MAGIC: u16 = 0x0429;

/// A page that is written: its header.
pub fn put_header(image: &mut [u8], page: usize, id: u16, span: u16, flags: u8) {
    put_word(image, page * 256, id);
    put_word(image, page * 256 + 2, span);
    image[page * 256 + 4] = flags;
}

/// The lookup entry of a page of the small volume.
pub fn put_entry(image: &mut [u8], page: usize, entry: u16) {
    put_word(image, page / 4 * 1024 + (page % 4 - 1) * 2, entry);
}

pub fn put_word(image: &mut [u8], at: usize, word: u16) {
    image[at..at + 2].copy_from_slice(&word.to_le_bytes());
}

/// A chip of the small volume that has each sign. A block lacks its magic and its erase count, and another one has the greatest count.
pub fn each_sign() -> Vec<u8> {
    let mut image = vec![0xFF; 3072];
    // A file of id 1: a header page, a data page, and a further index page.
    for (page, id, span, flags) in [(1, 0x8001, 0, 0xF8), (2, 1, 0, 0xFC), (3, 0x8001, 1, 0xF8)] {
        put_entry(&mut image, page, id);
        put_header(&mut image, page, id, span, flags);
    }
    put_word(&mut image, 252, MAGIC);
    put_word(&mut image, 254, 7);
    // A header page that would be live in a block with a magic, an erased page, and a page that lives but for its deleted entry.
    put_entry(&mut image, 5, 0x8002);
    put_header(&mut image, 5, 0x8002, 0, 0xF8);
    put_entry(&mut image, 7, 0);
    put_header(&mut image, 7, 0x8002, 0, 0xF8);
    // A free entry over a page whose last byte is written, a page that says it is deleted, and a page of another id than its entry.
    image[9 * 256 + 255] = 0xFE;
    put_entry(&mut image, 10, 3);
    put_header(&mut image, 10, 3, 0, 0x7C);
    put_entry(&mut image, 11, 3);
    put_header(&mut image, 11, 4, 0, 0xFC);
    put_word(&mut image, 2048 + 252, MAGIC);
    put_word(&mut image, 2048 + 254, 0x7FFF);
    image
}

pub fn board(g: &Geometry, image: &[u8]) -> MemBoard {
    MemBoard::new(Global, image.to_vec_by(Global).expect("memory"), g.phys()).expect("a device")
}

/// The picture of a chip.
pub fn picture(style: Style, g: &Geometry, image: &[u8]) -> String {
    let mut board = board(g, image);
    draw(&mut board, style, g, &mut [0x55; 4096]).expect("drawn");
    assert_eq!(board.image(), image);
    String::from_utf8(board.said().to_vec()).expect("a text")
}
