//! Pictures for a terminal.

use crate::chips::{MAGIC, each_sign, picture, put_entry, put_header, put_word, small};
use liverymenhir::geometry::{Geometry, MagicKind};
use spiffs::image_picture::Style;
use std::string::String;

pub const TOP: &str = "block erase   pages\n";
pub const LEGEND: &str = "L lookup  . free  x deleted  H object index header  i further index  d data  ? neither  ! no magic\n";

pub fn framed(rows: &[&str]) -> String {
    format!("{TOP}{}\n{LEGEND}", rows.join("\n"))
}

#[test]
fn each_sign_stands_at_its_page() {
    assert_eq!(picture(Style::Text, &small(), &each_sign()), framed(&["    0     7   LHdi", "    1     - ! L?.x", "    2 32767   L???"]));
}

#[test]
fn an_erased_chip_is_free_and_lacks_all_magics() {
    assert_eq!(picture(Style::Text, &small(), &[0xFF; 3072]), framed(&["    0     - ! L...", "    1     - ! L...", "    2     - ! L..."]));
}

#[test]
fn a_chip_of_zeros_is_deleted_and_was_never_erased() {
    assert_eq!(picture(Style::Text, &small(), &[0; 3072]), framed(&["    0     0 ! Lxxx", "    1     0 ! Lxxx", "    2     0 ! Lxxx"]));
}

#[test]
fn bytes_behind_the_volume_are_not_drawn() {
    let mut image = each_sign();
    image.extend([0; 2048]);
    assert_eq!(picture(Style::Text, &small(), &image), framed(&["    0     7   LHdi", "    1     - ! L?.x", "    2 32767   L???"]));
}

#[test]
fn flags_decide_whether_a_page_is_live() {
    for (entry, span, flags, sign) in [
        (0x8005, 0, 0xF8, 'H'),
        (0x8005, 1, 0xF8, 'i'),
        (0x8005, 0xFFFF, 0xF8, 'i'),
        (5, 0, 0xFC, 'd'),
        (5, 9, 0xFC, 'd'),
        (0x7FFF, 0, 0xFC, 'd'),
        (0xFFFE, 0, 0xF8, 'H'),
        // used and not finished, finished and not used, deleted
        (0x8005, 0, 0xFA, '?'),
        (0x8005, 0, 0xF9, '?'),
        (0x8005, 0, 0x78, '?'),
        (5, 0, 0xFE, '?'),
        (5, 0, 0x7C, '?'),
        // an index page by its id alone, or by its flags alone
        (0x8005, 0, 0xFC, '?'),
        (5, 0, 0xF8, '?'),
        // a file that is being removed; a further index page has no such flag
        (0x8005, 0, 0xB8, '?'),
        (0x8005, 1, 0xB8, 'i'),
        // the id 0 with the bit of index pages
        (0x8000, 0, 0xF8, '?'),
    ] {
        let mut image = vec![0xFF; 3072];
        put_entry(&mut image, 6, entry);
        put_header(&mut image, 6, entry, span, flags);
        put_word(&mut image, 1024 + 252, MAGIC);
        put_word(&mut image, 1024 + 254, 12);
        let rows = ["    0     - ! L...", &format!("    1    12   L.{sign}."), "    2     - ! L..."];
        assert_eq!(picture(Style::Text, &small(), &image), framed(&rows), "{entry:x} {span} {flags:x}");
    }
}

#[test]
fn an_erase_count_is_one_below_its_top_bit() {
    for (raw, text) in [(0, "    0"), (9, "    9"), (10, "   10"), (99, "   99"), (100, "  100"), (1009, " 1009"), (10_000, "10000"), (32_767, "32767"), (32_768, "    -"), (0xFFFE, "    -")] {
        let mut image = vec![0xFF; 3072];
        put_word(&mut image, 2048 + 254, raw);
        let rows = ["    0     - ! L...", "    1     - ! L...", &format!("    2 {text} ! L...")];
        assert_eq!(picture(Style::Text, &small(), &image), framed(&rows), "{raw}");
    }
}

#[test]
fn lookup_pages_and_lengths_are_those_of_the_geometry() {
    // 128 pages of 128 bytes a block, of which two are lookup pages, and magics that tell the length.
    let g = Geometry::new(128, 16_384, 4, 4096, 0, MagicKind::Length).expect("a geometry");
    let mut image = vec![0xFF; 65_536];
    for block in 0..4 {
        put_word(&mut image, block * 16_384 + 252, (0x0529 ^ 128 ^ (4 - block)) as u16);
        put_word(&mut image, block * 16_384 + 254, block as u16 + 1);
    }
    // the magic of its neighbour
    put_word(&mut image, 2 * 16_384 + 252, 0x0529 ^ 128 ^ 3);
    // the last page of block 1 holds data, and the first of block 3
    put_word(&mut image, 16_384 + 125 * 2, 77);
    put_word(&mut image, 16_384 + 127 * 128, 77);
    put_word(&mut image, 16_384 + 127 * 128 + 2, 0);
    image[16_384 + 127 * 128 + 4] = 0xFC;
    put_word(&mut image, 3 * 16_384, 77);
    put_word(&mut image, 3 * 16_384 + 2 * 128, 77);
    put_word(&mut image, 3 * 16_384 + 2 * 128 + 2, 1);
    image[3 * 16_384 + 2 * 128 + 4] = 0xFC;
    let free = ".".repeat(125);
    let rows = [
        &format!("    0     1   LL.{free}"),
        &format!("    1     2   LL{free}d"),
        &format!("    2     3 ! LL.{free}"),
        &format!("    3     4   LLd{free}"),
    ];
    assert_eq!(picture(Style::Text, &g, &image), framed(&rows.map(|row| row.as_str())));
}
