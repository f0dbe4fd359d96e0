use rattle_host::assert;
#[allow(unused_imports)]
use rattle_host::prelude::*;

use liverymenhir::geometry::{GeoErr, Geometry, MagicKind};
use liverymenhir::page_layout::{
    FREE, Flags, PageHeader, build_header_page, file_size, header_of, meta_of, put_header,
    put_meta, put_size, put_slot, slot_of,
};
use rattle_host::test::Fail;

// An erased page of 128 bytes with these at its start.
fn page_of(bytes: &[u8]) -> [u8; 128] {
    let mut page = [0xFF; 128];
    page[..bytes.len()].copy_from_slice(bytes);
    page
}

// The finished header page of file 1, named "a" and of undefined size.
fn head_of_a() -> [u8; 128] {
    let mut page = page_of(&[
        0x01, 0x80, 0, 0, 0xF8, 0xFF, 0xFF, 0xFF, 0xFF, 0xFF, 0xFF, 0xFF, 0x01, 0x61,
    ]);
    page[14..45].fill(0);
    page
}

// A volume with pages of 128 bytes.
fn volume(meta: u32) -> Result<Geometry, GeoErr> {
    Geometry::new(128, 4096, 16, 4096, meta, MagicKind::Length)
}

#[test]
fn a_new_header_page_gets_size_and_pages() {
    rattle_host::test::run(a_new_header_page_gets_size_and_pages_with)
}

fn a_new_header_page_gets_size_and_pages_with(rt: HostRuntime) -> Result<(), Fail> {
    let g = volume(0)?;
    let mut page = [0; 128];
    build_header_page(&g, &mut page, 1, b"a");
    let placed = header_of(&page);
    assert!(rt; placed.flags == Flags::placed_index());
    assert!(rt; !placed.is_finished());
    let flags = placed.flags.finished();
    put_header(&mut page, PageHeader { flags, ..placed });
    assert!(rt; page.as_slice() == head_of_a().as_slice());
    put_size(&mut page, 5);
    put_slot(&g, &mut page, 0, 0, 17);
    assert!(rt; &page[8..12] == [0x05, 0, 0, 0].as_slice());
    assert!(rt; &page[45..47] == [0x11, 0].as_slice());
    assert!(rt;
        (
            file_size(&page),
            slot_of(&g, &page, 0, 0),
            slot_of(&g, &page, 0, 1)
        ) == (5, 17, FREE)
    );
    Ok(())
}

#[test]
fn meta_bytes_stand_before_the_page_numbers() {
    rattle_host::test::run(meta_bytes_stand_before_the_page_numbers_with)
}

fn meta_bytes_stand_before_the_page_numbers_with(rt: HostRuntime) -> Result<(), Fail> {
    let g = volume(4)?;
    let mut page = page_of(&[0; 45]);
    put_meta(&g, &mut page, &[1, 2, 3, 4]);
    put_slot(&g, &mut page, 0, 0, 0x0203);
    assert!(rt; &page[44..52] == [0, 1, 2, 3, 4, 3, 2, 0xFF].as_slice());
    assert!(rt; meta_of(&g, &page).as_slice() == [1, 2, 3, 4].as_slice());
    put_slot(&g, &mut page, 1, 2, 0x0405);
    assert!(rt; &page[12..14] == [0x05, 0x04].as_slice());
    Ok(())
}

#[test]
fn each_flag_is_a_cleared_bit() {
    rattle_host::test::run(each_flag_is_a_cleared_bit_with)
}

fn each_flag_is_a_cleared_bit_with(rt: HostRuntime) {
    for (bits, used, last, index, removing, deleted) in [
        (0xFF, false, false, false, false, false),
        (0xFE, true, false, false, false, false),
        (0xFA, true, false, true, false, false),
        (0xFC, true, true, false, false, false),
        (0xB8, true, true, true, true, false),
        (0x78, true, true, true, false, true),
        (0xC7, false, false, false, false, false),
    ] {
        let flags = Flags::from_bits(bits);
        assert!(rt;
            (flags.is_used(), flags.is_final(), flags.is_index()) == (used, last, index),
            "at {bits}"
        );
        assert!(rt;
            (flags.is_removing(), flags.is_deleted()) == (removing, deleted),
            "at {bits}"
        );
    }
    assert!(rt; Flags::placed_data().finished() == Flags::finished_data());
    assert!(rt; Flags::finished_index().removing().bits() == 0xB8);
    assert!(rt; Flags::finished_data().deleted().bits() == 0x7C);
}
