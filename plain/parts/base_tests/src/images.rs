//! Images made by hand, and what they mean.

use crate::bytes::put;
use liverymenhir::geometry::{Geometry, MagicKind};
use liverymenhir::image_model::Damage;
use rattle_host::alloc::{AllocError, Global};
use rattle_host::assert;
#[allow(unused_imports)]
use rattle_host::prelude::*;
use rattle_host::process::Abort;
use rattle_host::test::Fail;
use rattle_host::vec;
use spiffs::plain_image::{
    Record, Room, damaged_of, free_blocks, holds_volume, is_same_live, is_sound, is_tidy,
    killed_of, meaning_of, mixed_blocks, room_of, spoiled_blocks, table_of,
};

// Bytes of 0xFF, and in each block its magic and this erase count.
fn blocks_with_magic(alloc: Global, g: &Geometry, count: &[u8]) -> Result<Vec<u8>, AllocError> {
    let mut image = vec![in alloc; 0xFFu8; g.blocks as usize * g.block as usize]?;
    for block in 0..g.blocks {
        let end = block as usize * g.block as usize + g.lookups() as usize * g.page as usize;
        let magic = g.magic_of(block);
        put(
            &mut image,
            end.saturating_sub(4),
            &[(magic % 256) as u8, (magic / 256) as u8],
        );
        put(&mut image, end.saturating_sub(2), count);
    }
    Ok(image)
}

const NEW_HEADER: [u8; 14] = [
    1, 0x80, 0, 0, 0xF8, 0xFF, 0xFF, 0xFF, 0xFF, 0xFF, 0xFF, 0xFF, 1, 0x61,
];

// A new file `a`: its entry and its header page.
fn put_new_file(image: &mut Vec<u8>) {
    put(image, 0, &[1, 0x80]);
    put(image, 256, &NEW_HEADER);
    put(image, 270, &[0; 31]);
}

// `a` after five bytes were written to it.
fn put_hello(image: &mut Vec<u8>) {
    put_new_file(image);
    put(image, 0, &[0, 0, 1, 0x80]);
    put(image, 260, &[0x78]);
    put(image, 4096, &[1, 0]);
    put(image, 4352, &[1, 0, 0, 0, 0xFC]);
    put(image, 4357, b"hello");
    put(image, 512, &NEW_HEADER);
    put(image, 520, &[5, 0, 0, 0]);
    put(image, 526, &[0; 31]);
    put(image, 557, &[0x11, 0]);
}

// Both kinds of pages in one block.
fn put_mixed(image: &mut Vec<u8>) {
    put(image, 0, &[1, 0x80, 1, 0]);
    put(
        image,
        256,
        &[1, 0x80, 0, 0, 0xF8, 0xFF, 0xFF, 0xFF, 5, 0, 0, 0, 1],
    );
    put(image, 269, b"/index.html");
    put(image, 280, &[0; 21]);
    put(image, 301, &[1, 2, 3, 4, 2, 0]);
    put(image, 512, &[1, 0, 0, 0, 0xFC]);
    put(image, 517, b"hello");
}

// The first file's name, meta and number of bytes; damaged files, killed entries, free blocks and mixed blocks.
#[derive(Debug, PartialEq, Eq)]
struct Summary {
    name: Vec<u8>,
    meta: Vec<u8>,
    bytes: usize,
    counts: [usize; 4],
}

fn summary_of(alloc: Global, g: &Geometry, image: &[u8]) -> Result<Option<Summary>, AllocError> {
    if !holds_volume(g, image) {
        return Ok(None);
    }
    let table = table_of(alloc, g, image)?;
    let first = table.first();
    let name = Vec::from_slice(alloc, first.map_or(&[], |r| r.name.as_slice()))?;
    let meta = Vec::from_slice(alloc, first.map_or(&[], |r| r.meta.as_slice()))?;
    let damaged = damaged_of(alloc, g, image)?.len();
    let killed = killed_of(alloc, g, image)? as usize;
    let free = free_blocks(g, image) as usize;
    let counts = [damaged, killed, free, mixed_blocks(g, image) as usize];
    Ok(Some(Summary {
        name,
        meta,
        bytes: first.map_or(0, |r| r.bytes.len()),
        counts,
    }))
}

fn check_row(
    rt: &impl Abort,
    alloc: Global,
    g: &Geometry,
    image: &[u8],
    row: (&str, &[u8], &[u8], usize, [usize; 4]),
) -> Result<(), Fail> {
    let wanted = Summary {
        name: Vec::from_slice(alloc, row.1)?,
        meta: Vec::from_slice(alloc, row.2)?,
        bytes: row.3,
        counts: row.4,
    };
    assert!(rt; summary_of(alloc, g, image)? == Some(wanted), "{}", row.0);
    Ok(())
}

#[test]
fn images_mean_what_was_written() {
    rattle_host::test::run(images_mean_what_was_written_with)
}

fn images_mean_what_was_written_with(rt: HostRuntime) -> Result<(), Fail> {
    let g = Geometry::new(256, 4096, 16, 4096, 0, MagicKind::Length)?;
    let mut image = blocks_with_magic(rt.alloc(), &g, &[0, 0])?;
    check_row(
        &rt,
        rt.alloc(),
        &g,
        image.as_slice(),
        ("a formatted volume", b"", b"", 0, [0, 0, 16, 0]),
    )?;
    put(&mut image, 0, &[0xFF, 0x9F]);
    check_row(
        &rt,
        rt.alloc(),
        &g,
        image.as_slice(),
        ("a cut in an entry", b"", b"", 0, [0, 1, 15, 0]),
    )?;
    put_new_file(&mut image);
    check_row(
        &rt,
        rt.alloc(),
        &g,
        image.as_slice(),
        ("a new file", b"a", b"", 0, [0, 0, 15, 0]),
    )?;
    put(&mut image, 0, &[0, 0]);
    put(&mut image, 260, &[0x38]);
    check_row(
        &rt,
        rt.alloc(),
        &g,
        image.as_slice(),
        ("a removed file", b"", b"", 0, [0, 0, 15, 0]),
    )?;
    put_hello(&mut image);
    check_row(
        &rt,
        rt.alloc(),
        &g,
        image.as_slice(),
        ("a written file", b"a", b"", 5, [0, 0, 14, 0]),
    )
}

#[test]
fn a_block_may_hold_both_kinds_of_pages() {
    rattle_host::test::run(a_block_may_hold_both_kinds_of_pages_with)
}

fn a_block_may_hold_both_kinds_of_pages_with(rt: HostRuntime) -> Result<(), Fail> {
    let g = Geometry::new(256, 4096, 16, 4096, 4, MagicKind::Length)?;
    let mut image = blocks_with_magic(rt.alloc(), &g, &[0xFF, 0xFF])?;
    put_mixed(&mut image);
    let row = (
        "both kinds in one block",
        b"/index.html".as_slice(),
        [1u8, 2, 3, 4].as_slice(),
        5,
        [0, 0, 15, 1],
    );
    check_row(&rt, rt.alloc(), &g, image.as_slice(), row)
}

// The cause of the first damaged file.
fn first_cause(
    alloc: Global,
    g: &Geometry,
    image: &[u8],
) -> Result<Option<(u16, Damage)>, AllocError> {
    if !holds_volume(g, image) {
        return Ok(None);
    }
    Ok(damaged_of(alloc, g, image)?.first().copied())
}

#[test]
fn damaged_files_have_their_first_cause() {
    rattle_host::test::run(damaged_files_have_their_first_cause_with)
}

fn damaged_files_have_their_first_cause_with(rt: HostRuntime) -> Result<(), Fail> {
    let g = Geometry::new(256, 4096, 16, 4096, 0, MagicKind::Length)?;
    for (place, byte, id, cause) in [
        (525, 0, 1, Damage::BadName),
        (521, 1, 1, Damage::Missing(1)),
        (557, 0x12, 1, Damage::Missing(0)),
        (4356, 0x7C, 1, Damage::Missing(0)),
        (8192, 2, 2, Damage::SameName(1)),
    ] {
        let mut image = blocks_with_magic(rt.alloc(), &g, &[0, 0])?;
        put_hello(&mut image);
        put(&mut image, 8193, &[0x80]);
        put(&mut image, 33 * 256, &NEW_HEADER);
        put(&mut image, 33 * 256, &[2]);
        put(&mut image, 33 * 256 + 14, &[0; 31]);
        put(&mut image, place, &[byte]);
        assert!(rt;
            first_cause(rt.alloc(), &g, image.as_slice())? == Some((id, cause)),
            "at {place}"
        );
    }
    Ok(())
}

#[test]
fn interrupted_steps_leave_what_was_there() {
    rattle_host::test::run(interrupted_steps_leave_what_was_there_with)
}

fn interrupted_steps_leave_what_was_there_with(rt: HostRuntime) -> Result<(), Fail> {
    let g = Geometry::new(256, 4096, 16, 4096, 0, MagicKind::Length)?;
    let mut image = blocks_with_magic(rt.alloc(), &g, &[0, 0])?;
    put_hello(&mut image);
    put(&mut image, 4362, &[0x7F]);
    check_row(
        &rt,
        rt.alloc(),
        &g,
        image.as_slice(),
        ("bytes past the end", b"a", b"", 5, [0, 0, 14, 0]),
    )?;
    put(&mut image, 4, &[1, 0x80]);
    put(&mut image, 768, &NEW_HEADER);
    put(&mut image, 776, &[5, 0, 0, 0, 1, 0x62]);
    put(&mut image, 782, &[0; 31]);
    put(&mut image, 813, &[0x11, 0]);
    check_row(
        &rt,
        rt.alloc(),
        &g,
        image.as_slice(),
        ("two header pages", b"a", b"", 5, [0, 1, 14, 0]),
    )?;
    put(&mut image, 516, &[0x78]);
    check_row(
        &rt,
        rt.alloc(),
        &g,
        image.as_slice(),
        ("the old header killed", b"b", b"", 5, [0, 1, 14, 0]),
    )?;
    put(&mut image, 772, &[0x78]);
    check_row(
        &rt,
        rt.alloc(),
        &g,
        image.as_slice(),
        ("no header page", b"", b"", 0, [0, 3, 14, 0]),
    )
}

// So many files of that many bytes.
fn files_of(alloc: Global, files: u16, size: u16) -> Result<Vec<Record>, AllocError> {
    let mut table = Vec::new(alloc);
    for id in 0..files {
        table.push(Record {
            id,
            name: Vec::new(alloc),
            kind: 1,
            meta: Vec::new(alloc),
            bytes: vec![in alloc; 0u8; size as usize]?,
        })?;
    }
    Ok(table)
}

// Checks how many pages tables of files take, and whether they have room.
fn check_rooms(
    rt: &impl Abort,
    alloc: Global,
    g: &Geometry,
    rows: &[(u16, u16, u128, u128, bool)],
) -> Result<(), Fail> {
    for (files, size, index_pages, data_pages, fits) in rows {
        let table = files_of(alloc, *files, *size)?;
        let wanted = Room {
            index_pages: *index_pages,
            data_pages: *data_pages,
            fits: *fits,
        };
        assert!(rt;
            room_of(g, table.as_slice()) == wanted,
            "{files} files of {size} bytes"
        );
    }
    Ok(())
}

#[test]
fn a_table_has_room_while_one_page_of_each_kind_can_be_added() {
    rattle_host::test::run(a_table_has_room_while_one_page_of_each_kind_can_be_added_with)
}

fn a_table_has_room_while_one_page_of_each_kind_can_be_added_with(
    rt: HostRuntime,
) -> Result<(), Fail> {
    let small = Geometry::new(128, 1024, 6, 1024, 0, MagicKind::Plain)?;
    check_rooms(
        &rt,
        rt.alloc(),
        &small,
        &[
            (1, 2460, 1, 20, true),
            (1, 2461, 1, 21, false),
            (20, 0, 20, 0, true),
            (21, 0, 21, 0, false),
        ],
    )?;
    let g = Geometry::new(256, 4096, 16, 4096, 0, MagicKind::Length)?;
    check_rooms(
        &rt,
        rt.alloc(),
        &g,
        &[
            (1, 251, 1, 1, true),
            (1, 252, 1, 2, true),
            (1, 26355, 1, 105, true),
            (1, 26356, 2, 106, true),
            (1, 48694, 2, 194, true),
            (1, 48695, 2, 195, false),
            (194, 0, 194, 0, true),
            (195, 0, 195, 0, false),
        ],
    )
}

// Blocks that lack their magic, and whether the image is tidy.
fn magics_of(alloc: Global, g: &Geometry, image: &[u8]) -> Result<Option<(u32, bool)>, AllocError> {
    if !holds_volume(g, image) {
        return Ok(None);
    }
    Ok(Some((spoiled_blocks(g, image), is_tidy(alloc, g, image)?)))
}

#[test]
fn blocks_without_magic_leave_the_files_of_others() {
    rattle_host::test::run(blocks_without_magic_leave_the_files_of_others_with)
}

fn blocks_without_magic_leave_the_files_of_others_with(rt: HostRuntime) -> Result<(), Fail> {
    let g = Geometry::new(256, 4096, 16, 4096, 0, MagicKind::Length)?;
    let mut image = blocks_with_magic(rt.alloc(), &g, &[0, 0])?;
    put_hello(&mut image);
    assert!(rt; magics_of(rt.alloc(), &g, image.as_slice())? == Some((0, true)));
    put(&mut image, 20480, &[0x5A; 4096]);
    check_row(
        &rt,
        rt.alloc(),
        &g,
        image.as_slice(),
        ("a cut in an erase", b"a", b"", 5, [0, 0, 13, 0]),
    )?;
    for (byte, count, spoiled) in [(0x5A, 4096, 2), (0xFF, 65536, 16), (0, 65536, 16)] {
        let scrambled = vec![in rt.alloc(); byte; count]?;
        put(
            &mut image,
            65536usize.saturating_sub(count),
            scrambled.as_slice(),
        );
        assert!(rt;
            magics_of(rt.alloc(), &g, image.as_slice())? == Some((spoiled, false)),
            "{count} bytes of {byte}"
        );
    }
    Ok(())
}

#[test]
fn a_size_counts_where_pages_stand_behind_it() {
    rattle_host::test::run(a_size_counts_where_pages_stand_behind_it_with)
}

fn a_size_counts_where_pages_stand_behind_it_with(rt: HostRuntime) -> Result<(), Fail> {
    let g = Geometry::new(256, 4096, 16, 4096, 0, MagicKind::Length)?;
    let mut image = blocks_with_magic(rt.alloc(), &g, &[0, 0])?;
    put_new_file(&mut image);
    put(&mut image, 264, &[0xFE]);
    check_row(
        &rt,
        rt.alloc(),
        &g,
        image.as_slice(),
        ("a size without pages", b"", b"", 0, [1, 1, 15, 0]),
    )?;
    assert!(rt; first_cause(rt.alloc(), &g, image.as_slice())? == Some((1, Damage::Missing(0))));
    put_hello(&mut image);
    put(&mut image, 0, &[0, 0, 0, 0, 1, 0x80]);
    put(&mut image, 516, &[0x78]);
    put(&mut image, 4362, b"abc");
    put(&mut image, 768, &NEW_HEADER);
    put(&mut image, 776, &[8, 0, 0, 0]);
    put(&mut image, 782, &[0; 31]);
    put(&mut image, 813, &[0x11, 0]);
    check_row(
        &rt,
        rt.alloc(),
        &g,
        image.as_slice(),
        ("bytes behind the old end", b"a", b"", 8, [0, 0, 14, 0]),
    )
}

// How many files an image has and how many are damaged, and whether it is sound with respect to a first one.
fn soundness(
    alloc: Global,
    g: &Geometry,
    image: &[u8],
    first: &[u8],
) -> Result<Option<(usize, usize, bool)>, AllocError> {
    if !holds_volume(g, image) || !holds_volume(g, first) {
        return Ok(None);
    }
    let now = meaning_of(alloc, g, image)?;
    let before = meaning_of(alloc, g, first)?;
    let sound = is_sound(
        g,
        image,
        now.damaged.as_slice(),
        first,
        before.damaged.as_slice(),
    );
    Ok(Some((now.table.len(), now.damaged.len(), sound)))
}

#[test]
fn an_image_is_sound_where_nothing_new_is_damaged_mixed_or_spoiled() {
    rattle_host::test::run(an_image_is_sound_where_nothing_new_is_damaged_mixed_or_spoiled_with)
}

fn an_image_is_sound_where_nothing_new_is_damaged_mixed_or_spoiled_with(
    rt: HostRuntime,
) -> Result<(), Fail> {
    let g = Geometry::new(256, 4096, 16, 4096, 0, MagicKind::Length)?;
    let mut first = blocks_with_magic(rt.alloc(), &g, &[0, 0])?;
    put_new_file(&mut first);
    let mut hello = Vec::from_slice(rt.alloc(), first.as_slice())?;
    put_hello(&mut hello);
    let mut damaged = Vec::from_slice(rt.alloc(), first.as_slice())?;
    put(&mut damaged, 264, &[0xFE]);
    let mut cut = Vec::from_slice(rt.alloc(), hello.as_slice())?;
    put(&mut cut, 20480, &[0x5A; 4096]);
    let mut spoiled = Vec::from_slice(rt.alloc(), cut.as_slice())?;
    put(&mut spoiled, 24576, &[0x5A; 4096]);
    let mut mixed = Vec::from_slice(rt.alloc(), hello.as_slice())?;
    put_mixed(&mut mixed);
    for (title, image, base, wanted) in [
        ("itself", &first, &first, (1, 0, true)),
        ("written", &hello, &first, (1, 0, true)),
        ("a new damage", &damaged, &hello, (0, 1, false)),
        ("an old damage", &damaged, &damaged, (0, 1, true)),
        ("one block in an erase", &cut, &hello, (1, 0, true)),
        ("two blocks", &spoiled, &hello, (1, 0, false)),
    ] {
        let got = soundness(rt.alloc(), &g, image.as_slice(), base.as_slice())?;
        assert!(rt; got == Some(wanted), "{title}: {:?}", got);
    }
    let anew = soundness(rt.alloc(), &g, mixed.as_slice(), first.as_slice())?;
    assert!(rt; anew.is_some_and(|(_, _, sound)| !sound), "{:?}", anew);
    let same = soundness(rt.alloc(), &g, mixed.as_slice(), mixed.as_slice())?;
    assert!(rt; same.is_some_and(|(_, _, sound)| sound), "{:?}", same);
    Ok(())
}

// Whether two images have the same live pages, where both hold a volume.
fn same_live(g: &Geometry, a: &[u8], b: &[u8]) -> Option<bool> {
    if !holds_volume(g, a) || !holds_volume(g, b) {
        return None;
    }
    Some(is_same_live(g, a, b))
}

#[test]
fn bytes_of_pages_that_are_not_live_do_not_count() {
    rattle_host::test::run(bytes_of_pages_that_are_not_live_do_not_count_with)
}

fn bytes_of_pages_that_are_not_live_do_not_count_with(rt: HostRuntime) -> Result<(), Fail> {
    let g = Geometry::new(256, 4096, 16, 4096, 0, MagicKind::Length)?;
    let mut hello = blocks_with_magic(rt.alloc(), &g, &[0, 0])?;
    put_new_file(&mut hello);
    put_hello(&mut hello);
    let mut other = Vec::from_slice(rt.alloc(), hello.as_slice())?;
    put(&mut other, 60000, &[0x12, 0x34]);
    assert!(rt; same_live(&g, hello.as_slice(), other.as_slice()) == Some(true));
    put(&mut other, 4361, b"J");
    assert!(rt; same_live(&g, hello.as_slice(), other.as_slice()) == Some(false));
    put(&mut hello, 4361, b"J");
    assert!(rt; same_live(&g, hello.as_slice(), other.as_slice()) == Some(true));
    Ok(())
}
