use rattle_host::assert;
#[allow(unused_imports)]
use rattle_host::prelude::*;
use rattle_host::vec;

use crate::bytes::put;
use liverymenhir::geometry::{Geometry, MagicKind};
use rattle_host::alloc::{AllocError, Global};
use rattle_host::process::Abort;
use rattle_host::test::Fail;
use spiffs::plain_collect::{
    are_had, chosen_block, is_fitting, is_stuck, is_swept, is_worth, score, scrub_victim,
};
use spiffs::plain_image::holds_volume;

// An erased block with its magic and this erase count.
fn put_fresh(image: &mut Vec<u8>, g: &Geometry, block: u8, count: u8) {
    if u32::from(block) < g.blocks {
        let magic = g.magic_of(u32::from(block));
        let start = block as usize * 4096;
        put(image, start, &[0xFF; 4096]);
        put(
            image,
            start + 252,
            &[(magic % 256) as u8, (magic / 256) as u8, count, 0],
        );
    }
}

fn formatted(alloc: Global, g: &Geometry) -> Result<Vec<u8>, AllocError> {
    let mut image = vec![in alloc; 0xFFu8; 16384]?;
    for block in 0..4u8 {
        put_fresh(&mut image, g, block, 0);
    }
    Ok(image)
}

// The number of a page in a block.
fn page_number(block: u8, entry: u8) -> usize {
    block as usize * 16 + 1 + entry as usize
}

// An entry, and the front of its page.
fn put_page(image: &mut Vec<u8>, block: u8, entry: u8, word: &[u8], front: &[u8]) {
    put(image, block as usize * 4096 + 2 * entry as usize, word);
    put(image, page_number(block, entry) * 256, front);
}

// A header page of a file of so many data pages, with an empty index.
fn put_header(image: &mut Vec<u8>, block: u8, entry: u8, id: u8, spans: u8) {
    let size = u32::from(spans) * 251;
    let low = [(size % 256) as u8, (size / 256) as u8, 0, 0, 1, 0x60 | id];
    let front = [id, 0x80, 0, 0, 0xF8, 0xFF, 0xFF, 0xFF];
    put_page(image, block, entry, &[id, 0x80], &front);
    let page = page_number(block, entry) * 256;
    put(image, page + 8, &low);
    put(image, page + 14, &[0; 31]);
}

// The data page of a span, and its entry in the index of the header page in block 0.
fn put_data(image: &mut Vec<u8>, block: u8, entry: u8, header: u8, span: u8) {
    put_page(image, block, entry, &[1, 0], &[1, 0, span, 0, 0xFC]);
    let number = page_number(block, entry);
    let slot = page_number(0, header) * 256 + 45 + 2 * span as usize;
    put(
        image,
        slot,
        &[(number % 256) as u8, (number / 256 % 256) as u8],
    );
}

// A file whose header page is the first page of block 0, and whose data pages fill the blocks behind it.
fn put_file(image: &mut Vec<u8>, spans: u8) {
    put_header(image, 0, 0, 1, spans);
    for span in 0..spans {
        put_data(image, (span / 15).saturating_add(1), span % 15, 0, span);
    }
}

// Kills the pages of some entries of a block.
fn kill(image: &mut Vec<u8>, block: u8, entries: u8) {
    for entry in 0..entries {
        put(image, block as usize * 4096 + 2 * entry as usize, &[0, 0]);
        put(image, page_number(block, entry) * 256 + 4, &[0x78]);
    }
}

fn small() -> Result<Geometry, Fail> {
    Ok(Geometry::new(256, 4096, 4, 4096, 0, MagicKind::Length)?)
}

// Whether a block is worth cleaning and fits, and its score.
fn numbers_of(g: &Geometry, image: &[u8], block: u32) -> Option<(bool, bool, i64)> {
    if !holds_volume(g, image) || block >= g.blocks {
        return None;
    }
    Some((
        is_worth(g, image, block),
        is_fitting(g, image, block),
        score(g, image, block),
    ))
}

// The block that is cleaned next, and whether collection is stuck.
fn next_of(
    alloc: Global,
    g: &Geometry,
    image: &[u8],
) -> Result<Option<(Option<u32>, bool)>, AllocError> {
    if !holds_volume(g, image) {
        return Ok(None);
    }
    Ok(Some((chosen_block(alloc, g, image)?, is_stuck(g, image))))
}

// The numbers of each block, the block that is cleaned next, and whether collection is stuck.
fn check_row(
    rt: &impl Abort,
    alloc: Global,
    g: &Geometry,
    image: &[u8],
    row: (&str, [(bool, bool, i64); 4], Option<u32>, bool),
) -> Result<(), Fail> {
    for block in 0..4u32 {
        assert!(rt;
            numbers_of(g, image, block) == Some(row.1[block as usize]),
            "{}, block {block}",
            row.0
        );
    }
    assert!(rt;
        next_of(alloc, g, image)? == Some((row.2, row.3)),
        "{}",
        row.0
    );
    Ok(())
}

#[test]
fn blocks_are_worth_cleaning_and_fit_by_their_pages() {
    rattle_host::test::run(blocks_are_worth_cleaning_and_fit_by_their_pages_with)
}

fn blocks_are_worth_cleaning_and_fit_by_their_pages_with(rt: HostRuntime) -> Result<(), Fail> {
    let g = small()?;
    let mut image = formatted(rt.alloc(), &g)?;
    put_header(&mut image, 0, 0, 1, 0);
    put_header(&mut image, 1, 0, 2, 0);
    let free = (false, true, 50);
    check_row(
        &rt,
        rt.alloc(),
        &g,
        image.as_slice(),
        (
            "two blocks of one index page",
            [(true, true, 49), (true, true, 49), free, free],
            Some(0),
            false,
        ),
    )?;
    let mut image = formatted(rt.alloc(), &g)?;
    put_file(&mut image, 30);
    let full = (false, false, 35);
    check_row(
        &rt,
        rt.alloc(),
        &g,
        image.as_slice(),
        (
            "two full data blocks",
            [(false, true, 49), full, full, free],
            None,
            false,
        ),
    )?;
    kill(&mut image, 0, 1);
    kill(&mut image, 1, 15);
    kill(&mut image, 2, 15);
    let dead = (true, true, 125);
    check_row(
        &rt,
        rt.alloc(),
        &g,
        image.as_slice(),
        (
            "its file removed",
            [(true, true, 55), dead, dead, free],
            Some(1),
            false,
        ),
    )?;
    for block in 1..4usize {
        put(&mut image, block * 4096 + 254, &[5]);
    }
    let worn = (true, true, 125);
    check_row(
        &rt,
        rt.alloc(),
        &g,
        image.as_slice(),
        (
            "the others erased five times",
            [(true, true, 305), worn, worn, free],
            Some(0),
            false,
        ),
    )
}

#[test]
fn collection_is_stuck_where_no_block_worth_cleaning_fits() {
    rattle_host::test::run(collection_is_stuck_where_no_block_worth_cleaning_fits_with)
}

fn collection_is_stuck_where_no_block_worth_cleaning_fits_with(
    rt: HostRuntime,
) -> Result<(), Fail> {
    let g = small()?;
    for (headers, index, chosen, stuck) in [
        (1, (false, true, 49), Some(2), false),
        (2, (false, true, 48), None, true),
    ] {
        let mut image = formatted(rt.alloc(), &g)?;
        put_file(&mut image, 29);
        put(&mut image, 8192 + 28, &[0, 0]);
        if headers == 2 {
            put_header(&mut image, 0, 1, 2, 0);
        }
        let blocks = [
            index,
            (false, false, 35),
            (true, chosen.is_some(), 41),
            (false, true, 50),
        ];
        check_row(
            &rt,
            rt.alloc(),
            &g,
            image.as_slice(),
            ("a deleted entry", blocks, chosen, stuck),
        )?;
    }
    Ok(())
}

fn had(g: &Geometry, image: &[u8], index: u32, pages: u32) -> Option<bool> {
    if holds_volume(g, image) {
        Some(are_had(g, image, index, pages))
    } else {
        None
    }
}

#[test]
fn wanted_pages_are_had_in_free_entries_of_their_kind() {
    rattle_host::test::run(wanted_pages_are_had_in_free_entries_of_their_kind_with)
}

fn wanted_pages_are_had_in_free_entries_of_their_kind_with(rt: HostRuntime) -> Result<(), Fail> {
    let g = small()?;
    for (spans, index, pages, wanted) in [
        (30, 14, 0, true),
        (30, 15, 0, false),
        (30, 0, 1, false),
        (1, 14, 14, true),
        (1, 15, 14, false),
        (0, 14, 15, true),
        (0, 15, 0, true),
        (0, 29, 0, true),
        (0, 30, 0, false),
        (0, 15, 1, false),
    ] {
        let mut image = formatted(rt.alloc(), &g)?;
        put_file(&mut image, spans);
        assert!(rt;
            had(&g, image.as_slice(), index, pages) == Some(wanted),
            "{spans} pages, {index} and {pages} wanted"
        );
    }
    Ok(())
}

fn swept(alloc: Global, g: &Geometry, a: &[u8], b: &[u8]) -> Result<Option<bool>, AllocError> {
    if !holds_volume(g, a) || !holds_volume(g, b) {
        return Ok(None);
    }
    Ok(Some(is_swept(alloc, g, a, b)?))
}

#[test]
fn the_chosen_block_is_swept_and_no_other() {
    rattle_host::test::run(the_chosen_block_is_swept_and_no_other_with)
}

fn the_chosen_block_is_swept_and_no_other_with(rt: HostRuntime) -> Result<(), Fail> {
    let g = small()?;
    let mut before = formatted(rt.alloc(), &g)?;
    put_file(&mut before, 30);
    kill(&mut before, 0, 1);
    kill(&mut before, 1, 15);
    kill(&mut before, 2, 15);
    for block in 0..4u8 {
        let mut after = Vec::from_slice(rt.alloc(), before.as_slice())?;
        put_fresh(&mut after, &g, block, 1);
        assert!(rt;
            swept(rt.alloc(), &g, before.as_slice(), after.as_slice())? == Some(block == 1),
            "block {block}"
        );
    }
    Ok(())
}

#[test]
fn a_swept_data_block_leaves_at_most_one_deleted_entry_for_each_page() {
    rattle_host::test::run(a_swept_data_block_leaves_at_most_one_deleted_entry_for_each_page_with)
}

fn a_swept_data_block_leaves_at_most_one_deleted_entry_for_each_page_with(
    rt: HostRuntime,
) -> Result<(), Fail> {
    let g = small()?;
    let mut before = formatted(rt.alloc(), &g)?;
    put_file(&mut before, 1);
    put(&mut before, 4098, &[0, 0]);
    for (entry, wanted) in [(0, true), (1, true), (2, false)] {
        let mut after = formatted(rt.alloc(), &g)?;
        put_fresh(&mut after, &g, 1, 1);
        put_header(&mut after, 0, entry, 1, 1);
        put_data(&mut after, 2, 0, entry, 0);
        for killed in 0..entry {
            put(&mut after, 2 * killed as usize, &[0, 0]);
        }
        assert!(rt;
            swept(rt.alloc(), &g, before.as_slice(), after.as_slice())? == Some(wanted),
            "{entry} deleted"
        );
    }
    Ok(())
}

// The block that a scrub step with this limit moves.
fn victim_of(
    alloc: Global,
    g: &Geometry,
    image: &[u8],
    limit: u16,
) -> Result<Option<Option<u32>>, AllocError> {
    if !holds_volume(g, image) {
        return Ok(None);
    }
    Ok(Some(scrub_victim(alloc, g, image, limit)?))
}

#[test]
fn a_scrub_moves_the_first_of_the_oldest_blocks_in_use_that_fit() {
    rattle_host::test::run(a_scrub_moves_the_first_of_the_oldest_blocks_in_use_that_fit_with)
}

fn a_scrub_moves_the_first_of_the_oldest_blocks_in_use_that_fit_with(
    rt: HostRuntime,
) -> Result<(), Fail> {
    let g = small()?;
    for (spans, counts, limit, wanted) in [
        (15, [0u16, 0, 0, 0], 1, None),
        (15, [0, 0, 5, 5], 5, Some(0)),
        (15, [0, 0, 5, 5], 6, None),
        (15, [1, 0, 5, 5], 5, Some(1)),
        (15, [0, 0, 5, 3], 3, Some(0)),
        (15, [0, 0, 5, 3], 4, None),
        (15, [0x7FF0, 0, 0x7FFF, 0x7FFF], 15, Some(0)),
        (30, [9, 0, 0, 9], 1, None),
        (30, [5, 0, 0, 9], 4, Some(0)),
    ] {
        let mut image = formatted(rt.alloc(), &g)?;
        put_file(&mut image, spans);
        for block in 0..4usize {
            let count = [(counts[block] % 256) as u8, (counts[block] / 256) as u8];
            put(&mut image, block * 4096 + 254, &count);
        }
        assert!(rt;
            victim_of(rt.alloc(), &g, image.as_slice(), limit)? == Some(wanted),
            "{spans} pages, {counts:?}, limit {limit}"
        );
    }
    Ok(())
}
