//! Blocks that hold pages of both kinds, and whether a check can part them.

use crate::bytes::put;
use liverymenhir::geometry::{Geometry, MagicKind};
use rattle_host::alloc::{AllocError, Global};
use rattle_host::assert;
#[allow(unused_imports)]
use rattle_host::prelude::*;
use rattle_host::test::Fail;
use rattle_host::vec;
use spiffs::plain_collect::{SharedBlocks, parting};
use spiffs::plain_image::{holds_volume, is_tidy};

// The header page of a file of `spans` data pages at a byte, with an empty index.
fn put_header(image: &mut Vec<u8>, at: usize, spans: u8) {
    let size = u32::from(spans) * 251;
    let low = [(size % 256) as u8, (size / 256) as u8, 0, 0, 1, 0x61];
    put(image, at, &[1, 0x80, 0, 0, 0xF8, 0xFF, 0xFF, 0xFF]);
    put(image, at.saturating_add(8), &low);
    put(image, at.saturating_add(14), &[0; 31]);
}

// A file of `spans` data pages, with its header and the first of them in block 0 and the others in blocks 1 and 2.
fn sample(alloc: Global, g: &Geometry, spans: u8) -> Result<Vec<u8>, AllocError> {
    let mut image = vec![in alloc; 0xFFu8; 65536]?;
    for block in 0..16u32 {
        let magic = if block < g.blocks {
            g.magic_of(block)
        } else {
            0
        };
        let end = block as usize * 4096 + 252;
        put(
            &mut image,
            end,
            &[(magic % 256) as u8, (magic / 256) as u8, 0, 0],
        );
    }
    put(&mut image, 0, &[1, 0x80]);
    put_header(&mut image, 256, spans);
    for span in 0..spans.min(31) {
        let place = if span == 0 { 1 } else { span + 14 };
        let (block, entry) = (place / 15, place % 15);
        let page = block * 16 + 1 + entry;
        put(&mut image, 301 + 2 * span as usize, &[page, 0]);
        put(
            &mut image,
            block as usize * 4096 + 2 * entry as usize,
            &[1, 0],
        );
        put(&mut image, page as usize * 256, &[1, 0, span, 0, 0xFC]);
    }
    Ok(image)
}

fn said(
    alloc: Global,
    g: &Geometry,
    image: &[u8],
) -> Result<Option<(SharedBlocks, bool)>, AllocError> {
    if !holds_volume(g, image) {
        return Ok(None);
    }
    let numbers = parting(alloc, g, image)?;
    Ok(Some((numbers, is_tidy(alloc, g, image)?)))
}

#[test]
fn one_shared_block_fits_over_where_three_blocks_are_free() {
    rattle_host::test::run(one_shared_block_fits_over_where_three_blocks_are_free_with)
}

fn one_shared_block_fits_over_where_three_blocks_are_free_with(
    rt: HostRuntime,
) -> Result<(), Fail> {
    for (blocks, spans, shared, fits, tidy) in [
        (16, 1, 1, true, false),
        (4, 30, 1, false, false),
        (16, 0, 0, true, true),
    ] {
        let g = Geometry::new(256, 4096, blocks, 4096, 0, MagicKind::Length)?;
        let mut image = sample(rt.alloc(), &g, spans)?;
        if spans == 30 {
            // The last entry of block 2 is deleted.
            put(&mut image, 2 * 4096 + 28, &[0, 0]);
        }
        let numbers = SharedBlocks {
            shared,
            index_pages: u64::from(shared),
            index_free: u64::from(1 - shared) * 14,
            fits,
        };
        assert!(rt;
            said(rt.alloc(), &g, image.as_slice())? == Some((numbers, tidy)),
            "{blocks} blocks, {spans} pages"
        );
    }
    Ok(())
}
