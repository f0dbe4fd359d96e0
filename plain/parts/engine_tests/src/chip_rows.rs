//! A volume on a row of chips in memory, of which one fails.

use crate::bench::Memory;
use crate::images::put;
use crate::steps::check;
use liverymenhir::geometry::{Geometry, MagicKind};
use liverymenhir::table_model::FsErr;
use liverymenhir::vol_mount::accept;
use liverymenhir::volume::Volume;
use rattle_host::alloc::Global;
use rattle_host::assert;
#[allow(unused_imports)]
use rattle_host::prelude::*;
use rattle_host::test::Fail;
use rattle_host::vec;
use spiffs::chip_row::ChipRow;
use spiffs::nor_memory::{CallKind, MemChip};

// Chip `i` of four that hold an empty volume of 16 blocks end to end.
fn chip_of(alloc: Global, g: &Geometry, i: u32) -> Result<MemChip, Fail> {
    let mut image = vec![in alloc; 0xFFu8; 16384]?;
    for k in 0..4u32 {
        let block = i.saturating_mul(4).saturating_add(k);
        let magic = if block < g.blocks {
            g.magic_of(block)
        } else {
            0
        };
        let end = k as usize * 4096 + 252;
        put(
            &mut image,
            end,
            &[(magic % 256) as u8, (magic / 256) as u8, 0, 0],
        );
    }
    chip_with(alloc, image)
}

// A chip that holds this image of four blocks.
fn chip_with(alloc: Global, image: Vec<u8>) -> Result<MemChip, Fail> {
    if image.len() != 16384 {
        return Err("an image of another size".into());
    }
    Ok(MemChip::new(alloc, image, 4096)?)
}

// The bytes of each chip.
fn images_of(alloc: Global, row: &ChipRow<MemChip>) -> Result<Vec<Vec<u8>>, Fail> {
    let mut images = Vec::new(alloc);
    for chip in row.chips() {
        images.push(chip.image().to_vec_by(alloc)?)?;
    }
    Ok(images)
}

#[test]
fn the_chip_of_a_row_that_fails_is_named() {
    rattle_host::test::run(the_chip_of_a_row_that_fails_is_named_with)
}

fn the_chip_of_a_row_that_fails_is_named_with(rt: HostRuntime) -> Result<(), Fail> {
    let alloc = rt.alloc();
    let g = Geometry::new(256, 4096, 16, 4096, 0, MagicKind::Length)?;
    let mut chips = Vec::new(alloc);
    for i in 0..4 {
        let mut chip = chip_of(alloc, &g, i)?;
        if i == 1 {
            chip.fail_nth(CallKind::Program, 3);
        }
        chips.push(chip)?;
    }
    let mut row = ChipRow::new(chips, 16384, 4096).ok().ok_or("row")?;
    let mut memory = Memory::new(alloc, &g)?;
    let lent = memory.lend();
    accept(&g, &row, &lent)?;
    let mut volume = Volume::new(g, &mut row, lent);
    volume.mount()?;
    check(&mut volume)?;
    // 15 header pages go into each block, so 60 into the first chip
    for n in 1..61u8 {
        assert!(rt; volume.create(&[b'f', n]) == Ok(()));
    }
    let before = images_of(alloc, volume.nor_mut())?;
    assert!(rt; volume.create(b"last") == Err(FsErr::DeviceFault));
    assert!(rt; volume.nor_mut().fuse_chip() == Some(1));
    let after = images_of(alloc, volume.nor_mut())?;
    for i in [0, 2, 3] {
        assert!(rt; before.get(i) == after.get(i));
    }
    Ok(())
}
