//! Devices in memory, and memory for volumes.

use liverymenhir::fd_table::FdSlot;
use liverymenhir::geometry::Geometry;
use liverymenhir::nor_core::Failed;
use liverymenhir::vol_mount::{Lent, ReaderLent};
use rattle_host::alloc::Global;
#[allow(unused_imports)]
use rattle_host::prelude::*;
use rattle_host::test::Fail;
use rattle_host::vec;
use spiffs::nor_memory::MemBoard;

/// A device with these bytes, in the erase units of the volume.
pub(crate) fn board_of(alloc: Global, g: &Geometry, image: &[u8]) -> Result<MemBoard, Fail> {
    let unit = g.phys();
    if unit == 0 || image.len() % unit as usize != 0 || image.len() > 0x10_0000 {
        Err::<(), Failed>(Failed)?;
    }
    Ok(MemBoard::new(alloc, image.to_vec_by(alloc)?, unit)?)
}

/// Memory for one volume.
pub(crate) struct Memory {
    work: Vec<u8>,
    slots: Vec<FdSlot>,
    cache: Vec<u8>,
    window: Vec<u8>,
    check: Vec<u8>,
}

impl Memory {
    /// As much memory as a volume needs that opens one file at a time.
    pub(crate) fn new(alloc: Global, g: &Geometry) -> Result<Memory, Fail> {
        Memory::with_slots(alloc, g, 1)
    }

    /// The same, for so many open files.
    pub(crate) fn with_slots(alloc: Global, g: &Geometry, slots: usize) -> Result<Memory, Fail> {
        Ok(Memory {
            work: vec![in alloc; 0u8; g.work_need() as usize]?,
            slots: vec![in alloc; FdSlot::empty(); slots]?,
            cache: vec![in alloc; 0u8; g.cache_need() as usize]?,
            window: vec![in alloc; 0u8; g.page() as usize]?,
            check: vec![in alloc; 0u8; g.check_need() as usize]?,
        })
    }

    /// What is lent to a volume.
    pub(crate) fn lend(&mut self) -> Lent<'_> {
        Lent {
            work: &mut self.work,
            slots: &mut self.slots,
            cache: &mut self.cache,
            window: &mut self.window,
        }
    }

    /// What is lent to a reader.
    pub(crate) fn lend_reader(&mut self) -> ReaderLent<'_> {
        ReaderLent {
            work: &mut self.work,
            cache: &mut self.cache,
            check: &mut self.check,
        }
    }
}
