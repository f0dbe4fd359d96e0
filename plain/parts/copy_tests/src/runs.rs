//! Copies between devices in memory.

use crate::plain::{Plain, Wanted};
use liverymenhir::fd_table::FdSlot;
use liverymenhir::geometry::Geometry;
use liverymenhir::nor_core::Nor;
use liverymenhir::vol_mount::{Lent, Reader, ReaderLent, format};
use liverymenhir::volume::Volume;
use spiffs::vol_copy::{Copied, CopyErr, copy_all};
use rattle_host::alloc::Global;
use rattle_host::prelude::*;
use std::vec::Vec;
use spiffs::nor_memory::{CallKind, MemBoard};

/// Memory for one volume.
pub(crate) struct Memory {
    work: Vec<u8>,
    slots: Vec<FdSlot>,
    cache: Vec<u8>,
    check: Vec<u8>,
    window: Vec<u8>,
}

impl Memory {
    pub(crate) fn new(g: &Geometry, slots: usize) -> Memory {
        Memory {
            work: vec![0; g.work_need() as usize],
            slots: (0..slots).map(|_| FdSlot::empty()).collect(),
            cache: vec![0; g.cache_need() as usize],
            check: vec![0; g.check_need() as usize],
            window: vec![0; g.page() as usize],
        }
    }

    /// What is lent to a volume, and to its checks.
    pub(crate) fn lend(&mut self) -> (Lent<'_>, &mut [u8]) {
        let lent = Lent {
            work: &mut self.work,
            slots: &mut self.slots,
            cache: &mut self.cache,
            window: &mut self.window,
        };
        (lent, &mut self.check)
    }

    /// What is lent to a reader.
    pub(crate) fn lend_reader(&mut self) -> ReaderLent<'_> {
        ReaderLent {
            work: &mut self.work,
            cache: &mut self.cache,
            check: &mut self.check,
        }
    }
}

pub(crate) fn board_of(g: &Geometry, image: &[u8]) -> MemBoard {
    MemBoard::new(Global, image.to_vec_by(Global).expect("memory"), g.phys()).expect("a device")
}

/// An empty volume's image.
pub(crate) fn formatted(g: &Geometry) -> Vec<u8> {
    let mut board = board_of(g, &vec![0xFF; (g.blocks * g.block) as usize]);
    format(g, &mut board).expect("formatted");
    board.image().to_vec()
}

/// The image of a volume with these files, as far as its calls go.
pub(crate) fn image_of(g: &Geometry, files: &[Plain]) -> Vec<u8> {
    let mut board = board_of(g, &formatted(g));
    let mut memory = Memory::new(g, 1);
    let (lent, marks) = memory.lend();
    let mut volume = Volume::new(*g, &mut board, lent);
    volume.mount().expect("mounts");
    volume.check(marks).expect("checked");
    for file in files {
        let fd = volume.open_file(&file.name, 20).expect("opens");
        if !file.bytes.is_empty() {
            assert_eq!(volume.write(fd, &file.bytes), Ok(file.bytes.len() as u32));
        }
        volume.close(fd).expect("closes");
        if file.meta.iter().any(|b| *b != 0xFF) {
            volume.update_meta(&file.name, &file.meta).expect("meta");
        }
    }
    volume.unmount().last.expect("written");
    let mut image = board.image().to_vec();
    for file in files.iter().filter(|f| f.kind != 1) {
        set_kind(g, &mut image, file);
    }
    image
}

// Gives a file another type.
fn set_kind(g: &Geometry, image: &mut [u8], file: &Plain) {
    let mut name = file.name.clone();
    name.push(0);
    for page in image.chunks_mut(g.page as usize) {
        if page[1] & 0x80 != 0 && page[2] == 0 && page[3] == 0 && page[4] == 0xF8 && page[13..].starts_with(&name) {
            page[12] = file.kind;
        }
    }
}

/// The files that a device has after a mount and a check.
pub(crate) fn files_on<N: Nor>(g: &Geometry, device: &mut N) -> Vec<Plain> {
    let mut memory = Memory::new(g, 1);
    let (lent, marks) = memory.lend();
    let mut volume = Volume::new(*g, device, lent);
    volume.mount().expect("mounts");
    volume.check(marks).expect("checked");
    let mut files = Vec::new();
    let mut after = 0;
    while let Some(stat) = volume.next(after).expect("told") {
        let fd = volume.open_file(stat.name.as_slice(), 8).expect("opens");
        let mut bytes = vec![0; stat.size as usize];
        assert_eq!(volume.read(fd, &mut bytes), Ok(stat.size));
        volume.close(fd).expect("closes");
        files.push(Plain {
            id: stat.id,
            name: stat.name.as_slice().to_vec(),
            kind: stat.kind,
            meta: stat.meta.as_slice().to_vec(),
            bytes,
        });
        after = stat.id;
    }
    volume.unmount().last.expect("written");
    files
}

/// The files that an image has after a mount and a check, and its bytes then.
pub(crate) fn files_of(g: &Geometry, image: &[u8]) -> (Vec<Plain>, Vec<u8>) {
    let mut board = board_of(g, image);
    let files = files_on(g, &mut board);
    (files, board.image().to_vec())
}

/// What goes wrong in a copy.
#[derive(Clone, Copy, Debug, PartialEq, Eq)]
pub(crate) enum Fault {
    None,
    /// The target's power goes off after so many programs and erases.
    Cut(u64, u64),
    /// The nth call of a kind of the target fails.
    Target(CallKind, u64),
    /// The nth read of the source fails.
    Source(u64),
}

/// A copy that was made: how it ended, the target's image, and the source's.
pub(crate) struct Run {
    pub(crate) result: Result<Copied, CopyErr>,
    pub(crate) image: Vec<u8>,
    pub(crate) source: Vec<u8>,
}

/// Copies the files of one image onto another that was checked.
pub(crate) fn copy(gf: &Geometry, source: &[u8], g: &Geometry, target: &[u8], slots: usize, fault: Fault) -> Run {
    let mut from_board = board_of(gf, source);
    let mut to_board = board_of(g, target);
    let mut from_memory = Memory::new(gf, 1);
    let mut to_memory = Memory::new(g, slots);
    let result = {
        let mut from = Reader::new(*gf, &mut from_board, from_memory.lend_reader());
        from.mount().expect("mounts");
        let (lent, marks) = to_memory.lend();
        let mut to = Volume::new(*g, &mut to_board, lent);
        to.mount().expect("mounts");
        to.check(marks).expect("checked");
        match fault {
            Fault::None => (),
            Fault::Cut(passed, pick) => to.nor_mut().cut_after(passed, pick),
            Fault::Target(kind, nth) => to.nor_mut().fail_nth(kind, nth),
            Fault::Source(nth) => from.nor.fail_nth(CallKind::Read, nth),
        }
        let mut piece = vec![0x5A; 4096];
        copy_all(&mut from, &mut to, &mut piece)
    };
    Run {
        result,
        image: to_board.image().to_vec(),
        source: from_board.image().to_vec(),
    }
}

/// How a copy ended, where no device failed.
pub(crate) fn wanted(result: &Result<Copied, CopyErr>) -> Option<Wanted> {
    match *result {
        Ok(done) => Some(Wanted::Done(done.copied, done.kept)),
        Err(CopyErr::BadName { at }) => Some(Wanted::Bad(at)),
        Err(CopyErr::Full { index, data_pages }) => Some(Wanted::Full(index, data_pages)),
        Err(_) => None,
    }
}
