//! The largest new file, made on volumes in memory.

use liverymenhir::fd_table::FdSlot;
use liverymenhir::geometry::{Geometry, MagicKind};
use liverymenhir::table_model::FsErr;
use liverymenhir::vol_mount::{Lent, format};
use liverymenhir::volume::Volume;
use rattle_host::alloc::Global;
use rattle_host::prelude::*;
use spiffs::file_room::largest_file;
use spiffs::nor_memory::MemBoard;
use std::vec::Vec;

/// Memory for one volume.
struct Memory {
    work: Vec<u8>,
    slots: Vec<FdSlot>,
    cache: Vec<u8>,
    check: Vec<u8>,
    window: Vec<u8>,
}

impl Memory {
    fn new(g: &Geometry) -> Memory {
        Memory {
            work: vec![0; g.work_need() as usize],
            slots: (0..2).map(|_| FdSlot::empty()).collect(),
            cache: vec![0; g.cache_need() as usize],
            check: vec![0; g.check_need() as usize],
            window: vec![0; g.page() as usize],
        }
    }

    // What is lent to a volume, and to its check.
    fn lend(&mut self) -> (Lent<'_>, &mut [u8]) {
        let lent = Lent {
            work: &mut self.work,
            slots: &mut self.slots,
            cache: &mut self.cache,
            window: &mut self.window,
        };
        (lent, &mut self.check)
    }
}

fn board_of(g: &Geometry, image: &[u8]) -> MemBoard {
    MemBoard::new(Global, image.to_vec_by(Global).expect("memory"), g.phys()).expect("a device")
}

// What a run on a copy of an image gives, and the image then.
fn on_copy<T>(g: &Geometry, image: &[u8], run: impl FnOnce(&mut Volume<'_, MemBoard>) -> T) -> (T, Vec<u8>) {
    let mut board = board_of(g, image);
    let mut memory = Memory::new(g);
    let (lent, marks) = memory.lend();
    let mut volume = Volume::new(*g, &mut board, lent);
    volume.mount().expect("mounts");
    volume.check(marks).expect("checked");
    let told = run(&mut volume);
    volume.unmount().last.expect("written");
    (told, board.image().to_vec())
}

fn formatted(g: &Geometry) -> Vec<u8> {
    let mut board = board_of(g, &vec![0xFF; (g.blocks * g.block) as usize]);
    format(g, &mut board).expect("formatted");
    board.image().to_vec()
}

fn largest_on(g: &Geometry, image: &[u8]) -> Option<u32> {
    on_copy(g, image, |volume| largest_file(g, &volume.info().expect("told"))).0
}

// A new file of so many bytes, written in pieces of that many.
fn put(volume: &mut Volume<'_, MemBoard>, name: &[u8], size: u32, piece: usize) -> Result<(), FsErr> {
    let fd = volume.open_file(name, 20)?;
    for bytes in vec![0xA5; size as usize].chunks(piece) {
        volume.write(fd, bytes)?;
    }
    volume.close(fd)
}

// A file of the largest size is taken, and one of a byte more isn't; both at once and piece by piece.
fn is_exact(g: &Geometry, image: &[u8]) {
    let most = largest_on(g, image);
    for piece in [usize::MAX, 1000, 251] {
        match most {
            Some(most) => {
                assert_eq!(on_copy(g, image, |volume| put(volume, b"new", most, piece)).0, Ok(()));
                assert_eq!(on_copy(g, image, |volume| put(volume, b"new", most + 1, piece)).0, Err(FsErr::Full));
            }
            None => assert_eq!(on_copy(g, image, |volume| put(volume, b"new", 0, piece)).0, Err(FsErr::Full)),
        }
    }
}

// The next of some drawn numbers below a limit.
fn draw(seed: &mut u64, limit: u32) -> u32 {
    *seed = seed.wrapping_mul(6364136223846793005).wrapping_add(1442695040888963407);
    (*seed >> 33) as u32 % limit
}

fn geometries() -> Vec<Geometry> {
    let numbers = [
        (256, 4096, 4, 4, MagicKind::Length),
        (256, 4096, 9, 0, MagicKind::Length),
        (256, 1024, 7, 64, MagicKind::Plain),
        (128, 1024, 12, 20, MagicKind::Length),
        (512, 8192, 6, 4, MagicKind::Plain),
        (128, 4096, 10, 0, MagicKind::Length),
    ];
    numbers.iter().map(|n| Geometry::new(n.0, n.1, n.2, n.1, n.3, n.4).expect("a geometry")).collect()
}

#[test]
fn the_largest_file_is_exact_on_empty_volumes() {
    for g in geometries() {
        is_exact(&g, &formatted(&g));
    }
}

#[test]
fn the_largest_file_is_exact_as_volumes_fill() {
    for (at, g) in geometries().iter().enumerate() {
        let mut seed = at as u64;
        let mut image = formatted(g);
        for turn in 0..24u8 {
            let size = draw(&mut seed, 5 * g.page);
            image = on_copy(g, &image, |volume| match put(volume, &[b'a' + turn], size, 300) {
                Ok(()) | Err(FsErr::Full) => (),
                Err(why) => panic!("{why:?}"),
            })
            .1;
            is_exact(g, &image);
            if draw(&mut seed, 3) == 0 {
                let gone = b'a' + draw(&mut seed, u32::from(turn) + 1) as u8;
                image = on_copy(g, &image, |volume| volume.remove(&[gone]).is_ok()).1;
                is_exact(g, &image);
            }
        }
    }
}

// Rows found by thought. PAGE 256, META 4: 251 bytes a data page, 103 data pages a header page, 124 a further index page. A block of 4,096
// bytes has 15 entry pages.
#[test]
fn the_largest_file_of_a_new_volume() {
    // four blocks: one for index pages, one for data pages; of its 15 entry pages 14 are used
    let g = Geometry::new(256, 4096, 4, 4096, 4, MagicKind::Length).expect("a geometry");
    assert_eq!(largest_on(&g, &formatted(&g)), Some(14 * 251));
    // 14 blocks: 11 for data pages, which are 164 of 165; a header page and a further index page
    let g = Geometry::new(256, 4096, 14, 4096, 4, MagicKind::Length).expect("a geometry");
    assert_eq!(largest_on(&g, &formatted(&g)), Some(164 * 251));
}
