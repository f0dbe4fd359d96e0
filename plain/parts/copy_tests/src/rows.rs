//! Copies onto a row of two chips, of which one fails.

use crate::plain::{Plain, copied, is_under};
use crate::runs::{Memory, board_of, files_on, formatted, image_of, wanted};
use liverymenhir::geometry::{Geometry, MagicKind};
use liverymenhir::vol_mount::Reader;
use liverymenhir::volume::Volume;
use rattle_host::alloc::Global;
use rattle_host::prelude::*;
use spiffs::nor_memory::{CallKind, MemChip};
use spiffs::chip_row::ChipRow;
use spiffs::vol_copy::{Copied, CopyErr, copy_all};

// A row of two chips that hold an image, of which one fails at a call of a kind.
fn row_of(g: &Geometry, image: &[u8], fails: Option<(usize, CallKind, u64)>) -> ChipRow<MemChip> {
    let mut chips = Vec::new(Global);
    for (i, part) in image.chunks(image.len() / 2).enumerate() {
        let mut chip = MemChip::new(Global, part.to_vec_by(Global).expect("memory"), g.phys()).expect("a chip");
        if let Some((number, kind, nth)) = fails {
            if number == i {
                chip.fail_nth(kind, nth);
            }
        }
        chips.push(chip).expect("memory");
    }
    ChipRow::new(chips, image.len() as u32 / 2, g.phys()).expect("a row")
}

// Copies an image onto a row, which is mounted and checked.
fn copy(gf: &Geometry, source: &[u8], g: &Geometry, row: &mut ChipRow<MemChip>) -> Result<Copied, CopyErr> {
    let mut board = board_of(gf, source);
    let (mut from_memory, mut memory) = (Memory::new(gf, 1), Memory::new(g, 1));
    let mut from = Reader::new(*gf, &mut board, from_memory.lend_reader());
    from.mount().expect("mounts");
    let (lent, marks) = memory.lend();
    let mut to = Volume::new(*g, row, lent);
    to.mount().expect("mounts");
    to.check(marks).expect("checked");
    copy_all(&mut from, &mut to, &mut [0; 4096])
}

fn by_name(mut files: std::vec::Vec<Plain>) -> std::vec::Vec<Plain> {
    files.sort_by(|a, b| a.name.cmp(&b.name));
    files
}

// Lets each program and each erase of either chip fail in turn, in a copy onto a row that holds an image, and gives the copy again on the same
// row. How many failed of the first chip's programs and erases, and of the second one's.
fn fail_each(gf: &Geometry, source: &[Plain], g: &Geometry, target: &[u8]) -> [[u64; 2]; 2] {
    let source_image = image_of(gf, source);
    let first = files_on(g, &mut row_of(g, target, None));
    let mut failed = [[0; 2]; 2];
    for number in 0..2 {
        for (i, kind) in [CallKind::Program, CallKind::Erase].into_iter().enumerate() {
            for nth in 1.. {
                let label = format!("chip {number}, {kind:?} {nth}");
                let mut row = row_of(g, target, Some((number, kind, nth)));
                let result = copy(gf, &source_image, g, &mut row);
                if result.is_ok() {
                    break;
                }
                assert_eq!(result, Err(CopyErr::ToFault), "{label}");
                assert_eq!(row.fuse_chip(), Some(number), "{label}");
                failed[number][i] = nth;
                let left = files_on(g, &mut row);
                assert!(is_under(true, source, &first, &left), "{label}: under");
                let (want, files) = copied(g, true, source, &left);
                let again = copy(gf, &source_image, g, &mut row);
                assert_eq!(wanted(&again), Some(want), "{label}: again");
                assert_eq!(by_name(files_on(g, &mut row)), by_name(files), "{label}: files");
            }
        }
    }
    failed
}

fn file(name: &str, size: usize, seed: usize) -> Plain {
    let bytes = (0..size).map(|i| (i * 5 + seed) as u8).collect();
    Plain { id: 0, name: name.as_bytes().to_vec(), kind: 1, meta: std::vec::Vec::new(), bytes }
}

// A volume on which a file came and went, so often.
fn worn(g: &Geometry, files: &[Plain], turns: u8) -> std::vec::Vec<u8> {
    let mut board = board_of(g, &image_of(g, files));
    let mut memory = Memory::new(g, 1);
    let (lent, marks) = memory.lend();
    let mut volume = Volume::new(*g, &mut board, lent);
    volume.mount().expect("mounts");
    volume.check(marks).expect("checked");
    for turn in 0..turns {
        let fd = volume.open_file(b"gone", 20).expect("opens");
        assert_eq!(volume.write(fd, &[turn; 600]), Ok(600));
        volume.close(fd).expect("closes");
        volume.remove(b"gone").expect("removes");
    }
    volume.unmount().last.expect("written");
    board.image().to_vec()
}

fn source_geometry() -> Geometry {
    Geometry::new(256, 4096, 16, 4096, 0, MagicKind::Length).expect("a geometry")
}

#[test]
fn a_copy_goes_on_where_a_chip_of_a_row_failed() {
    let g = Geometry::new(128, 1024, 6, 1024, 0, MagicKind::Plain).expect("a geometry");
    let failed = fail_each(&source_geometry(), &[file("a", 5, 1)], &g, &formatted(&g));
    assert!(failed[0][0] > 5, "{failed:?}");
}

#[test]
fn each_chip_of_a_row_fails_at_programs_and_erases() {
    let g = Geometry::new(128, 1024, 8, 1024, 0, MagicKind::Plain).expect("a geometry");
    let source = [file("a", 600, 1), file("b", 600, 2), file("c", 600, 3)];
    let target = worn(&g, &[file("b", 300, 4)], 6);
    let failed = fail_each(&source_geometry(), &source, &g, &target);
    assert!(failed.iter().flatten().all(|count| *count > 0), "{failed:?}");
}
