//! The least number of blocks for a folder, held against the refusals of each number.

use liverymenhir::geometry::{GeoErr, Geometry, MagicKind};
use rattle_host::alloc::Global;
use spiffs::folder_core::MemFolder;
use spiffs::folder_size::{Need, Shape, least_blocks};
use spiffs::folder_plan::{Refusal, refusal_of};

const SHAPE: Shape = Shape {
    page: 256,
    block: 4096,
    phys: 4096,
    meta: 4,
};

fn folder_of(sizes: &[usize]) -> MemFolder {
    let mut folder = MemFolder::new(Global);
    for (i, size) in sizes.iter().enumerate() {
        folder.add(format!("f{i}").as_bytes(), &vec![0; *size]).expect("memory");
    }
    folder
}

// The least number of blocks of a volume that can be written and isn't refused, by asking for each; else the last refusal.
fn by_trying(shape: Shape, folder: &mut MemFolder) -> Need {
    let mut last = Need::NoVolume(GeoErr::WrongChip);
    for blocks in 4..=32_767 {
        let g = Geometry::new(shape.page, shape.block, blocks, shape.phys, shape.meta, MagicKind::Length);
        let g = match g.and_then(|g| g.writable().map(|()| g)) {
            Ok(g) => g,
            Err(why) if blocks == 4 => return Need::NoVolume(why),
            Err(_) => return last,
        };
        last = match refusal_of(&g, folder).expect("told") {
            None => return Need::Blocks(blocks),
            Some(Refusal::BadNames { at }) => Need::BadName { at },
            Some(Refusal::Full { index, data_pages }) => Need::TooMany { index, data_pages },
        };
    }
    last
}

fn is_as_tried(shape: Shape, folder: &mut MemFolder) -> Need {
    let need = least_blocks(shape, folder).expect("told");
    assert_eq!(need, by_trying(shape, folder), "{shape:?}");
    need
}

#[test]
fn the_least_number_is_that_of_trying_each() {
    for page in [128, 256, 512, 4096] {
        for pages in [8, 16, 64] {
            for meta in [0, 4, 64] {
                let shape = Shape {
                    page,
                    block: page * pages,
                    phys: page * pages,
                    meta,
                };
                for count in [0, 1, 2, 14, 15, 60] {
                    let sizes: Vec<usize> = (0..count).map(|i| i * 977 % 6_000).collect();
                    is_as_tried(shape, &mut folder_of(&sizes));
                }
            }
        }
    }
}

// PAGE 256, META 4: 251 bytes a data page; a block of 4,096 bytes has 15 entry pages.
#[test]
fn rows_found_by_thought() {
    let need = |sizes: &[usize]| is_as_tried(SHAPE, &mut folder_of(sizes));
    // nothing: a block of each kind, and two free ones
    assert_eq!(need(&[]), Need::Blocks(4));
    // 14 data pages and a spare one fill a block
    assert_eq!(need(&[14 * 251]), Need::Blocks(4));
    assert_eq!(need(&[14 * 251 + 1]), Need::Blocks(5));
    // so do 14 header pages and a spare index page
    assert_eq!(need(&[0; 14]), Need::Blocks(4));
    assert_eq!(need(&[0; 15]), Need::Blocks(5));
    // 103 data pages are named by the header page, and a further one needs a further index page
    assert_eq!(need(&[103 * 251]), Need::Blocks(10));
    assert_eq!(need(&[104 * 251]), Need::Blocks(10));
}

#[test]
fn what_no_number_of_blocks_mends() {
    // 32,766 usable pages are the most: 33,000 data pages, of which 103 are named by the header page and 124 by each further one
    let mut big = folder_of(&[33_000 * 251]);
    assert_eq!(
        is_as_tried(SHAPE, &mut big),
        Need::TooMany {
            index: 267,
            data_pages: 33_000
        }
    );
    let mut named = folder_of(&[10, 20]);
    named.add(b"f1", b"twice").expect("memory");
    assert_eq!(is_as_tried(SHAPE, &mut named), Need::BadName { at: 2 });
    named = MemFolder::new(Global);
    named.add(&[b'x'; 32], b"").expect("memory");
    assert_eq!(is_as_tried(SHAPE, &mut named), Need::BadName { at: 0 });
}

#[test]
fn numbers_that_make_no_volume() {
    let no = |shape: Shape| is_as_tried(shape, &mut folder_of(&[1]));
    assert_eq!(no(Shape { page: 100, ..SHAPE }), Need::NoVolume(GeoErr::BadPage));
    assert_eq!(no(Shape { block: 4000, ..SHAPE }), Need::NoVolume(GeoErr::BadBlock));
    assert_eq!(no(Shape { meta: 65, ..SHAPE }), Need::NoVolume(GeoErr::BadMeta));
    // 16,384 pages a block: three blocks make a volume, four have too many pages
    let wide = Shape {
        page: 4096,
        block: 4096 * 16_384,
        phys: 4096 * 16_384,
        meta: 0,
    };
    assert_eq!(no(wide), Need::NoVolume(GeoErr::TooManyPages));
    // 8,320 pages a block, 130 of them for lookups: four blocks have 32,760 usable pages, and one page more a block is too many
    let usable = |pages: u32| Shape {
        page: 128,
        block: 128 * pages,
        phys: 128 * pages,
        meta: 0,
    };
    assert_eq!(no(usable(8_320)), Need::Blocks(4));
    assert_eq!(no(usable(8_384)), Need::NoVolume(GeoErr::TooManyUsable));
}
