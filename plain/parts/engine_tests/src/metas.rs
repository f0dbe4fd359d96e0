//! Which number of meta bytes reads most of a volume.

use crate::bench::{Memory, board_of};
use crate::images::{filed, put};
use liverymenhir::geometry::{Geometry, MagicKind};
use liverymenhir::nor_core::Failed;
use liverymenhir::vol_mount::accept_reader;
use rattle_host::alloc::Global;
use rattle_host::assert;
#[allow(unused_imports)]
use rattle_host::prelude::*;
use rattle_host::test::Fail;
use spiffs::meta_guess::{Counts, Guess, count_files, guess_if_damaged, guess_meta};
use spiffs::nor_memory::{CallKind, MemBoard};

// A volume of four blocks with so many meta bytes.
fn volume_by(meta: u32) -> Result<Geometry, Fail> {
    Ok(Geometry::new(256, 4096, 4, 4096, meta, MagicKind::Length)?)
}

// A device with a file of two data pages that was written with four meta bytes or with none, and an empty file, which is whole by each
// number.
fn board_by(alloc: Global, meta: u32) -> Result<MemBoard, Fail> {
    let g = volume_by(meta)?;
    let mut image = filed(alloc, &g, 2)?;
    if meta == 4 {
        put(&mut image, 301, &[0xFF, 0xFF, 0xFF, 0xFF, 17, 0, 18, 0]);
    }
    put(&mut image, 2, &[2, 0x80]);
    put(&mut image, 512, &[2, 0x80, 0, 0, 0xF8]);
    put(&mut image, 520, &[0, 0, 0, 0, 1, b'e', 0]);
    board_of(alloc, &g, &image)
}

// What is counted and guessed, and guessed only where an id is damaged.
type Told = (Counts, Guess, Option<Guess>);

// What is to be told with a guess.
fn with_guess(guess: Guess) -> Told {
    let found = (guess.given.damaged > 0).then_some(guess);
    (guess.given, guess, found)
}

// What is told by so many meta bytes.
fn guessed(
    alloc: Global,
    meta: u32,
    board: &mut MemBoard,
) -> Result<Result<Told, Failed>, Fail> {
    let g = volume_by(meta)?;
    let mut memory = Memory::new(alloc, &g)?;
    let lent = memory.lend_reader();
    accept_reader(&g, board, &lent)?;
    let work = lent.work;
    let cache = lent.cache;
    let marks = lent.check;
    let Ok(counts) = count_files(&g, board, work, cache, marks) else {
        return Ok(Err(Failed));
    };
    let Ok(guess) = guess_meta(&g, board, work, cache, marks) else {
        return Ok(Err(Failed));
    };
    let Ok(found) = guess_if_damaged(&g, board, work, cache, marks) else {
        return Ok(Err(Failed));
    };
    Ok(Ok((counts, guess, found)))
}

#[test]
fn the_meta_that_reads_most_files_is_found() {
    rattle_host::test::run(the_meta_that_reads_most_files_is_found_with)
}

fn the_meta_that_reads_most_files_is_found_with(rt: HostRuntime) -> Result<(), Fail> {
    let alloc = rt.alloc();
    let best = Counts {
        whole: 2,
        damaged: 0,
    };
    let worse = Counts {
        whole: 1,
        damaged: 1,
    };
    for (made, meta, given) in [
        (4, 4, best),
        (4, 0, worse),
        (4, 3, worse),
        (4, 5, worse),
        (4, 64, worse),
        (0, 4, worse),
    ] {
        let mut board = board_by(alloc, made)?;
        let image = board.image().to_vec_by(alloc)?;
        let guess = Guess {
            given,
            meta: made,
            best,
        };
        let told = guessed(alloc, meta, &mut board)?;
        assert!(rt; told == Ok(with_guess(guess)), "{made} {meta}");
        assert!(rt; board.image() == image.as_slice());
    }
    Ok(())
}

#[test]
fn the_given_meta_stays_where_no_id_is_damaged() {
    rattle_host::test::run(the_given_meta_stays_where_no_id_is_damaged_with)
}

fn the_given_meta_stays_where_no_id_is_damaged_with(rt: HostRuntime) -> Result<(), Fail> {
    let alloc = rt.alloc();
    let g = volume_by(0)?;
    let mut board = board_of(alloc, &g, &filed(alloc, &g, 0)?)?;
    let all = Counts {
        whole: 1,
        damaged: 0,
    };
    for meta in [0, 7, 64] {
        let guess = Guess {
            given: all,
            meta,
            best: all,
        };
        let told = guessed(alloc, meta, &mut board)?;
        assert!(rt; told == Ok(with_guess(guess)), "{meta}");
    }
    Ok(())
}

#[test]
fn a_device_that_fails_is_told() {
    rattle_host::test::run(a_device_that_fails_is_told_with)
}

fn a_device_that_fails_is_told_with(rt: HostRuntime) -> Result<(), Fail> {
    let alloc = rt.alloc();
    for nth in [1, 30, 300] {
        let mut board = board_by(alloc, 4)?;
        board.fail_nth(CallKind::Read, nth);
        assert!(rt; guessed(alloc, 0, &mut board)? == Err(Failed), "{nth}");
    }
    Ok(())
}
