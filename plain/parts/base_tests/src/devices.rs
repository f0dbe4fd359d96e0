use rattle_host::assert;
#[allow(unused_imports)]
use rattle_host::prelude::*;
use rattle_host::vec;

use liverymenhir::nor_core::{Board, Mark, Nor, draw};
use rattle_host::alloc::Global;
use rattle_host::test::Fail;
use spiffs::nor_memory::MemBoard;

// A board of two units of 8 bytes, all of them `fill`.
fn board_of(alloc: Global, fill: u8) -> Result<MemBoard, Fail> {
    let image = vec![in alloc; fill; 16]?;
    Ok(MemBoard::new(alloc, image, 8)?)
}

// Whether a read of the first two bytes fails.
fn read_fails(board: &mut MemBoard) -> bool {
    let mut into = [0u8; 2];
    board.read(0, &mut into).is_err()
}

fn program_fails(board: &mut MemBoard, at: u32, from: &[u8]) -> bool {
    board.program(at, from).is_err()
}

fn erase_fails(board: &mut MemBoard, unit_ix: u32, mark: Option<Mark>) -> bool {
    board.erase(unit_ix, mark).is_err()
}

fn say_fails(board: &mut MemBoard, piece: &[u8]) -> bool {
    board.say(piece).is_err()
}

// The mark's two bytes of a unit, read little endian.
fn word_of(unit: &[u8], mark: Mark) -> Option<u16> {
    let at = mark.at as usize;
    let low = unit.get(at)?;
    let high = unit.get(at + 1)?;
    Some(u16::from(*low) + 256 * u16::from(*high))
}

#[test]
fn the_generator_draws_what_was_worked_out() {
    rattle_host::test::run(the_generator_draws_what_was_worked_out_with)
}

fn the_generator_draws_what_was_worked_out_with(rt: HostRuntime) {
    let mut x = 0;
    assert!(rt; draw(&mut x) == 167951807);
}

#[test]
fn a_cut_erase_leaves_what_the_rules_allow() {
    rattle_host::test::run(a_cut_erase_leaves_what_the_rules_allow_with)
}

fn a_cut_erase_leaves_what_the_rules_allow_with(rt: HostRuntime) -> Result<(), Fail> {
    for (at, word) in [(0, 0xaaec), (6, 0x267c), (3, 0xffff), (2, 0)] {
        assert!(rt; at < 7);
        let mark = Mark { at, word };
        for pick in 0..10 {
            let mut board = board_of(rt.alloc(), 0xa5)?;
            board.cut_after(0, pick);
            let asked = if word == 0 { None } else { Some(mark) };
            assert!(rt; erase_fails(&mut board, 1, asked));
            let image = board.image();
            let (before, unit) = image.split_at(image.len() / 2);
            assert!(rt; before.iter().all(|b| *b == 0xa5), "pick {pick}");
            assert!(rt;
                unit.iter().all(|b| *b == 0xa5) == (pick == 0),
                "pick {pick}"
            );
            assert!(rt;
                pick == 0 || word == 0 || word_of(unit, mark) != Some(word),
                "pick {pick}"
            );
        }
    }
    Ok(())
}

#[test]
fn the_pick_seeds_what_a_cut_leaves() {
    rattle_host::test::run(the_pick_seeds_what_a_cut_leaves_with)
}

fn the_pick_seeds_what_a_cut_leaves_with(rt: HostRuntime) -> Result<(), Fail> {
    let mut board = board_of(rt.alloc(), 0xff)?;
    board.cut_after(0, 2);
    assert!(rt; program_fails(&mut board, 1, &[0, 0, 0]));
    assert!(rt; board.image().starts_with(&[0xff, 0x13, 0x55, 0x77, 0xff]));
    let mut board = board_of(rt.alloc(), 0xa5)?;
    board.cut_after(0, 2);
    assert!(rt;
        erase_fails(
            &mut board,
            0,
            Some(Mark {
                at: 6,
                word: 0x267c
            })
        )
    );
    assert!(rt;
        board
            .image()
            .starts_with(&[0xec, 0xaa, 0x88, 0x58, 0x47, 0x4b, 0x7d, 0x26, 0xa5])
    );
    let mut board = board_of(rt.alloc(), 0xff)?;
    board.cut_after(0, 2);
    assert!(rt; say_fails(&mut board, b"mount"));
    assert!(rt; board.said() == b"moun".as_slice());
    Ok(())
}

#[test]
fn the_power_goes_off_once_some_calls_have_passed_and_stays_off() {
    rattle_host::test::run(the_power_goes_off_once_some_calls_have_passed_and_stays_off_with)
}

fn the_power_goes_off_once_some_calls_have_passed_and_stays_off_with(
    rt: HostRuntime,
) -> Result<(), Fail> {
    let mut board = board_of(rt.alloc(), 0xff)?;
    board.cut_after(2, 1);
    assert!(rt; !program_fails(&mut board, 0, &[0x0f]));
    assert!(rt; !read_fails(&mut board));
    assert!(rt; !say_fails(&mut board, b"ok"));
    assert!(rt; program_fails(&mut board, 1, &[0x0f]));
    board.cut_after(5, 0);
    assert!(rt; program_fails(&mut board, 2, &[0x0f]));
    assert!(rt; erase_fails(&mut board, 0, None));
    assert!(rt; say_fails(&mut board, b"ok"));
    assert!(rt; read_fails(&mut board));
    assert!(rt; board.image().starts_with(&[0x0f, 0x0f, 0xff]));
    assert!(rt; board.said() == b"ok".as_slice());
    Ok(())
}
