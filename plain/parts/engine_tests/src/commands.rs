//! Commands on a row of chips in memory, and over folders that no case of `script_rows` has.

use liverymenhir::fd_table::FdSlot;
use liverymenhir::nor_core::Board;
use rattle_host::alloc::{AllocError, Global};
use rattle_host::assert;
#[allow(unused_imports)]
use rattle_host::prelude::*;
use rattle_host::test::Fail;
use rattle_host::vec;
use spiffs::chip_row::{ChipRow, RowErr};
use spiffs::folder_core::MemFolder;
use spiffs::host_edge::StdBoard;
use spiffs::nor_memory::{MemBoard, MemChip, MemSource};
use spiffs::tool_core::spiffs_tool;
use spiffs::tool_parts::Buffers;

// The words of a text that are parted by single spaces.
fn words_of(alloc: Global, text: &str) -> Result<Vec<String>, AllocError> {
    let mut words = Vec::new(alloc);
    for word in text.split(' ') {
        words.push(String::from_str(alloc, word)?)?;
    }
    Ok(words)
}

// Does the command of these words on a volume of 16 blocks, and answers its status.
fn give<B: Board>(
    alloc: Global,
    words: &str,
    board: &mut B,
    script: &str,
    folder: &mut MemFolder,
) -> Result<u8, Fail> {
    let words = words_of(alloc, words)?;
    let mut source = MemSource::new(script.as_bytes().to_vec_by(alloc)?);
    let mut work = vec![in alloc; 0u8; 1375]?;
    let mut slots = vec![in alloc; FdSlot::empty(); 3]?;
    let mut cache = vec![in alloc; 0u8; 16896]?;
    let mut check = vec![in alloc; 0u8; 8448]?;
    let mut window = vec![in alloc; 0u8; 256]?;
    let mut line = vec![in alloc; 0u8; 12288]?;
    let mut bufs = Buffers {
        work: &mut work,
        slots: &mut slots,
        cache: &mut cache,
        check: &mut check,
        window: &mut window,
        line: &mut line,
    };
    Ok(spiffs_tool(&words, board, &mut source, folder, &mut bufs))
}

// A device of 16 blocks that are erased.
fn erased_board(alloc: Global) -> Result<MemBoard, Fail> {
    Ok(MemBoard::new(alloc, vec![in alloc; 0xFFu8; 65536]?, 4096)?)
}

// A chip of at most four blocks that are erased.
fn erased_chip(alloc: Global, size: usize) -> Result<MemChip, Fail> {
    if size > 16384 || size % 4096 != 0 {
        return Err("a chip of another size".into());
    }
    Ok(MemChip::new(alloc, vec![in alloc; 0xFFu8; size]?, 4096)?)
}

// A row of four such chips.
fn erased_row(alloc: Global) -> Result<ChipRow<MemChip>, Fail> {
    let mut chips = Vec::new(alloc);
    for _ in 0..4 {
        chips.push(erased_chip(alloc, 16384)?)?;
    }
    Ok(ChipRow::new(chips, 16384, 4096).ok().ok_or("row")?)
}

// Whether the chips of a row hold these bytes, end to end.
fn hold(row: &ChipRow<MemChip>, image: &[u8]) -> bool {
    for (i, chip) in row.chips().iter().enumerate() {
        let at = i.saturating_mul(16384);
        if image.get(at..at.saturating_add(16384)) != Some(chip.image()) {
            return false;
        }
    }
    true
}

// A script whose files take the blocks of all chips but two, so that blocks are cleaned for its last calls.
fn long_script(alloc: Global) -> Result<String, Fail> {
    let mut script = String::new(alloc);
    for n in 0..62u8 {
        write!(script, "create f{n}\n")?;
    }
    script.push_str("open d 28\n")?;
    for _ in 0..8 {
        script.push_str("fill 1 4096 41\n")?;
    }
    script.push_str("seek 1 30000 set\nread 1 40\nremove f3\ngc\ncreate f3\nnext 4\ninfo\n")?;
    Ok(script)
}

#[test]
fn a_row_of_four_chips_answers_as_one_device_and_takes_no_chip_that_does_not_fit() {
    rattle_host::test::run(
        a_row_of_four_chips_answers_as_one_device_and_takes_no_chip_that_does_not_fit_with,
    )
}

fn a_row_of_four_chips_answers_as_one_device_and_takes_no_chip_that_does_not_fit_with(
    rt: HostRuntime,
) -> Result<(), Fail> {
    let alloc = rt.alloc();
    let mut folder = MemFolder::new(alloc);
    folder.add(b"a", b"hello")?;
    folder.add(b"e", b"")?;
    let script = long_script(alloc)?;
    let mut one = erased_board(alloc)?;
    let mut board = StdBoard::new(erased_row(alloc)?, Vec::new(alloc));
    for words in [
        "make 256 4096 16 0 len chip files",
        "list 256 4096 16 0 len chip",
        "run 256 4096 16 0 len chip",
        "check 256 4096 16 0 len chip",
    ] {
        assert!(rt;
            give(alloc, words, &mut one, &script, &mut folder)? == 0,
            "{words}"
        );
        assert!(rt;
            give(alloc, words, &mut board, &script, &mut folder)? == 0,
            "{words}"
        );
    }
    let (mut row, said) = board.give_back();
    assert!(rt; said.starts_with(b"files 2 index 2 data 1\n1 1 5 a\n2 1 0 e\nok\n"));
    assert!(rt; said.as_slice() == one.said());
    assert!(rt; hold(&row, one.image()));
    for (i, size, why) in [(4, 16384, RowErr::NoSuchChip), (1, 8192, RowErr::WrongSize)] {
        let Err(refusal) = row.replace(i, erased_chip(alloc, size)?) else {
            return Err("no refusal".into());
        };
        assert!(rt; refusal.why == why);
        assert!(rt; refusal.chip.image().len() == size);
        assert!(rt; hold(&row, one.image()));
    }
    let none = ChipRow::<MemChip>::new(Vec::new(alloc), 16384, 4096);
    assert!(rt; matches!(none, Err(RowErr::NoSuchChip)));
    Ok(())
}

#[test]
fn a_make_over_a_name_twice_writes_nothing() {
    rattle_host::test::run(a_make_over_a_name_twice_writes_nothing_with)
}

fn a_make_over_a_name_twice_writes_nothing_with(rt: HostRuntime) -> Result<(), Fail> {
    let alloc = rt.alloc();
    let mut folder = MemFolder::new(alloc);
    folder.add(b"a", b"hello")?;
    folder.add(b"a", b"again")?;
    let mut board = erased_board(alloc)?;
    let words = "make 256 4096 16 0 len chip files";
    assert!(rt; give(alloc, words, &mut board, "", &mut folder)? == 13);
    assert!(rt; board.said() == b"! bad name 1\n".as_slice());
    assert!(rt; board.image().iter().all(|byte| *byte == 0xFF));
    Ok(())
}
