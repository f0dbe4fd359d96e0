//! Recorded runs in which one thing is out of order, or left out, as a wrong engine would do it.

use crate::traces::{
    Noted, Told, Trial, bad_cut, formatted, image_after, legal, program, say, small,
};
use spiffs::flash_trace::Verdict;

// A run over what another one left, both with every line done.
fn run_over(first: &[u8], script: &str) -> (Trial, Told) {
    let trial = Trial::new(small(), first, script);
    let told = trial.run();
    assert_eq!(told.status, 0);
    (trial, told)
}

fn image_of(script: &str) -> Vec<u8> {
    run_over(&formatted(&small()), script).1.image
}

// A file `a` of three data pages, whose header page is page 2 of the volume.
const FILE: &str = "create a\nopen a 20\nfill 1 600 41\nclose 1\n";

// The events of these numbers, in this order.
fn picked(events: &[Noted], numbers: &[usize]) -> Vec<Noted> {
    numbers
        .iter()
        .map(|number| events[*number].clone())
        .collect()
}

#[test]
fn a_reply_is_told_only_once_its_call_is_on_the_chip() {
    let (trial, told) = run_over(&formatted(&small()), "create a\n");
    // a lookup entry, a page header, the page, the bit that makes it final, and the reply
    assert_eq!(told.events.len(), 5);
    assert_eq!(trial.judge(&told.events), legal(5, 1));
    for before in 0..4 {
        let mut events = told.events.clone();
        let reply = events.pop().expect("the reply");
        events.insert(before, reply);
        assert_eq!(
            trial.judge(&events),
            bad_cut(before + 1),
            "before event {before}"
        );
    }
    // a part of the reply says no more than that it will come
    let early = [&[say("o")], &told.events[..4], &[say("k\n")]].concat();
    assert_eq!(trial.judge(&early), legal(6, 1));
    let twice = [&told.events[..], &[say("ok\n")]].concat();
    assert_eq!(trial.judge(&twice), bad_cut(6));
}

#[test]
fn a_header_page_is_final_only_once_it_is_whole() {
    let (trial, told) = run_over(&formatted(&small()), "create a\n");
    let mut events = told.events.clone();
    // the page header of page 1 with its bit for a final page cleared, while the name isn't there
    events[1] = program(256, &[0x01, 0x80, 0, 0, 0xF8], &[0x01, 0x80, 0, 0, 0xF8]);
    assert_eq!(trial.judge(&events), bad_cut(2));
}

#[test]
fn the_old_header_page_is_there_until_the_new_one_is() {
    let (trial, told) = run_over(&image_of(FILE), "rename a b\n");
    // the four programs of the new page, the flags and the entry of the old one, and the reply
    assert_eq!(told.events.len(), 7);
    assert_eq!(trial.judge(&told.events), legal(7, 1));
    assert_eq!(
        trial.judge(&picked(&told.events, &[4, 5, 0, 1, 2, 3, 6])),
        bad_cut(1)
    );
    // an entry that isn't zero, of a page that is deleted, is nothing that is judged
    assert_eq!(
        trial.judge(&picked(&told.events, &[0, 1, 2, 3, 4, 6])),
        legal(6, 1)
    );
    // without the kill of the old page there are two header pages of one file, and the first one counts
    assert_eq!(
        trial.judge(&picked(&told.events, &[0, 1, 2, 3, 6])),
        bad_cut(5)
    );
}

#[test]
fn a_header_page_goes_before_its_data_pages() {
    let (trial, told) = run_over(&image_of(FILE), "remove a\n");
    // three programs of the header page, two of each data page, and the reply
    assert_eq!(told.events.len(), 10);
    assert_eq!(trial.judge(&told.events), legal(10, 1));
    assert_eq!(
        trial.judge(&picked(&told.events, &[3, 4, 5, 6, 7, 8, 0, 1, 2, 9])),
        bad_cut(1)
    );
    // what is left of a file that is removed is nothing that is judged
    assert_eq!(trial.judge(&picked(&told.events, &[0, 1, 9])), legal(3, 1));
    assert_eq!(trial.judge(&picked(&told.events, &[9])), bad_cut(1));
}

#[test]
fn bytes_wait_until_the_next_call() {
    let (trial, told) = run_over(&image_of(FILE), "open a 17\nwrite 1 xyz\ninfo\n");
    // two replies, the seven programs of the flush, and the third reply
    assert_eq!(told.events.len(), 10);
    assert_eq!(told.events[1], say("ok 3\n"));
    assert_eq!(trial.judge(&told.events), legal(10, 3));
    assert_eq!(trial.judge(&told.events[..2]), legal(2, 2));
    assert_eq!(trial.judge(&picked(&told.events, &[0, 1, 9])), bad_cut(3));
    assert_eq!(
        trial.judge(&picked(&told.events, &[0, 2, 3, 4, 5, 6, 7, 8, 1, 9])),
        legal(10, 3)
    );
}

#[test]
fn a_block_is_erased_only_once_its_pages_are_elsewhere() {
    // nine deleted header pages beside that of b, and in the next block five deleted data pages beside four of b
    let two = "create a\nopen a 20\nfill 1 1100 41\nclose 1\ncreate b\nopen b 20\nfill 1 900 42\nclose 1\nremove a\n";
    let gone = "create c\nremove c\n".repeat(6);
    let (trial, told) = run_over(&image_of(&(gone + two)), "gc\n");
    // the header page of b moves out of block 0 by four programs, and two kill the old one
    assert_eq!(told.events[6], Noted::Erase(0));
    assert_eq!(trial.judge(&told.events), legal(told.events.len(), 1));
    for before in 0..6 {
        let mut events = told.events.clone();
        let erase = events.remove(6);
        events.insert(before, erase);
        let verdict = match before {
            // the flags of the old page, recorded over what stood there, are programmed over an erased page
            4 => Verdict::WrongBits { at: 5 },
            // the entry of the old page is zero, in a block without pages
            5 => legal(events.len(), 1),
            _ => bad_cut(before + 1),
        };
        assert_eq!(trial.judge(&events), verdict, "before event {before}");
    }
}

#[test]
fn of_two_header_pages_the_first_one_counts() {
    // power was cut before the old header page was killed: the new one lies behind it, and names three data pages
    let g = small();
    let first = formatted(&g);
    let (_, told) = run_over(&first, FILE);
    // (four programs and two replies, four programs for each data page, and four for the new header page)
    let (trial, told) = run_over(&image_after(&g, &first, &told.events[..22]), "info\n");
    assert_eq!(told.said, b"ok files 1 index 1 data 0 usable 210\n");
    assert_eq!(trial.judge(&told.events), legal(told.events.len(), 1));
    let mut events = told.events.clone();
    assert_eq!(events[0], program(516, &[0x7F], &[0x78]));
    events[0] = program(260, &[0x7F], &[0x78]);
    assert_eq!(trial.judge(&events), bad_cut(1));
}
