//! The ways to replace a file: what is said of each, and that it is so of real cuts.

use crate::bench::{Trial, first_of, listing};

const OLD: &str = "open cfg 22\nwrite 1 old\nclose 1\nopen a 22\nwrite 1 1%20x\nclose 1\nopen b 22\nwrite 1 2%20y\nclose 1\nopen log 22\nwrite 1 one\nclose 1\n";

const PICKS: [u64; 3] = [0, 1, 2];

fn volume() -> Trial {
    Trial::new(256, 4096, 16, 0).after(OLD)
}

// A script whose promise is kept: a reader of these files finds one of these contents at each cut.
fn is_kept(script: &str, tables: usize, names: &[&str], wanted: &[&str]) {
    let trial = volume();
    assert_eq!(trial.rehearse(script, ""), (0, format!("promises 1 tables {tables}\n")));
    for cut in trial.cuts(script, &PICKS) {
        let found = first_of(names, &cut.files).expect("a file");
        assert!(wanted.iter().any(|bytes| bytes.as_bytes() == found), "line {} of {script:?} leaves {found:?}", cut.line);
    }
}

// A script whose promise is broken: a real cut in that line leaves the table that is told, by which a reader of these files finds that.
fn is_broken(script: &str, line: usize, step: usize, names: &[&str], found: Option<&str>) {
    let trial = volume();
    let (status, said) = trial.rehearse(script, "");
    let cuts = trial.cuts(script, &PICKS);
    let breaks = |cut: &&crate::bench::Cut| cut.line == line && first_of(names, &cut.files).as_deref() == found.map(str::as_bytes);
    let cut = cuts.iter().find(breaks).expect("a cut that breaks it");
    assert_eq!((status, said), (24, format!("{}! promise line 1: line {line} step {step}\n", listing(&cut.files))));
    // and no cut before that line does
    let kept = [first_of(names, &trial.files(&trial.image)), first_of(names, &cuts.last().expect("a cut").files)];
    assert!(cuts.iter().filter(|cut| cut.line < line).all(|cut| kept.contains(&first_of(names, &cut.files))));
}

const BESIDE: &str = "open cfg.new 22\nwrite 1 new\nclose 1\nremove cfg\nrename cfg.new cfg\n#! end\n";

#[test]
fn a_file_that_is_emptied_and_written_is_empty_for_a_while() {
    is_broken("#! first cfg\nopen cfg 22\nwrite 1 new\nclose 1\n#! end\n", 2, 1, &["cfg"], Some(""));
}

#[test]
fn a_file_that_is_written_beside_is_whole_for_a_reader_who_knows_both_names() {
    is_kept(&format!("#! first cfg cfg.new\n{BESIDE}"), 11, &["cfg", "cfg.new"], &["old", "new"]);
}

#[test]
fn a_reader_who_looks_for_the_new_file_first_finds_it_empty() {
    is_broken(&format!("#! first cfg.new cfg\n{BESIDE}"), 2, 1, &["cfg.new", "cfg"], Some(""));
}

#[test]
fn a_reader_who_knows_one_name_finds_none() {
    is_broken(&format!("#! first cfg\n{BESIDE}"), 5, 1, &["cfg"], None);
}

#[test]
fn the_other_of_two_slots_stays() {
    is_kept("#! kept b\nopen a 22\nwrite 1 3%20z\nclose 1\n", 7, &["b"], &["2 y"]);
}

#[test]
fn the_slot_that_is_written_does_not() {
    is_broken("#! kept a\nopen a 22\nwrite 1 3%20z\nclose 1\n", 2, 1, &["a"], Some(""));
}

#[test]
fn a_record_in_one_page_is_added_or_not() {
    is_kept("#! first log\nopen log 17\nwrite 1 two\nclose 1\n#! end\n", 6, &["log"], &["one", "onetwo"]);
}

#[test]
fn a_record_over_a_page_may_be_cut_off_at_its_end() {
    let front = format!("one{}", ".".repeat(248));
    is_broken("#! first log\nopen log 17\nfill 1 600 2e\nclose 1\n#! end\n", 3, 1, &["log"], Some(&front));
}
