//! Rehearsals on full volumes: a line that cuts a file there may be refused or not, and then nothing is judged.

use crate::bench::{Trial, text_of};
use rattle_host::alloc::Global;
use script_rows::script_bench::{Ends, Fault, empty, put_whole};

// A volume of five blocks with three pages each, as another program leaves it: the header pages of these files in the first block, and their
// data pages in the next ones.
fn filled(files: &[(&str, usize)]) -> Trial {
    let mut trial = Trial::new(256, 1024, 5, 0);
    let g = trial.bench.g;
    let mut image = empty(Global, &g).expect("memory");
    let mut ends = Ends::new(1);
    for ((name, size), id) in files.iter().zip(1..) {
        put_whole(&mut image, &g, &mut ends, id, name.as_bytes(), &vec![0x41; *size]);
    }
    trial.image = image.as_slice().to_vec();
    trial
}

// Three header pages and six data pages: one index page more would leave one block free. Without the bytes of `c` there is room for it.
fn full() -> Trial {
    filled(&[("a", 251), ("b", 251), ("c", 1004)])
}

// Two header pages and six data pages: there is room for one index page more.
fn nearly_full() -> Trial {
    filled(&[("a", 502), ("c", 1004)])
}

const CUT: &str = "#! kept a\nopen c 24\ntruncate 1 0\nclose 1\n";

#[test]
fn a_line_that_cuts_a_file_on_a_full_volume_is_not_judged() {
    assert_eq!(full().rehearse(CUT, " tables"), (14, "! tight line 3\n".to_string()));
    assert_eq!(full().rehearse("open c 18\n", ""), (14, "! tight line 1\n".to_string()));
    // the run is refused there, though two blocks are free
    assert_eq!(text_of(&full().run(CUT, Fault::Nothing).said), "ok 1\n-11003\nok\n");
}

#[test]
fn with_room_for_an_index_page_it_is() {
    // the table before and behind each of the three calls, of which one changes it, and the last one
    assert_eq!(nearly_full().rehearse(CUT, ""), (0, "promises 1 tables 5\n".to_string()));
    assert_eq!(text_of(&nearly_full().run(CUT, Fault::Nothing).said), "ok 1\nok\nok\n");
}

#[test]
fn a_line_at_fault_is_told_before_a_tight_one() {
    let script = format!("{CUT}#! kept\n");
    assert_eq!(full().rehearse(&script, ""), (5, "! bad promise 5\n".to_string()));
}

#[test]
fn a_line_that_is_tight_is_told_before_a_broken_promise() {
    let script = format!("#! kept none\n{CUT}");
    assert_eq!(full().rehearse(&script, ""), (14, "! tight line 4\n".to_string()));
}

#[test]
fn what_is_refused_as_full_is_never_there() {
    let script = "create more\nopen a 17\nfill 1 400 42\nclose 1\n";
    let tables = full().tables(script);
    assert!(tables.values().flatten().all(|list| list == "1 1 251 a\n2 1 251 b\n3 1 1004 c\n"));
    assert_eq!(text_of(&full().run(script, Fault::Nothing).said), "-10001\nok 1\n-10001\nok\n");
}
