//! Each table that a real cut leaves is among those that are told.

use crate::bench::{Trial, listing};

// Files of some pages: `a` of 600 bytes, `b` of 40, `log` of 251, and `gone`, which is removed.
const FILES: &str = "open a 22\nfill 1 600 61\nclose 1\nopen b 22\nfill 1 40 62\nclose 1\nopen gone 22\nfill 1 300 67\nclose 1\n\
                     open log 22\nfill 1 251 6c\nclose 1\nremove gone\n";

const SCRIPTS: [&str; 14] = [
    // opened and emptied, and written over several pages
    "open a 22\nfill 1 600 41\nclose 1\n",
    // made, emptied though it is empty, and written so that each write goes to the chip
    "open new 54\nwrite 1 xyz\nfill 1 500 42\nclose 1\nopen new 22\nclose 1\n",
    // added to over the end of a page, twice
    "open log 17\nfill 1 300 43\nfill 1 300 44\nclose 1\n",
    // written over in the middle, and over the end
    "open a 24\nseek 1 100 set\nfill 1 300 45\nseek 1 -10 end\nfill 1 40 46\nread 1 1\nclose 1\n",
    // renamed onto a file that is there, which is refused, and then onto one that was removed
    "rename a b\nremove b\nrename a b\nstat b\n",
    // bytes that wait behind others, an offset that is asked, and a call that puts them onto the chip
    "open b 17\nwrite 1 x\nwrite 1 y\ntell 1\n\n# no call\nwrite 1 z\ncreate q\ntell 1\n",
    // bytes that wait until the script ends
    "open log 17\nwrite 1 end\n",
    // bytes that wait as their file is removed
    "open b 17\nwrite 1 x\nremove b\nopen b 20\nwrite 1 y\nfremove 1\n",
    // cut, to a page's end, inside a page, to nothing, and beyond the end
    "open a 16\ntruncate 1 502\ntruncate 1 100\ntruncate 1 101\ntruncate 1 0\nclose 1\n",
    // two descriptors on one file
    "open a 24\nopen a 17\nwrite 1 xx\nwrite 2 yyy\nflush 1\nwrite 1 z\nclose 2\nclose 1\n",
    // meta bytes, and a record
    "meta a %01%02%03%04\nopen b 16\nwrite 1 b\nfmeta 1 abcd\nfstat 1\n",
    // refused calls
    "open none 8\nread 1 10\ncreate a\nremove none\nopen a 2\nwrite 3 x\nclose 9\n",
    // a name of 31 bytes, and one that lists print otherwise
    "create 1234567890123456789012345678901\ncreate %25%20%0a\nrename %25%20%0a c\n",
    // so much that blocks are cleaned
    "open a 22\nfill 1 600 41\nclose 1\nopen a 22\nfill 1 600 42\nclose 1\nopen a 22\nfill 1 600 43\nclose 1\ngc\ninfo\nremove a\ngc\n",
];

// Whether each cut of each script leaves a table that is told, and how many cuts there were.
fn try_cuts(trial: &Trial, picks: &[u64]) -> usize {
    let mut count = 0;
    for script in SCRIPTS {
        let tables = trial.tables(script);
        for cut in trial.cuts(script, picks) {
            let left = listing(&cut.files);
            let told = &tables[&cut.line];
            assert!(told.contains(&left), "line {} of {script:?} leaves\n{left}of {told:?}", cut.line);
            count += 1;
        }
    }
    count
}

#[test]
fn a_cut_leaves_one_id_doubled_at_most() {
    let trial = Trial::new(256, 4096, 5, 0).after(FILES);
    let mut counts = [0; 2];
    for cut in SCRIPTS.iter().flat_map(|script| trial.cuts(script, &[1, 2])) {
        counts[cut.doubled as usize] += 1;
    }
    assert!(counts[0] > 1000 && counts[1] > 40, "{counts:?}");
}

#[test]
fn each_table_that_a_cut_leaves_is_told() {
    assert!(try_cuts(&Trial::new(256, 4096, 5, 0).after(FILES), &[1, 2]) > 1000);
}

#[test]
fn so_it_is_where_blocks_are_cleaned_on_the_way() {
    assert!(try_cuts(&Trial::new(256, 2048, 6, 4).after(FILES), &[3]) > 500);
}

#[test]
fn so_it_is_where_a_block_lacks_its_magic_at_first() {
    let mut trial = Trial::new(128, 2048, 8, 8).after(FILES);
    // the last block, which is free, as a cut inside its erase leaves it
    let end = trial.image.len();
    trial.image[end - 2048..].fill(0xA5);
    assert!(try_cuts(&trial, &[4]) > 500);
}

#[test]
fn a_line_is_left_as_it_is_before_its_call_or_behind_it() {
    // the tables of a line that writes nothing by itself: what the chip had, and what waits
    let trial = Trial::new(256, 4096, 16, 0).after(FILES);
    let tables = trial.tables("open b 17\nwrite 1 x\ntell 1\nflush 1\n");
    let sizes = |line: usize| -> Vec<bool> { tables[&line].iter().map(|list| list.contains(" 41 b\n")).collect() };
    assert_eq!(sizes(1), [false]);
    assert_eq!(sizes(2), [false, true]);
    assert_eq!(sizes(3), [false, true]);
    assert_eq!(sizes(4), [false, true]);
    assert_eq!(sizes(5), [true]);
}
