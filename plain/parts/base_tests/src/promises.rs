//! The promises of a script: which tables a power cut may leave, and whether they are kept.

use liverymenhir::geometry::{Geometry, MagicKind};
use rattle_host::alloc::{AllocError, Global};
use rattle_host::assert;
#[allow(unused_imports)]
use rattle_host::prelude::*;
use rattle_host::process::Abort;
use rattle_host::test::Fail;
use spiffs::plain_table::PlainFile;
use spiffs::plain_promise::{Fault, Verdict, list_tables, rehearse};

// What a rehearsal is to tell: all is kept by so many tables, or the promise of a line is broken at a line by a step.
#[derive(Clone, Copy, Debug, PartialEq, Eq)]
enum Told {
    Kept(u32, u64),
    Broken(u32, u32, u64),
    BadLine(u32),
    BadPromise(u32),
    Tight(u32),
}

// What a verdict tells.
fn tells(verdict: &Verdict) -> Told {
    match verdict {
        Verdict::Kept { promises, tables } => Told::Kept(*promises, *tables),
        Verdict::Broken(b) => Told::Broken(b.promise, b.line, b.step),
        Verdict::Faulty(Fault::BadLine(line)) => Told::BadLine(*line),
        Verdict::Faulty(Fault::BadPromise(line)) => Told::BadPromise(*line),
        Verdict::Tight(line) => Told::Tight(*line),
    }
}

// A file of that id, name and bytes.
fn file(alloc: Global, id: u16, name: &[u8], bytes: &[u8]) -> Result<PlainFile, AllocError> {
    Ok(PlainFile {
        id,
        name: Vec::from_slice(alloc, name)?,
        kind: 1,
        meta: Vec::new(alloc),
        bytes: Vec::from_slice(alloc, bytes)?,
    })
}

// A volume of files `cfg`, `a`, `b` and `log`.
fn files(alloc: Global) -> Result<Vec<PlainFile>, AllocError> {
    let mut files = Vec::new(alloc);
    files.push(file(alloc, 1, b"cfg", b"old")?)?;
    files.push(file(alloc, 2, b"a", b"1 x")?)?;
    files.push(file(alloc, 3, b"b", b"2 y")?)?;
    files.push(file(alloc, 4, b"log", b"one")?)?;
    Ok(files)
}

// Scripts and what a rehearsal of each tells.
const SCRIPTS: [(&str, Told); 36] = [
    // empty and write: a cut behind the opening leaves an empty file
    (
        "#! first cfg\nopen cfg 22\nwrite 1 new\nclose 1\n#! end\n",
        Told::Broken(1, 2, 1),
    ),
    // write beside, remove, rename: the first that is there is whole
    (
        "#! first cfg cfg.new\nopen cfg.new 22\nwrite 1 new\nclose 1\nremove cfg\nrename cfg.new cfg\n#! end\n",
        Told::Kept(1, 11),
    ),
    // the same read in the other order: the new file is there before it is whole
    (
        "#! first cfg.new cfg\nopen cfg.new 22\nwrite 1 new\nclose 1\nremove cfg\nrename cfg.new cfg\n#! end\n",
        Told::Broken(1, 2, 1),
    ),
    // without the second name the file is missing between remove and rename
    (
        "#! first cfg\nopen cfg.new 22\nwrite 1 new\nclose 1\nremove cfg\nrename cfg.new cfg\n#! end\n",
        Told::Broken(1, 5, 1),
    ),
    // one of both is always there
    (
        "#! some cfg cfg.new\nopen cfg.new 22\nwrite 1 new\nclose 1\nremove cfg\nrename cfg.new cfg\n",
        Told::Kept(1, 11),
    ),
    (
        "#! some cfg\nopen cfg.new 22\nwrite 1 new\nclose 1\nremove cfg\nrename cfg.new cfg\n",
        Told::Broken(1, 5, 1),
    ),
    // two slots with a counter: the newest stays while the other is written
    (
        "#! kept b\nopen a 22\nwrite 1 3%20z\nclose 1\n",
        Told::Kept(1, 7),
    ),
    (
        "#! kept a\nopen a 22\nwrite 1 3%20z\nclose 1\n",
        Told::Broken(1, 2, 1),
    ),
    // append only: a record in one page is there whole or not at all
    (
        "#! first log\nopen log 17\nwrite 1 two\nclose 1\n#! end\n",
        Told::Kept(1, 6),
    ),
    // a longer one may be cut at the end of a page
    (
        "#! first log\nopen log 17\nfill 1 600 2e\nclose 1\n#! end\n",
        Told::Broken(1, 3, 1),
    ),
    // what waits isn't kept yet
    (
        "open cfg 22\nwrite 1 new\n#! kept cfg\ntell 1\n",
        Told::Broken(3, 4, 0),
    ),
    (
        "open cfg 22\nwrite 1 new\n#! kept cfg\n",
        Told::Broken(3, 4, 0),
    ),
    (
        "open cfg 22\nwrite 1 new\nflush 1\n#! kept cfg\n",
        Told::Kept(1, 7),
    ),
    // the table before the first call counts
    ("#! some x\ncreate x\n", Told::Broken(1, 2, 0)),
    ("create x\n#! some x\n", Told::Kept(1, 3)),
    // a promise `first` is in force up to the call before its end, and no longer
    (
        "#! first cfg\ncreate x\nopen cfg 22\n#! end\nwrite 1 new\n",
        Told::Kept(1, 8),
    ),
    (
        "#! first cfg\nopen cfg 22\nwrite 1 new\n#! end\n",
        Told::Broken(1, 2, 1),
    ),
    // `kept` and `some` go on behind an end
    (
        "#! kept cfg\n#! first a\n#! end\nremove cfg\n",
        Told::Broken(1, 4, 1),
    ),
    // a missing file isn't kept
    ("#! kept x\n", Told::Broken(1, 2, 0)),
    // lines that are none of the forms, and lines outside the grammar
    ("create x\n#! end\n", Told::BadPromise(2)),
    ("#! first\n", Told::BadPromise(1)),
    ("#! kept a b\n", Told::BadPromise(1)),
    ("#!first a\nnonsense\n", Told::BadPromise(1)),
    ("# a comment\nnonsense\n#! never\n", Told::BadLine(2)),
    // words that are parted by more than a space, a carriage return, and no word at all
    ("#!\n", Told::BadPromise(1)),
    ("#!  first a\n", Told::BadPromise(1)),
    ("#! some a  b\n", Told::BadPromise(1)),
    ("#! kept a \n", Told::BadPromise(1)),
    ("#! kept a\r\n", Told::BadPromise(1)),
    ("#! end a\n", Told::BadPromise(1)),
    // one end is that of both promises
    (
        "#! first cfg\n#! first a\n#! end\n#! end\n",
        Told::BadPromise(4),
    ),
    // a comment, and a line that is none
    ("# ! kept x\n", Told::Kept(0, 1)),
    (" #! kept x\n", Told::BadLine(1)),
    // a name is written as in a call, and the last line needs no end
    ("#! kept %63f%67", Told::Kept(1, 1)),
    // no file is a value of `first` too
    ("#! first cfg\nremove cfg\n", Told::Kept(1, 3)),
    ("", Told::Kept(0, 1)),
];

#[test]
fn each_way_to_replace_a_file_has_its_verdict() {
    rattle_host::test::run(each_way_to_replace_a_file_has_its_verdict_with)
}

fn each_way_to_replace_a_file_has_its_verdict_with(rt: HostRuntime) -> Result<(), Fail> {
    let g = Geometry::new(256, 4096, 16, 4096, 0, MagicKind::Length)?;
    let files = files(rt.alloc())?;
    for (script, wanted) in SCRIPTS.iter() {
        // (`rehearse` takes fewer than 2 ^ 31 bytes)
        assert!(rt; script.len() < 4096);
        let verdict = rehearse(rt.alloc(), g, files.as_slice(), 2, script.as_bytes())?;
        assert!(rt;
            tells(&verdict) == *wanted,
            "{}{:?}",
            script,
            tells(&verdict)
        );
    }
    Ok(())
}

// What is listed of a script that makes one file: the table before it and the one with it in its line, and the latter behind it.
const LISTED: &str = "\
line 1 step 0
1 1 3 cfg
2 1 3 a
3 1 3 b
4 1 3 log
line 1 step 1
1 1 3 cfg
2 1 3 a
3 1 3 b
4 1 3 log
5 1 0 x
line 2 step 0
1 1 3 cfg
2 1 3 a
3 1 3 b
4 1 3 log
5 1 0 x
";

#[test]
fn each_table_of_a_script_is_listed() {
    rattle_host::test::run(each_table_of_a_script_is_listed_with)
}

fn each_table_of_a_script_is_listed_with(rt: HostRuntime) -> Result<(), Fail> {
    let g = Geometry::new(256, 4096, 16, 4096, 0, MagicKind::Length)?;
    let files = files(rt.alloc())?;
    let text = list_tables(rt.alloc(), g, files.as_slice(), 2, "create x\n".as_bytes())?;
    assert!(rt; text.as_slice() == LISTED.as_bytes());
    Ok(())
}
