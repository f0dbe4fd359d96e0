//! Lines of a script, and those that tell replies.

use liverymenhir::table_model::{FsErr, Info, Reply};
use rattle_host::assert;
use rattle_host::format;
#[allow(unused_imports)]
use rattle_host::prelude::*;
use rattle_host::test::Fail;
use spiffs::call_script::{parse_line, reply_text};

#[test]
fn each_form_of_a_line_spells_its_call() {
    rattle_host::test::run(each_form_of_a_line_spells_its_call_with)
}

fn each_form_of_a_line_spells_its_call_with(rt: HostRuntime) -> Result<(), Fail> {
    let mut scratch = [0; 4096];
    for (line, told) in [
        (
            b"create a%20%b".as_slice(),
            "Ok(Some(Create { name: [97, 32, 37, 98] }))",
        ),
        (
            b"open %00z 127".as_slice(),
            "Ok(Some(OpenFile { name: [0, 122], flags: 127 }))",
        ),
        (
            b"open a 4294967295".as_slice(),
            "Ok(Some(OpenFile { name: [97], flags: 4294967295 }))",
        ),
        (
            b"read 65535 1024".as_slice(),
            "Ok(Some(Read { fd: 65535, count: 1024 }))",
        ),
        (
            b"write 1 %zz%4".as_slice(),
            "Ok(Some(Write { fd: 1, bytes: [37, 122, 122, 37, 52] }))",
        ),
        (
            b"fill 1 4096 aF".as_slice(),
            "Ok(Some(Fill { fd: 1, count: 4096, byte: 175 }))",
        ),
        (
            b"seek 1 -4294967295 cur".as_slice(),
            "Ok(Some(Seek { fd: 1, offset: -4294967295, from: Cur }))",
        ),
        (
            b"seek 1 4294967295 set".as_slice(),
            "Ok(Some(Seek { fd: 1, offset: 4294967295, from: Set }))",
        ),
        (
            b"seek 1 0 end".as_slice(),
            "Ok(Some(Seek { fd: 1, offset: 0, from: End }))",
        ),
        (b"tell 0".as_slice(), "Ok(Some(Tell { fd: 0 }))"),
        (
            b"truncate 2 4294967295".as_slice(),
            "Ok(Some(Truncate { fd: 2, size: 4294967295 }))",
        ),
        (b"flush 3".as_slice(), "Ok(Some(Flush { fd: 3 }))"),
        (b"close 4".as_slice(), "Ok(Some(Close { fd: 4 }))"),
        (b"remove %".as_slice(), "Ok(Some(Remove { name: [37] }))"),
        (b"fremove 5".as_slice(), "Ok(Some(FRemove { fd: 5 }))"),
        (
            b"rename a%31 %c3%A9".as_slice(),
            "Ok(Some(Rename { old_name: [97, 49], new_name: [195, 169] }))",
        ),
        (b"stat #".as_slice(), "Ok(Some(StatName { name: [35] }))"),
        (b"fstat 6".as_slice(), "Ok(Some(FStat { fd: 6 }))"),
        (b"next 0".as_slice(), "Ok(Some(Next { after: 0 }))"),
        (b"info".as_slice(), "Ok(Some(GetInfo))"),
        (b"gc".as_slice(), "Ok(Some(Gc))"),
        (
            b"meta a %01%02".as_slice(),
            "Ok(Some(SetMeta { name: [97], meta: [1, 2] }))",
        ),
        (
            b"fmeta 1 wxyz".as_slice(),
            "Ok(Some(FSetMeta { fd: 1, meta: [119, 120, 121, 122] }))",
        ),
        (b"", "Ok(None)"),
        (b"# create a", "Ok(None)"),
        (b"#", "Ok(None)"),
    ] {
        let call = parse_line(line, &mut scratch);
        assert!(rt; format!(in rt.alloc(); "{call:?}")?.as_str() == told);
    }
    Ok(())
}

#[test]
fn other_lines_are_refused() {
    rattle_host::test::run(other_lines_are_refused_with)
}

fn other_lines_are_refused_with(rt: HostRuntime) {
    let mut scratch = [0; 4096];
    for line in [
        b"create".as_slice(),
        b"create ",
        b" create a",
        b"create  a",
        b"create a b",
        b"create a\tb",
        b"create a\x7f",
        b"creat a",
        b"Create a",
        b"creates a",
        b"open a",
        b"open a 4294967296",
        b"open a 01",
        b"open a 12345678901",
        b"open a +1",
        b"read 1 1025",
        b"read 65536 1",
        b"read 1 -1",
        b"read a 1",
        b"write 1",
        b"write 1 a b",
        b"fill 1 4097 00",
        b"fill 1 1 0",
        b"fill 1 1 000",
        b"fill 1 1 0g",
        b"seek 1 -0 set",
        b"seek 1 - set",
        b"seek 1 -01 set",
        b"seek 1 4294967296 set",
        b"seek 1 -4294967296 set",
        b"seek 1 0 Set",
        b"seek 1 0",
        b"tell",
        b"tell 00",
        b"tell 1 2",
        b"rename a",
        b"rename a b c",
        b"next -1",
        b"info 1",
        b"gc ",
        b" ",
        b"  ",
        b"meta a",
        b"fmeta a a",
        b"list",
    ] {
        assert!(rt; parse_line(line, &mut scratch).is_err(), "at {line:?}");
    }
}

#[test]
fn each_reply_has_its_line() {
    rattle_host::test::run(each_reply_has_its_line_with)
}

fn each_reply_has_its_line_with(rt: HostRuntime) {
    let info = Info {
        files: 2,
        index_pages: 3,
        data_pages: 4,
        usable_pages: 210,
    };
    let mut into = [0; 4096];
    for (reply, told) in [
        (Reply::Done, b"ok\n".as_slice()),
        (Reply::Number(4294967295), b"ok 4294967295\n"),
        (Reply::Bytes(b""), b"ok 0\n"),
        (Reply::Bytes(b"a %\xff"), b"ok 4 a%20%25%FF\n"),
        (Reply::NoMore, b"ok none\n"),
        (Reply::Room(info), b"ok files 2 index 3 data 4 usable 210\n"),
        (Reply::Refusal(FsErr::Full), b"-10001\n"),
    ] {
        let length = reply_text(&reply, &mut into);
        assert!(rt; &into[..length] == told);
    }
}
