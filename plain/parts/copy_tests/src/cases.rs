//! The cases.

use crate::plain::{Plain, WORKING, Wanted, copied, has_room_for, is_done, is_part, is_under};
use crate::runs::{Fault, copy, files_of, image_of, wanted};
use liverymenhir::geometry::{Geometry, MagicKind};
use spiffs::vol_copy::CopyErr;
use spiffs::nor_memory::CallKind;

fn geometry(page: u32, block: u32, blocks: u32, meta: u32) -> Geometry {
    Geometry::new(page, block, blocks, 1024.min(block), meta, MagicKind::Length).expect("a geometry")
}

fn file(name: &str, size: usize, seed: usize, meta: &[u8]) -> Plain {
    Plain {
        id: 0,
        name: name.as_bytes().to_vec(),
        kind: 1,
        meta: meta.to_vec(),
        bytes: (0..size).map(|i| ((i * 7 + i / 251 + seed * 31) % 256) as u8).collect(),
    }
}

// Whether a name that stood under the working name at first is left out: a copy removes it where it goes on.
fn without_working(files: &[Plain]) -> Vec<Plain> {
    files.iter().filter(|f| f.name != WORKING).cloned().collect()
}

// One pair of volumes: the copy, the copy again, each cut and each failing call.
fn check_pair(label: &str, gf: &Geometry, source: &[Plain], g: &Geometry, first: &[Plain], slots: usize) {
    let alike = gf.meta == g.meta;
    let source_image = image_of(gf, source);
    let (first_files, target_image) = files_of(g, &image_of(g, first));
    assert_eq!(first_files.len(), first.len(), "{label}");
    let (want, files) = copied(g, alike, source, &first_files);
    let run = copy(gf, &source_image, g, &target_image, slots, Fault::None);
    assert_eq!(wanted(&run.result), Some(want), "{label}");
    assert_eq!(run.source, source_image, "{label}: the source is read");
    let (now, now_image) = files_of(g, &run.image);
    assert_eq!(now_image, run.image, "{label}: tidy, with its reserve");
    let mut sorted = (now.clone(), files.clone());
    sorted.0.sort_by(|a, b| a.name.cmp(&b.name));
    sorted.1.sort_by(|a, b| a.name.cmp(&b.name));
    assert_eq!(sorted.0, sorted.1, "{label}: files");
    if let Wanted::Done(copies, kept) = want {
        assert!(is_done(alike, source, &first_files, &now), "{label}: done");
        let again = copy(gf, &source_image, g, &run.image, slots, Fault::None);
        assert_eq!(wanted(&again.result), Some(Wanted::Done(0, copies + kept)), "{label}: again");
        assert_eq!(again.image, run.image, "{label}: again, no byte changes");
        for kind in [CallKind::Program, CallKind::Erase] {
            let again = copy(gf, &source_image, g, &run.image, slots, Fault::Target(kind, 1));
            assert_eq!(wanted(&again.result), Some(Wanted::Done(0, copies + kept)), "{label}: again, no {kind:?}");
        }
        let mut nth = 1;
        loop {
            let again = copy(gf, &source_image, g, &run.image, slots, Fault::Target(CallKind::Read, nth));
            assert_eq!(again.image, run.image, "{label}: again, failing read {nth}");
            if again.result.is_ok() || nth > 400 {
                break;
            }
            assert_eq!(again.result, Err(CopyErr::ToFault), "{label}: again, failing read {nth}");
            nth += 7;
        }
    }
    // what one copy leaves that is cut or fails, a next one that is cut, and a last one
    let after = |label: &str, image: &[u8], there: Fault| {
        let (left, checked) = files_of(g, image);
        assert!(is_under(alike, source, &first_files, &left), "{label}: under");
        let next = copy(gf, &source_image, g, &checked, slots, there);
        if next.result != Err(CopyErr::ToFault) {
            assert_eq!(wanted(&next.result), Some(copied(g, alike, source, &left).0), "{label}: the next one");
        }
        let (left_then, checked) = files_of(g, &next.image);
        assert!(is_under(alike, source, &left, &left_then), "{label}: under then");
        let (want_last, _) = copied(g, alike, source, &left_then);
        let last = copy(gf, &source_image, g, &checked, slots, Fault::None);
        assert_eq!(wanted(&last.result), Some(want_last), "{label}: the last one");
        let (files, _) = files_of(g, &last.image);
        let is_so = match want_last {
            Wanted::Done(_, _) => is_done(alike, source, &without_working(&first_files), &files),
            Wanted::Full(_, _) if has_room_for(g, &first_files) => is_part(alike, source, &first_files, &files),
            _ => files == first_files,
        };
        assert!(is_so, "{label}: at last");
    };
    for pick in 0..3 {
        let mut passed = 0;
        loop {
            let run = copy(gf, &source_image, g, &target_image, slots, Fault::Cut(passed, pick));
            if wanted(&run.result).is_some() {
                assert_eq!(wanted(&run.result), Some(want), "{label}: cut after {passed}");
                break;
            }
            assert_eq!(run.result, Err(CopyErr::ToFault), "{label}: cut after {passed}");
            let there = [passed, passed / 2, passed % 7][pick as usize];
            after(&format!("{label}: cut after {passed}, pick {pick}"), &run.image, Fault::Cut(there, pick));
            passed += 1;
        }
    }
    for kind in [CallKind::Program, CallKind::Erase, CallKind::Read] {
        let step = if kind == CallKind::Read { 11 } else { 1 };
        let mut nth = 1;
        loop {
            let run = copy(gf, &source_image, g, &target_image, slots, Fault::Target(kind, nth));
            if wanted(&run.result).is_some() {
                assert_eq!(wanted(&run.result), Some(want), "{label}: {kind:?} {nth}");
                break;
            }
            assert_eq!(run.result, Err(CopyErr::ToFault), "{label}: {kind:?} {nth}");
            after(&format!("{label}: {kind:?} {nth} fails"), &run.image, Fault::Cut(nth % 11, nth % 3));
            nth += step;
        }
    }
    let mut nth = 1;
    loop {
        let run = copy(gf, &source_image, g, &target_image, slots, Fault::Source(nth));
        if wanted(&run.result).is_some() {
            assert_eq!(wanted(&run.result), Some(want), "{label}: source read {nth}");
            break;
        }
        assert_eq!(run.result, Err(CopyErr::FromFault), "{label}: source read {nth}");
        after(&format!("{label}: source read {nth} fails"), &run.image, Fault::Cut(nth % 13, nth % 3));
        nth += 5;
    }
}

fn small() -> Geometry {
    geometry(256, 4096, 6, 0)
}

fn other() -> Geometry {
    geometry(128, 1024, 24, 0)
}

#[test]
fn files_are_copied_onto_another_geometry() {
    let source = [file("a", 5, 1, b""), file("b", 0, 2, b""), file("c", 251, 3, b""), file("d", 252, 4, b""), file("e", 700, 5, b"")];
    check_pair("onto an empty volume", &small(), &source, &other(), &[], 1);
    check_pair("the other way", &other(), &source, &small(), &[], 2);
    check_pair("onto the same numbers", &small(), &source, &small(), &[], 1);
    let mixed = [file("e", 699, 5, b""), file("x", 300, 9, b""), file("c", 251, 3, b""), file("a", 5, 2, b"")];
    check_pair("some are there", &small(), &source, &other(), &mixed, 1);
    let longer = [file("e", 1700, 5, b""), file("b", 3, 9, b""), file("y", 0, 3, b"")];
    check_pair("longer ones are there", &other(), &source, &small(), &longer, 1);
    check_pair("nothing to copy", &other(), &[], &small(), &longer, 1);
}

#[test]
fn types_and_meta_bytes_are_compared() {
    let source = [file("a", 5, 1, b"meta"), file("b", 300, 2, &[0xFF; 4]), file("c", 20, 3, b"abcd")];
    let (with, bare) = (geometry(256, 4096, 6, 4), geometry(128, 1024, 24, 0));
    check_pair("meta to meta", &with, &source, &geometry(128, 1024, 24, 4), &[], 1);
    check_pair("meta to none", &with, &source, &bare, &[], 1);
    let plain = [file("a", 5, 1, b""), file("b", 300, 2, b"")];
    check_pair("none to meta", &bare, &plain, &with, &[file("a", 5, 1, b"meta")], 1);
    let there = [file("a", 5, 1, b"mete"), file("b", 300, 2, &[0xFF; 4]), file("c", 20, 3, b"abcd")];
    check_pair("other meta", &with, &source, &geometry(128, 1024, 24, 4), &there, 1);
    let mut typed = file("b", 300, 2, b"");
    typed.kind = 2;
    check_pair("another type", &bare, &plain, &small(), &[typed], 1);
}

#[test]
fn a_working_file_is_removed_or_refused() {
    let source = [file("a", 600, 1, b""), file("b", 10, 2, b"")];
    let left = Plain { name: WORKING.to_vec(), ..file("", 900, 7, b"") };
    check_pair("one on the target", &small(), &source, &other(), &[left.clone(), file("b", 9, 2, b"")], 1);
    let bad = [file("a", 600, 1, b""), left, file("b", 10, 2, b"")];
    check_pair("one on the source", &small(), &bad, &other(), &[], 1);
}

#[test]
fn a_copy_stops_where_there_is_no_room() {
    let source = [file("a", 600, 1, b""), file("b", 2000, 2, b""), file("c", 10, 3, b"")];
    let tight = geometry(128, 1024, 6, 0);
    check_pair("a page has no room", &small(), &source, &tight, &[], 1);
    check_pair("nor beside its own copy", &small(), &[file("a", 1100, 1, b"")], &tight, &[file("a", 1100, 2, b"")], 1);
    let many: Vec<Plain> = (0..12).map(|i| file(&format!("f{i}"), 0, i, b"")).collect();
    check_pair("a file has no room", &small(), &many, &tight, &[], 1);
    let full: Vec<Plain> = many[..6].to_vec();
    check_pair("some fit", &small(), &[file("f1", 0, 1, b""), file("a", 123, 1, b""), file("f2", 500, 1, b"")], &tight, &full, 1);
}

#[test]
fn long_files_take_further_index_pages() {
    let g = geometry(128, 2048, 12, 64);
    let source = [file("long", 1900, 1, b""), file("s", 123, 2, b"")];
    let run_of = geometry(256, 4096, 6, 0);
    check_pair("past the header page's spans", &run_of, &source, &g, &[file("long", 600, 1, &[7; 64])], 1);
}
