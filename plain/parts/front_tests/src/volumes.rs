//! Which volume a line means.

use crate::lines::asked;
use liverymenhir::geometry::MagicKind;
use rattle_host::alloc::Global;
use spiffs::front_words::{Candidate, Unsettled, Volume, choose_sure, settle, top_words, wants_detect};

const FOUND: Candidate = Candidate {
    at: 0,
    page: 256,
    block: 4096,
    blocks: 16,
    first_meta: 4,
    last_meta: 4,
    magic: MagicKind::Length,
    whole: 3,
    damaged: 0,
    spoiled: 0,
    doubled: 0,
};

const VOLUME: Volume = Volume { at: 0, page: 256, block: 4096, blocks: 16, meta: 4, magic: MagicKind::Length };

#[test]
fn an_image_that_is_made_has_the_numbers_of_esp_idf() {
    for (line, length, wanted) in [
        ("pack f i", 65_536, Ok(VOLUME)),
        ("pack f i -s 64K", 7, Ok(VOLUME)),
        ("gen 65536 f i", 0, Ok(VOLUME)),
        ("gen 0x10000 f i", 1 << 40, Ok(VOLUME)),
        ("pack f i -s 1M --for mkspiffs", 0, Ok(Volume { blocks: 256, meta: 0, ..VOLUME })),
        ("pack f i -s 1M --for mkspiffs --meta 7", 0, Ok(Volume { blocks: 256, meta: 7, ..VOLUME })),
        ("-c f -p 512 -b 8192 -s 65536 i", 0, Ok(Volume { page: 512, block: 8192, blocks: 8, ..VOLUME })),
        ("gen 64K f i --no-magic-len", 0, Ok(Volume { magic: MagicKind::Plain, ..VOLUME })),
        ("pack f i", 0, Err(Unsettled::NoSize)),
        ("pack f i -s 0", 65_536, Err(Unsettled::NoSize)),
        ("pack f i", 1 << 32, Err(Unsettled::NoSize)),
        ("pack f i", 65_535, Err(Unsettled::Uneven { size: 65_535, block: 4096 })),
        ("pack f i -s 65537", 0, Err(Unsettled::Uneven { size: 65_537, block: 4096 })),
        ("gen 1000 f i", 0, Err(Unsettled::Uneven { size: 1000, block: 4096 })),
        ("pack f i -s 64K -b 0", 0, Err(Unsettled::Uneven { size: 65_536, block: 0 })),
        ("pack f i -s 64K -b 24K", 0, Err(Unsettled::Uneven { size: 65_536, block: 24_576 })),
    ] {
        assert!(!wants_detect(&asked(line)));
        assert_eq!(settle(&asked(line), length, &[]), wanted, "{line}");
    }
}

#[test]
fn numbers_that_are_left_out_come_from_the_file() {
    let second = Candidate { at: 4096, whole: 1, ..FOUND };
    let equal = Candidate { page: 512, block: 8192, blocks: 8, ..FOUND };
    let any_meta = Candidate { first_meta: 0, last_meta: 64, whole: 0, ..FOUND };
    for (line, found, wanted) in [
        ("ls i", [FOUND, second], Ok(VOLUME)),
        ("ls i", [FOUND, equal], Err(Unsettled::Several)),
        ("ls i -b 8K", [FOUND, equal], Ok(Volume { page: 512, block: 8192, blocks: 8, ..VOLUME })),
        ("ls i -b 4K", [FOUND, equal], Ok(VOLUME)),
        ("ls i -b 16K", [FOUND, equal], Err(Unsettled::NoneFound)),
        ("ls i --at 4096", [FOUND, second], Ok(Volume { at: 4096, ..VOLUME })),
        ("ls i --meta 9", [FOUND, second], Ok(Volume { meta: 9, ..VOLUME })),
        ("ls i -s 64K", [FOUND, second], Ok(VOLUME)),
        ("ls i -s 128K", [FOUND, second], Err(Unsettled::NoneFound)),
        ("ls i -s 100", [FOUND, second], Err(Unsettled::NoneFound)),
        ("ls i --magic plain", [FOUND, second], Err(Unsettled::NoneFound)),
        ("ls i", [any_meta, Candidate { damaged: 1, ..any_meta }], Ok(Volume { meta: 0, ..VOLUME })),
        ("put i f", [any_meta, Candidate { damaged: 1, ..any_meta }], Err(Unsettled::AnyMeta)),
        ("put i f --meta 4", [any_meta, Candidate { damaged: 1, ..any_meta }], Ok(VOLUME)),
    ] {
        assert!(wants_detect(&asked(line)));
        assert_eq!(settle(&asked(line), 1 << 20, &found), wanted, "{line}");
    }
    assert_eq!(settle(&asked("ls i"), 65_536, &[]), Err(Unsettled::NoneFound));
}

#[test]
fn a_line_that_writes_goes_on_where_one_volume_is_meant() {
    let second = Candidate { at: 65_536, whole: 1, ..FOUND };
    let empty = Candidate { whole: 0, ..second };
    let inner = Candidate { blocks: 8, whole: 2, ..FOUND };
    let harmed = Candidate { damaged: 2, ..FOUND };
    let torn = Candidate { spoiled: 2, ..FOUND };
    let cut = Candidate { spoiled: 1, doubled: 1, ..FOUND };
    // (a block in front of a volume is read as a first one without magic)
    let behind = Candidate { at: 4096, ..FOUND };
    let longer = Candidate { blocks: 17, spoiled: 1, ..FOUND };
    let fresh = Candidate { whole: 0, magic: MagicKind::Plain, ..FOUND };
    let coarse = Candidate { block: 8192, blocks: 8, ..fresh };
    let two = Candidate { doubled: 2, damaged: 2, ..FOUND };
    for (line, found, wanted) in [
        ("rm i f", vec![FOUND], Ok(VOLUME)),
        ("rm i f", vec![FOUND, second], Err(Unsettled::Several)),
        ("fsck i --repair", vec![FOUND, second], Err(Unsettled::Several)),
        ("rm i f --force", vec![FOUND, second], Err(Unsettled::Several)),
        ("fsck i", vec![FOUND, second], Ok(VOLUME)),
        ("cat i f", vec![FOUND, second], Ok(VOLUME)),
        ("rm i f --at 65536", vec![FOUND, second], Ok(Volume { at: 65_536, ..VOLUME })),
        ("rm i f", vec![FOUND, empty], Err(Unsettled::Several)),
        ("rm i f", vec![FOUND, Candidate { spoiled: 1, ..empty }], Ok(VOLUME)),
        ("rm i f", vec![FOUND, Candidate { whole: 0, ..inner }], Ok(VOLUME)),
        ("rm i f", vec![longer, behind], Err(Unsettled::Several)),
        ("rm i f", vec![behind, Candidate { whole: 1, damaged: 2, ..longer }], Ok(Volume { at: 4096, ..VOLUME })),
        ("rm i f", vec![Candidate { whole: 0, ..longer }, Candidate { whole: 0, ..behind }], Err(Unsettled::Several)),
        ("put i f", vec![coarse, fresh], Ok(Volume { magic: MagicKind::Plain, ..VOLUME })),
        ("rm i f", vec![FOUND, inner], Ok(VOLUME)),
        ("rm i f", vec![FOUND, Candidate { whole: 3, ..inner }], Ok(VOLUME)),
        ("rm i f", vec![inner, FOUND], Ok(VOLUME)),
        ("rm i f", vec![Candidate { whole: 4, ..inner }, FOUND], Err(Unsettled::Several)),
        ("rm i f", vec![harmed], Err(Unsettled::Harmed(2))),
        ("mv i f g", vec![harmed], Err(Unsettled::Harmed(2))),
        ("put i f", vec![harmed], Err(Unsettled::Harmed(2))),
        ("put i f --force", vec![harmed], Ok(VOLUME)),
        ("fsck i --repair", vec![harmed], Ok(VOLUME)),
        ("unpack i f", vec![harmed], Ok(VOLUME)),
        ("put i f --force", vec![torn], Err(Unsettled::Spoiled(2))),
        ("fsck i --repair", vec![torn], Err(Unsettled::Spoiled(2))),
        ("ls i", vec![torn], Ok(VOLUME)),
        ("put i f", vec![cut], Ok(VOLUME)),
        ("put i f", vec![Candidate { magic: MagicKind::Plain, ..cut }], Err(Unsettled::Doubled(1))),
        ("put i f", vec![two], Err(Unsettled::Doubled(2))),
        ("put i f --force", vec![two], Ok(VOLUME)),
        ("fsck i --repair", vec![two], Err(Unsettled::Doubled(2))),
        ("put i f -s 64K", vec![two], Err(Unsettled::Doubled(2))),
        ("df i", vec![two], Ok(VOLUME)),
        ("rm i f -b 8K", vec![FOUND], Err(Unsettled::NoneFound)),
    ] {
        assert!(wants_detect(&asked(line)));
        assert_eq!(settle(&asked(line), 1 << 20, &found), wanted, "{line} {found:?}");
    }
    assert_eq!(choose_sure(&asked("ls i"), &[FOUND, second]), Err(Unsettled::Several));
    assert_eq!(choose_sure(&asked("ls i"), &[torn]), Err(Unsettled::Spoiled(2)));
    assert_eq!(choose_sure(&asked("ls i"), &[harmed]), Ok(VOLUME));
}

#[test]
fn a_volume_is_told_with_the_words_that_choose_it() {
    let words = "--at 4096 --page 256 --block 4096 --size 65536 --meta 4 --magic len";
    let found = Candidate { at: 4096, ..FOUND };
    assert_eq!(format!("{found}"), format!("{words}: 3 files, 0 damaged"));
    let mixed = Candidate { last_meta: 7, damaged: 1, spoiled: 3, ..found };
    assert_eq!(format!("{mixed}"), format!("{words}: 3 files, 1 damaged, by --meta up to 7 too, 3 blocks without magic"));
    // (of what may be two volumes the size isn't told)
    let two = Candidate { doubled: 2, ..found };
    let less = words.replace(" --size 65536", "");
    assert_eq!(format!("{two}"), format!("{less}: 3 files, 0 damaged, header pages twice: 2"));
    let line = format!("put i f {words}");
    assert!(!wants_detect(&asked(&line)));
    assert_eq!(settle(&asked(&line), 1 << 20, &[]), Ok(Volume { at: 4096, ..VOLUME }));
}

#[test]
fn a_preset_of_a_file_asks_for_no_look_at_it() {
    let line = asked("ls i --for esp-idf --at 0x1000");
    assert!(!wants_detect(&line));
    assert_eq!(settle(&line, 69_632, &[]), Ok(Volume { at: 4096, ..VOLUME }));
    assert_eq!(settle(&line, 4096, &[]), Err(Unsettled::NoSize));
    assert_eq!(settle(&line, 100, &[]), Err(Unsettled::NoSize));
    assert_eq!(settle(&line, 69_633, &[]), Err(Unsettled::Uneven { size: 65_537, block: 4096 }));
    assert!(wants_detect(&asked("ls i -p 256 -b 4096 --meta 4")));
    assert!(!wants_detect(&asked("ls i -p 256 -b 4096 --meta 4 --magic len")));
}

#[test]
fn a_volume_past_the_reach_is_refused() {
    let line = |at: u32, size: u32| asked(&format!("ls i --for esp-idf --at {at} -s {size}"));
    let last = 0xFFFF_F000;
    assert_eq!(settle(&line(last, 4096), 0, &[]), Err(Unsettled::TooFar { at: last, end: 1 << 32 }));
    assert_eq!(settle(&line(last - 4096, 4096), 0, &[]), Ok(Volume { at: last - 4096, blocks: 1, ..VOLUME }));
    assert_eq!(settle(&line(last, last), 0, &[]), Err(Unsettled::TooFar { at: last, end: 2 * u64::from(last) }));
    let far = Candidate { at: last, ..FOUND };
    assert_eq!(settle(&asked("ls i"), 0, &[far]), Err(Unsettled::TooFar { at: last, end: u64::from(last) + 65_536 }));
    let why = settle(&line(last, 8192), 0, &[]).expect_err("too far");
    assert_eq!(
        format!("{why}"),
        "the volume from byte 4294963200 on ends at byte 4294971392, and the most is 4294967295: give a lower --at or --size"
    );
}

#[test]
fn the_top_call_gets_its_words() {
    for (line, wanted) in [
        ("ls i", "list 256 4096 16 4 len i"),
        ("pack f i", "make 256 4096 16 4 len i"),
        ("gen 64K f i", "make 256 4096 16 4 len i"),
        ("unpack i f", "extract 256 4096 16 4 len i"),
        ("cat i n", "list 256 4096 16 4 len i"),
        ("fsck i", "check 256 4096 16 4 len i"),
        ("rm i n", "run 256 4096 16 4 len i"),
        ("df i", "run 256 4096 16 4 len i"),
    ] {
        let words = top_words(Global, asked(line).word, &VOLUME, "i").expect("memory");
        let words: std::vec::Vec<&str> = words.iter().map(|word| word.as_str()).collect();
        assert_eq!(words.join(" "), wanted);
    }
}
