//! Lines of words, and what they ask for.

use liverymenhir::geometry::MagicKind;
use rattle_host::prelude::String;
use spiffs::front_words::{Asked, Given, Preset, Refusal, Slot, Word, first_given, given_for, is_own, place, read_line};

pub fn words(line: &str) -> std::vec::Vec<String> {
    line.split_whitespace().map(|word| String::from(std::string::String::from(word))).collect()
}

pub fn asked(line: &str) -> Asked {
    read_line(&words(line)).expect(line)
}

fn refused(line: &str) -> Refusal {
    read_line(&words(line)).expect_err(line)
}

const PLAIN: Asked = Asked {
    word: Word::Ls,
    by_option: false,
    page: None,
    block: None,
    size: None,
    meta: None,
    magic: None,
    at: None,
    preset: None,
    is_dry: false,
    repairs: false,
    is_svg: false,
    is_forced: false,
    raw_names: false,
};

#[test]
fn commands_of_the_top_call_are_meant_as_themselves() {
    for verb in ["run", "list", "check", "extract", "make", "soak", "scrub", "map", "copy", "detect", "trace", "rehearse", "--force", "--help", "--version"] {
        assert!(is_own(&words(verb)));
        assert!(is_own(&words(&format!("{verb} -p 256 ls"))));
    }
    assert!(is_own(&[]));
    for verb in ["ls", "runs", "-c", "lis", "", "-p 256 list", "--dry-run list"] {
        assert_eq!(is_own(&words(verb)), verb.is_empty());
    }
}

#[test]
fn each_word_asks_for_itself() {
    for (line, word) in [
        ("ls i", Word::Ls),
        ("pack f i", Word::Pack),
        ("gen 1M f i", Word::Gen),
        ("unpack i f", Word::Unpack),
        ("fsck i", Word::Fsck),
        ("cat i n", Word::Cat),
        ("put i f", Word::Put),
        ("put i f n", Word::Put),
        ("rm i a", Word::Rm),
        ("rm i a b c d e", Word::Rm),
        ("mv i a b", Word::Mv),
        ("df i", Word::Df),
        ("size f", Word::Size),
        ("picture i", Word::Picture),
    ] {
        let wanted = Asked { word, size: (word == Word::Gen).then_some(1_048_576), ..PLAIN };
        assert_eq!(asked(line), wanted, "{line}");
    }
}

#[test]
fn raw_names_are_for_unpack() {
    assert_eq!(asked("unpack i f --raw-names"), Asked { word: Word::Unpack, raw_names: true, ..PLAIN });
    assert_eq!(refused("ls i --raw-names"), Refusal::NotFor(Slot::RawNames));
    assert_eq!(refused("unpack i f --raw-names --raw-names"), Refusal::Twice(Slot::RawNames));
}

#[test]
fn names_are_too_few_or_too_many() {
    for (line, word) in [
        ("ls", Word::Ls),
        ("ls a b", Word::Ls),
        ("pack f", Word::Pack),
        ("pack f i x", Word::Pack),
        ("gen 1M f", Word::Gen),
        ("cat i", Word::Cat),
        ("put i", Word::Put),
        ("put i f n m", Word::Put),
        ("rm i", Word::Rm),
        ("mv i a", Word::Mv),
        ("size", Word::Size),
        ("-c f", Word::Pack),
        ("-c f i j", Word::Pack),
        ("-l", Word::Ls),
    ] {
        assert_eq!(refused(line), Refusal::Places(word), "{line}");
    }
}

#[test]
fn what_platformio_and_esp_idf_call_is_taken() {
    let wanted = Asked { word: Word::Pack, by_option: true, page: Some(256), block: Some(4096), size: Some(0x16_E000), ..PLAIN };
    assert_eq!(asked("-c data -p 256 -b 4096 -s 0x16E000 spiffs.bin"), wanted);
    assert_eq!(asked("-c data -p 256 -b 4096 -s 1499136 spiffs.bin"), wanted);
    let wanted = Asked { word: Word::Gen, page: Some(256), size: Some(0xF0_000), meta: Some(4), magic: Some(MagicKind::Length), ..PLAIN };
    assert_eq!(asked("gen 0xf0000 image build/storage.bin --page-size=256 --obj-name-len=32 --meta-len=4 --use-magic --use-magic-len"), wanted);
    assert_eq!(asked("gen 0xf0000 image build/storage.bin --page-size 256 --obj-name-len 32 --meta-len 4 --use-magic --use-magic-len"), wanted);
    let wanted = Asked { word: Word::Unpack, by_option: true, page: Some(256), block: Some(4096), size: Some(65_536), ..PLAIN };
    assert_eq!(asked("-d 5 -u out -b 4096 -p 256 -s 65536 spiffs.bin"), wanted);
    assert_eq!(asked("-l spiffs.bin"), Asked { by_option: true, ..PLAIN });
    assert_eq!(asked("-i spiffs.bin -a"), Asked { word: Word::Picture, by_option: true, ..PLAIN });
}

#[test]
fn options_of_the_others_are_refused_by_name() {
    for (line, slot) in [
        ("gen 1M f i --no-magic", Slot::NoMagic),
        ("gen 1M f i --big-endian", Slot::BigEndian),
        ("gen 1M f i --aligned-obj-ix-tables", Slot::Aligned),
        ("gen 1M f i --follow-symlinks", Slot::Links),
        ("ls i --colour", Slot::Unknown),
        ("ls i -x", Slot::Unknown),
        ("ls i --svg=1", Slot::Unknown),
        ("ls i -x --colour", Slot::Unknown),
        ("ls i -p", Slot::NoValue),
        ("ls i --page", Slot::NoValue),
    ] {
        assert_eq!(refused(line), Refusal::NotTaken(slot), "{line}");
    }
    for (line, slot) in [
        ("size f -s 1M", Slot::Size),
        ("gen 1M f i -s 1M", Slot::Size),
        ("pack f i --at 0", Slot::At),
        ("ls i --repair", Slot::Repair),
        ("ls i --svg", Slot::Svg),
        ("ls i --force", Slot::Force),
    ] {
        assert_eq!(refused(line), Refusal::NotFor(slot), "{line}");
    }
    for (line, slot) in [
        ("ls i -p 1x", Slot::Page),
        ("ls i -b=", Slot::Block),
        ("ls i --meta -1", Slot::Meta),
        ("ls i --magic yes", Slot::Magic),
        ("ls i --for arduino-esp8266", Slot::Preset),
        ("gen 1M f i --obj-name-len 64", Slot::NameLength),
        ("-c f i -d 6", Slot::Debug),
        ("gen big f i", Slot::Size),
    ] {
        assert_eq!(refused(line), Refusal::BadValue(slot), "{line}");
    }
}

#[test]
fn what_is_done_has_to_be_said_once() {
    assert_eq!(refused("-p 256"), Refusal::NoWord);
    assert_eq!(refused("frob i"), Refusal::UnknownWord);
    assert_eq!(refused("-p 256 list i"), Refusal::UnknownWord);
    assert_eq!(refused("-c f -l i"), Refusal::TwoWords);
    assert_eq!(refused("-c f -c g i"), Refusal::Twice(Slot::Create));
}

// Each order of some things.
fn orders<T: Copy>(things: &[T]) -> std::vec::Vec<std::vec::Vec<T>> {
    let Some((first, rest)) = things.split_first() else {
        return std::vec![std::vec![]];
    };
    let mut all = std::vec::Vec::new();
    for order in orders(rest) {
        for i in 0..=order.len() {
            let mut longer = order.clone();
            longer.insert(i, *first);
            all.push(longer);
        }
    }
    all
}

#[test]
fn options_stand_in_any_order_and_once() {
    let options = ["-p 512", "--block=8K", "--size 0x10000", "--meta 0", "--magic plain", "--dry-run"];
    let wanted = Asked {
        word: Word::Put,
        page: Some(512),
        block: Some(8192),
        size: Some(65_536),
        meta: Some(0),
        magic: Some(MagicKind::Plain),
        is_dry: true,
        ..PLAIN
    };
    for (at, order) in orders(&options).iter().enumerate() {
        let mut line: std::vec::Vec<&str> = order.clone();
        for (i, name) in ["put", "image", "file"].iter().enumerate() {
            line.insert((at + 3 * i) % (line.len() - i).max(1) + i, name);
        }
        let names: std::vec::Vec<&&str> = line.iter().filter(|word| ["put", "image", "file"].contains(word)).collect();
        if names == [&"put", &"image", &"file"] {
            assert_eq!(asked(&line.join(" ")), wanted, "{line:?}");
        }
    }
    for (option, slot) in options.iter().zip([Slot::Page, Slot::Block, Slot::Size, Slot::Meta, Slot::Magic, Slot::DryRun]) {
        assert_eq!(refused(&format!("{option} put image {option} file")), Refusal::Twice(slot));
    }
    for (line, slot) in [
        ("ls i -p 256 --page 256", Slot::Page),
        ("ls i --page-size=256 --page 512", Slot::Page),
        ("gen 1M f i --use-magic-len --no-magic-len", Slot::Magic),
        ("gen 1M f i --use-magic-len --magic len", Slot::Magic),
        ("ls i --meta 4 --meta-len 4", Slot::Meta),
        ("ls i --for esp-idf --for mkspiffs", Slot::Preset),
    ] {
        assert_eq!(refused(line), Refusal::Twice(slot), "{line}");
    }
}

#[test]
fn presets_and_magics_have_names() {
    for (line, preset) in [("esp-idf", Preset::EspIdf), ("arduino-esp32", Preset::ArduinoEsp32), ("mkspiffs", Preset::Mkspiffs)] {
        assert_eq!(asked(&format!("ls i --for {line}")).preset, Some(preset));
    }
    for (line, magic) in [("--magic len", MagicKind::Length), ("--use-magic-len", MagicKind::Length), ("--magic=plain", MagicKind::Plain), ("--no-magic-len", MagicKind::Plain)] {
        assert_eq!(asked(&format!("ls i {line}")).magic, Some(magic));
    }
}

#[test]
fn names_behind_two_dashes_may_begin_with_one() {
    let line = words("rm i -- -a --svg --");
    assert_eq!(read_line(&line), Ok(Asked { word: Word::Rm, ..PLAIN }));
    for (i, wanted) in ["rm", "i", "-a", "--svg", "--"].iter().enumerate() {
        assert_eq!(place(&line, i), Some(wanted.as_bytes()));
    }
    assert_eq!(place(&line, 5), None);
    assert_eq!(place(&words("ls - -p 1 x"), 1), Some(b"-".as_slice()));
    assert_eq!(place(&words("ls - -p 1 x"), 2), Some(b"x".as_slice()));
    assert!(matches!(given_for(&words("--create=a=b i"), Slot::Create), Given::Once(b"a=b")));
    assert!(matches!(given_for(&words("ls i"), Slot::Page), Given::Nothing));
    assert_eq!(first_given(&words("ls --one i --two"), Slot::Unknown), Some(b"--one".as_slice()));
    assert_eq!(first_given(&words("ls i -p"), Slot::NoValue), Some(b"-p".as_slice()));
    assert_eq!(first_given(&words("ls i"), Slot::Unknown), None);
}

#[test]
fn refusals_say_what_is_wrong() {
    for (line, wanted) in [
        ("gen 1M f i --follow-symlinks", "--follow-symlinks isn't taken: links are passed over: pack a copy of the folder, made by cp -RL"),
        ("ls i -p 256 --page 256", "--page is given twice"),
        ("ls i --svg", "--svg means nothing for this word"),
        ("ls i --for esp8266", "--for is esp-idf, arduino-esp32 or mkspiffs"),
        ("mv i a", "the form is mv IMAGE OLD NEW"),
    ] {
        assert_eq!(std::format!("{}", refused(line)), wanted);
    }
}
