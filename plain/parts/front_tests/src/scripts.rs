//! Lines of scripts.

use spiffs::front_words::{
    ANEW, PIECE, SCRATCH, can_be_put, close_line, info_line, make_working, open_line, remove_line, rename_line, write_line,
};

// What a function writes at the front of a line.
fn line(write: impl Fn(&mut [u8]) -> usize) -> std::string::String {
    let mut into = [0; 4097];
    let length = write(&mut into);
    std::string::String::from_utf8(into[..length].into()).expect("a text")
}

#[test]
fn lines_spell_their_calls() {
    assert_eq!(line(|into| remove_line(b"/a b", into)), "remove /a%20b\n");
    assert_eq!(line(|into| rename_line(SCRATCH, b"\xAFa", into)), "rename %01 %AFa\n");
    assert_eq!(line(|into| open_line(SCRATCH, ANEW, into)), "open %01 22\n");
    assert_eq!(line(|into| write_line(b"1%\x00", into)), "write 1 1%25%00\n");
    assert_eq!(line(close_line), "close 1\n");
    assert_eq!(line(info_line), "info\n");
    assert_eq!(line(|into| write_line(&[0; PIECE], into)).len(), 8 + 3 * PIECE + 1);
    assert!(8 + 3 * PIECE <= 4096);
}

#[test]
fn working_names_stand_apart() {
    for name in [b"/a".as_slice(), b"a", b"\xFFx", b"/0123456789012345678901234567890"] {
        let mut working = std::vec::Vec::from(name);
        make_working(&mut working);
        assert_ne!(working, name);
        assert!(can_be_put(name) && working[0] != 0 && working != SCRATCH);
        make_working(&mut working);
        assert_eq!(working, name);
    }
    for name in [b"".as_slice(), b"\x01", b"\x81", b"\x80", b"\x80a"] {
        assert!(!can_be_put(name));
    }
}
