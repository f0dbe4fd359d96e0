//! Numbers of bytes.

use spiffs::front_words::read_amount;

#[test]
fn numbers_are_decimal_hexadecimal_or_with_a_unit() {
    for (word, wanted) in [
        ("0", Some(0)),
        ("4096", Some(4096)),
        ("4294967295", Some(4_294_967_295)),
        ("4294967296", None),
        ("0x10000", Some(65_536)),
        ("0xFFFFFFFF", Some(4_294_967_295)),
        ("0xffffffff", Some(4_294_967_295)),
        ("0x00000000000000001", Some(1)),
        ("0x100000000", None),
        ("0xFFFFFFFFFFFFFFFFF", None),
        ("1K", Some(1024)),
        ("1M", Some(1_048_576)),
        ("4095M", Some(4_293_918_720)),
        ("4096M", None),
        ("4194303K", Some(4_294_966_272)),
        ("4194304K", None),
        ("0K", Some(0)),
        ("", None),
        ("K", None),
        ("M", None),
        ("0x", None),
        ("0xK", None),
        ("0x1K", None),
        ("x10", None),
        ("0X10", None),
        ("010", None),
        ("00", None),
        ("01K", None),
        ("1k", None),
        ("1KK", None),
        ("1 K", None),
        ("-1", None),
        ("+1", None),
        ("1.5M", None),
    ] {
        assert_eq!(read_amount(word.as_bytes()), wanted, "{word}");
    }
}
