//! Events written by hand, which no run makes.

use crate::traces::{Noted, Trial, bad_cut, formatted, legal, program, say, small, volume};
use spiffs::flash_trace::Verdict;

const OUTSIDE: Verdict = Verdict::Outside { at: 0 };
const WRONG_BITS: Verdict = Verdict::WrongBits { at: 0 };

// Each of these traces, over an empty volume of 65,536 bytes, gets the verdict beside it.
fn each_is(script: &str, rows: &[(&str, Vec<Noted>, Verdict)]) {
    let g = small();
    let trial = Trial::new(g, &formatted(&g), script);
    for (name, events, verdict) in rows {
        assert_eq!(trial.judge(events), *verdict, "{name}");
    }
}

#[test]
fn a_program_lies_in_the_device_with_as_many_bytes_as_it_got() {
    let ones = [0xFF; 16];
    each_is(
        "create a\n",
        &[
            ("no event", vec![], legal(0, 0)),
            ("no bytes", vec![program(0, &[], &[])], OUTSIDE),
            (
                "one byte more",
                vec![program(300, &[255], &[255, 255])],
                OUTSIDE,
            ),
            (
                "one byte less",
                vec![program(300, &[255, 255], &[255])],
                OUTSIDE,
            ),
            (
                "the last byte",
                vec![program(65535, &[255], &[255])],
                legal(1, 0),
            ),
            (
                "one past the end",
                vec![program(65535, &[255, 255], &[255, 255])],
                OUTSIDE,
            ),
            (
                "behind the end",
                vec![program(65536, &[255], &[255])],
                OUTSIDE,
            ),
            (
                "far behind it",
                vec![program(u32::MAX, &[255], &[255])],
                OUTSIDE,
            ),
            (
                "the whole device",
                vec![program(0, &[255; 65536], &formatted(&small()))],
                legal(1, 0),
            ),
            (
                "ones over ones",
                vec![program(1000, &ones, &ones)],
                legal(1, 0),
            ),
        ],
    );
}

#[test]
fn a_program_only_clears_bits_that_it_is_asked_to_clear() {
    // the lookup page of block 0 ends with its magic, from byte 252 on, of which the first byte is 0x39, and its erase count
    each_is(
        "create a\n",
        &[
            (
                "a bit set that was clear",
                vec![program(252, &[0xFF], &[0xFF])],
                WRONG_BITS,
            ),
            (
                "nothing cleared",
                vec![program(252, &[0xFF], &[0x39])],
                legal(1, 0),
            ),
            (
                "not cleared",
                vec![program(1000, &[0x00], &[0xFF])],
                WRONG_BITS,
            ),
            (
                "one bit too many",
                vec![program(1000, &[0xF0], &[0x70])],
                WRONG_BITS,
            ),
            (
                "asked over zeros",
                vec![
                    program(1000, &[0x0F], &[0x0F]),
                    program(1000, &[0xF1], &[0x01]),
                ],
                legal(2, 0),
            ),
            (
                "what was asked and not what is left",
                vec![
                    program(1000, &[0x0F], &[0x0F]),
                    program(1000, &[0xF1], &[0xF1]),
                ],
                Verdict::WrongBits { at: 1 },
            ),
        ],
    );
}

#[test]
fn an_erase_is_that_of_a_unit() {
    each_is(
        "create a\n",
        &[
            ("the last unit", vec![Noted::Erase(15)], legal(1, 0)),
            ("behind it", vec![Noted::Erase(16)], OUTSIDE),
            ("far behind it", vec![Noted::Erase(u32::MAX)], OUTSIDE),
            // a volume has at most one block without magic
            (
                "two of them",
                vec![Noted::Erase(15), Noted::Erase(14)],
                bad_cut(2),
            ),
            (
                "one twice",
                vec![Noted::Erase(15), Noted::Erase(15)],
                legal(2, 0),
            ),
        ],
    );
}

#[test]
fn replies_are_told_whole_by_whole() {
    // both calls are refused, and nothing is programmed
    each_is(
        "tell 9\ntell 9\n",
        &[
            ("nothing", vec![say("")], legal(1, 0)),
            (
                "both in one piece",
                vec![say("-10010\n-10010\n")],
                legal(1, 2),
            ),
            ("one and a half", vec![say("-10010\n-100")], legal(1, 1)),
            (
                "byte by byte",
                "-10010\n-10010\n"
                    .bytes()
                    .map(|byte| Noted::Say(vec![byte]))
                    .collect(),
                legal(14, 2),
            ),
            ("another number", vec![say("-10011\n")], bad_cut(1)),
            (
                "another number, in its last byte",
                vec![say("-1001"), say("1")],
                bad_cut(2),
            ),
            ("no newline", vec![say("-10010-10010\n")], bad_cut(1)),
            (
                "a third one",
                vec![say("-10010\n-10010\n"), say("-10010\n")],
                bad_cut(2),
            ),
            ("a byte more", vec![say("-10010\n-10010\n.")], bad_cut(1)),
        ],
    );
}

#[test]
fn the_closing_line_tells_the_first_line_outside_the_grammar() {
    each_is(
        "create a\n",
        &[
            ("there is none", vec![say("! bad line 1\n")], bad_cut(1)),
            (
                "nor behind the script",
                vec![say("! bad line 2\n")],
                bad_cut(1),
            ),
        ],
    );
    each_is(
        "tell 9\n\n# tell 9\nbad\ntell 9\nworse\n",
        &[
            ("before the reply", vec![say("! bad line 4\n")], bad_cut(1)),
            (
                "behind it",
                vec![say("-10010\n! bad line 4\n")],
                legal(1, 1),
            ),
            (
                "in pieces",
                vec![say("-10010"), say("\n! bad"), say(" line 4"), say("\n")],
                legal(4, 1),
            ),
            ("a front of it", vec![say("-10010\n!")], legal(1, 1)),
            (
                "another line",
                vec![say("-10010\n! bad line 5\n")],
                bad_cut(1),
            ),
            (
                "the second such line",
                vec![say("-10010\n! bad line 6\n")],
                bad_cut(1),
            ),
            (
                "twice",
                vec![say("-10010\n! bad line 4\n"), say("! bad line 4\n")],
                bad_cut(2),
            ),
            (
                "a reply behind it",
                vec![say("-10010\n! bad line 4\n"), say("-10010\n")],
                bad_cut(2),
            ),
        ],
    );
}

#[test]
fn a_closing_line_about_the_image_is_not_told_of_a_fresh_one() {
    each_is(
        "tell 9\n",
        &[
            ("shared blocks", vec![say("! mixed blocks 1\n")], bad_cut(1)),
            ("free blocks", vec![say("! free blocks 16\n")], bad_cut(1)),
            (
                "no volume",
                vec![say("! not a volume, 2 blocks without magic\n")],
                bad_cut(1),
            ),
        ],
    );
}

#[test]
fn large_volumes_and_scripts_are_not_judged() {
    let g = small();
    let first = formatted(&g);
    let newlines = |count: usize| "\n".repeat(count);
    let judged = |script: &str| Trial::new(g, &first, script).judge(&[say("!")]);
    assert_eq!(judged(&newlines(16384)), bad_cut(1));
    assert_eq!(judged(&newlines(16385)), Verdict::TooLarge);
    for (blocks, verdict) in [(32, legal(0, 0)), (33, Verdict::TooLarge)] {
        let g = volume(256, 4096, blocks, 0);
        assert_eq!(
            Trial::new(g, &formatted(&g), "").judge(&[]),
            verdict,
            "{blocks} blocks"
        );
    }
}

#[test]
fn two_blocks_without_magic_are_no_volume() {
    let g = small();
    let first = vec![0xFF; 65536];
    assert_eq!(Trial::new(g, &first, "").judge(&[]), bad_cut(0));
    let mut one = formatted(&g);
    one[4096..8192].fill(0xFF);
    assert_eq!(Trial::new(g, &one, "").judge(&[]), legal(0, 0));
}
