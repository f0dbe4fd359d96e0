//! The command `trace` on chips in memory.

use crate::runs::{Draw, VOLUMES};
use crate::traces::{Fault, Trial, formatted, image_after, small, volume};
use spiffs::nor_memory::CallKind;

fn legal_line(events: usize, replies: usize) -> String {
    format!("legal {events} events {replies} replies\n")
}

fn on_an_empty_volume(script: &str) -> Trial {
    let g = small();
    Trial::new(g, &formatted(&g), script)
}

#[test]
fn a_new_file_takes_four_programs_and_a_reply() {
    let told = on_an_empty_volume("create a\n").trace();
    assert_eq!((told.status, told.run), (0, Some(0)));
    assert_eq!(told.said, legal_line(5, 1));
}

#[test]
fn a_trace_tells_the_events_and_replies_of_a_run() {
    for (page, block, blocks, meta) in VOLUMES {
        let g = volume(page, block, blocks, meta);
        let mut draw = Draw(u64::from(blocks) + 999);
        let mut image = formatted(&g);
        for _ in 0..5 {
            let trial = Trial::new(g, &image, &draw.script(40));
            let ran = trial.run();
            let told = trial.trace();
            assert_eq!((told.status, told.run), (0, Some(0)));
            assert_eq!(told.said, legal_line(ran.events.len(), 40));
            image = ran.image;
        }
    }
}

#[test]
fn a_trace_on_a_damaged_chip_is_legal_where_the_run_mounts() {
    for (page, block, blocks, meta) in VOLUMES {
        let g = volume(page, block, blocks, meta);
        let mut draw = Draw(u64::from(page * blocks) + 815);
        let mut image = formatted(&g);
        for _ in 0..12 {
            let ran = Trial::new(g, &image, &draw.script(25)).run();
            let cut = draw.next(ran.events.len() as u64 + 1) as usize;
            let mut torn = image_after(&g, &image, &ran.events[..cut]);
            draw.damage(&g, &mut torn);
            let trial = Trial::new(g, &torn, &draw.script(12));
            let run = trial.run();
            let told = trial.trace();
            assert_eq!(told.run, Some(run.status));
            let replies = if run.status == 0 { 12 } else { 0 };
            if run.status == 3 {
                assert_eq!((told.status, told.said.as_str()), (19, "! event 0\n"));
            } else {
                assert_eq!(told.status, 0);
                assert_eq!(told.said, legal_line(run.events.len(), replies));
            }
            image = ran.image;
        }
    }
}

#[test]
fn a_line_outside_the_grammar_ends_the_run_and_not_the_trace() {
    let told = on_an_empty_volume("tell 9\n\nbad\ntell 9\n").trace();
    assert_eq!((told.status, told.run), (0, Some(5)));
    // the reply, and the line that tells the third one
    assert_eq!(told.said, legal_line(2, 1));
}

#[test]
fn what_is_behind_the_volume_is_no_matter() {
    let told = on_an_empty_volume("create a\n").trace_with(&[0; 8192], Fault::Nothing);
    assert_eq!((told.status, told.said), (0, legal_line(5, 1)));
}

#[test]
fn a_call_that_fails_ends_the_command() {
    let trial = on_an_empty_volume("create a\n");
    // the chip is read once, and one line is said
    let told = trial.trace_with(&[], Fault::Call(CallKind::Read, 1));
    assert_eq!((told.status, told.run, told.said.as_str()), (7, None, ""));
    let told = trial.trace_with(&[], Fault::Call(CallKind::Read, 2));
    assert_eq!((told.status, told.said), (0, legal_line(5, 1)));
    let told = trial.trace_with(&[], Fault::Call(CallKind::Say, 1));
    assert_eq!(
        (told.status, told.run, told.said.as_str()),
        (7, Some(0), "")
    );
    for kind in [CallKind::Program, CallKind::Erase] {
        let told = trial.trace_with(&[], Fault::Call(kind, 1));
        assert_eq!((told.status, told.said), (0, legal_line(5, 1)));
    }
    // the script is read, and then its end
    for nth in 1..=3 {
        let told = trial.trace_with(&[], Fault::Script(nth));
        if nth <= 2 {
            assert_eq!(
                (told.status, told.run, told.said.as_str()),
                (8, None, "! script fault\n")
            );
        } else {
            assert_eq!((told.status, told.said), (0, legal_line(5, 1)));
        }
    }
}

#[test]
fn volumes_and_scripts_have_a_most() {
    let newlines = |count: usize| "\n".repeat(count);
    let told = on_an_empty_volume(&newlines(16384)).trace();
    assert_eq!((told.status, told.said), (0, legal_line(0, 0)));
    let told = on_an_empty_volume(&newlines(16385)).trace();
    assert_eq!(
        (told.status, told.run, told.said.as_str()),
        (20, None, "! trace too large\n")
    );
    for (blocks, status) in [(32, 0), (33, 20)] {
        let g = volume(256, 4096, blocks, 0);
        // (a chip that is too large isn't read, and a script not taken)
        let trial = Trial::new(g, &formatted(&g), "create a\n");
        let told = trial.trace();
        assert_eq!(told.status, status);
        if status == 20 {
            let told = trial.trace_with(&[], Fault::Call(CallKind::Read, 1));
            assert_eq!(
                (told.status, told.said.as_str()),
                (20, "! trace too large\n")
            );
        }
    }
}
