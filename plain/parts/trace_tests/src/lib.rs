//! Tests of the judge of traces, on the engine as stock rustc compiles it: events written by hand, recorded runs, and recorded runs in which
//! one thing is out of order; and of the command that records a run and has it judged. Each verdict that a test wants was found by thought, and not taken from the judge.
#![cfg(test)]

mod command;
mod hostile;
mod orders;
mod runs;
mod traces;
