//! Tests of pictures of chips, as stock rustc compiles them. What each picture has was found by thought, and not taken from the program.
#![cfg(test)]

mod chips;
mod faults;
mod svg;
mod text;
