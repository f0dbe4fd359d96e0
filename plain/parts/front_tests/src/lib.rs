//! Tests of words that people know from other tools, and of the paths that names of files have, as stock rustc compiles them. What each row
//! wants was found by thought, and not taken from the program.
#![cfg(test)]

mod amounts;
mod lines;
mod paths;
mod scripts;
mod volumes;
