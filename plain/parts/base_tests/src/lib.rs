//! Tests of the crates below the volume, as stock rustc compiles them: devices and folders in memory, numbers, pages, lines, and the
//! plain programs on calls and images made by hand.
#![cfg(test)]

mod bytes;
mod chips;
mod collects;
mod devices;
mod fields;
mod flat;
mod folders;
mod images;
mod lines;
mod listed;
mod moments;
mod numbers;
mod promises;
mod shares;
