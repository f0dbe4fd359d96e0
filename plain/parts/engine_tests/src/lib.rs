//! Tests that run a volume, a reader and a view themselves, on the engine as stock rustc compiles it: by the calls that no command makes, by
//! failing devices, and by drawn calls on two volumes of which one has a map of a file. And tests of commands on a row of chips.
#![cfg(test)]

mod bench;
mod chip_rows;
mod collecting;
mod commands;
mod descriptors;
mod images;
mod map_numbers;
mod map_reads;
mod map_soak;
mod maps;
mod metas;
mod rows;
mod scrubs;
mod space;
mod steps;
mod tight;
mod views;
mod writing;
