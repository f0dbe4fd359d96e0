//! Tests of the largest new file that a volume takes, and of the least number of blocks for a folder, as stock rustc compiles them: held against
//! volumes in memory, and against the refusals of each number of blocks.
#![cfg(test)]

mod folders;
mod volumes;
