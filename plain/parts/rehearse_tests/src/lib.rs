//! Tests of rehearsals against real power cuts: what a cut of a run leaves is among the tables that a rehearsal of its script tells, at the
//! line that it tells; and what it says of promises is so of those cuts. Each verdict that a test wants was found by thought.
#![cfg(test)]

mod bench;
mod cuts;
mod full;
mod ways;
