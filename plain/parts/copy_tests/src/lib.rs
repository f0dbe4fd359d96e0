//! Tests of copies of one volume onto another: between pairs of volumes, cut at each program and erase, and the next one once too, with each
//! call failing, and onto a row of two chips of which one fails, compared with plain lists of files.
#![cfg(test)]

mod plain;
mod runs;
mod cases;
mod rows;
