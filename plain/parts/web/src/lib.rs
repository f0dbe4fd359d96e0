//! The commands of `spiffs` over an image in memory, for a page in a browser: `worker.js` calls what is exported here, and nothing else does.
//!
//! There are two images: the one that was opened, and a copy of it, which a check may change. What a command says, or the bytes of a file,
//! is the *answer*. Addresses are good until the next call.

#![forbid(unsafe_op_in_unsafe_fn)]

mod chip;
mod memory;
mod picture;
mod reading;
mod session;
mod tools;

use session::Session;
use std::sync::{Mutex, MutexGuard, PoisonError};

static SESSION: Mutex<Session> = Mutex::new(Session::new());

fn session() -> MutexGuard<'static, Session> {
    SESSION.lock().unwrap_or_else(PoisonError::into_inner)
}

/// Makes room for an image of so many bytes, and answers its address, or 0 where there is no memory. What was open before is let go.
#[unsafe(no_mangle)]
extern "C" fn room(size: usize) -> *mut u8 {
    session().room(size)
}

/// Makes room for words, so many bytes of UTF-8 with a newline between two words, and answers its address, or 0 where there is no memory.
#[unsafe(no_mangle)]
extern "C" fn words(size: usize) -> *mut u8 {
    session().room_for_words(size)
}

/// Copies the image, with bytes 0xFF behind it up to so many. Answers 0, or 15 where there is no memory.
#[unsafe(no_mangle)]
extern "C" fn copy(least: usize) -> u32 {
    session().copy(least)
}

/// Does the command of the words, `detect`, `list` or `check`, and answers its status. `check` is done on the copy. A volume begins at byte
/// `at` of the image.
#[unsafe(no_mangle)]
extern "C" fn command(at: usize, on_copy: u32) -> u32 {
    session().command(at, on_copy != 0).into()
}

/// Reads the file of an id; the words are those of `list`. Answers 0, or why not: 7 where it can't be read, 15 where there is no memory.
#[unsafe(no_mangle)]
extern "C" fn read(at: usize, on_copy: u32, id: u32) -> u32 {
    session().read(at, on_copy != 0, id as u16).into()
}

/// Tells four bytes of each page of the volume: its kind as `picture.rs` numbers them, 0, and the id of its file, the lower byte first. The
/// words are those of `list`. Answers 0, or 7 where there is no such volume, 15 where there is no memory.
#[unsafe(no_mangle)]
extern "C" fn picture(at: usize, on_copy: u32) -> u32 {
    session().picture(at, on_copy != 0).into()
}

/// Counts the blocks of the copy, from byte `at` on, that differ from those of the image. A block has so many bytes, at least one.
#[unsafe(no_mangle)]
extern "C" fn changed(at: usize, block: usize) -> usize {
    session().changed(at, block)
}

/// The address of the answer.
#[unsafe(no_mangle)]
extern "C" fn answer() -> *const u8 {
    session().answer.as_ptr()
}

/// How many bytes the answer has.
#[unsafe(no_mangle)]
extern "C" fn answer_size() -> usize {
    session().answer.len()
}

/// The address of the copy.
#[unsafe(no_mangle)]
extern "C" fn copied() -> *const u8 {
    session().copied.as_ptr()
}

/// How many bytes the copy has.
#[unsafe(no_mangle)]
extern "C" fn copied_size() -> usize {
    session().copied.len()
}
