//! What is open: an image, a copy of it, the words of the next command, and what the last one said.

use crate::chip::Chip;
use crate::memory::{NO_MEMORY, filled};
use crate::{picture, reading, tools};
use rattle_host::prelude::String;
use std::ptr::null_mut;
use std::str;

pub struct Session {
    image: Vec<u8>,
    words: Vec<u8>,
    /// The copy.
    pub copied: Vec<u8>,
    /// The answer.
    pub answer: Vec<u8>,
}

fn room_in(bytes: &mut Vec<u8>, size: usize) -> *mut u8 {
    *bytes = Vec::new();
    match filled(0, size) {
        Some(made) => *bytes = made,
        None => return null_mut(),
    }
    bytes.as_mut_ptr()
}

// The words, parted by newlines; none where they are no text.
fn words_of(text: &[u8]) -> Vec<String> {
    match str::from_utf8(text) {
        Ok(text) => text
            .split('\n')
            .map(|word| String::from(word.to_owned()))
            .collect(),
        Err(_) => Vec::new(),
    }
}

// Whether bytes have these at a place; behind their end they are 0xFF.
fn is_same(bytes: &[u8], start: usize, piece: &[u8]) -> bool {
    let held = bytes.get(start..).unwrap_or(&[]);
    let count = held.len().min(piece.len());
    held[..count] == piece[..count] && piece[count..].iter().all(|byte| *byte == 0xFF)
}

impl Session {
    pub const fn new() -> Session {
        Session {
            image: Vec::new(),
            words: Vec::new(),
            copied: Vec::new(),
            answer: Vec::new(),
        }
    }

    pub fn room(&mut self, size: usize) -> *mut u8 {
        *self = Session::new();
        room_in(&mut self.image, size)
    }

    pub fn room_for_words(&mut self, size: usize) -> *mut u8 {
        room_in(&mut self.words, size)
    }

    pub fn copy(&mut self, least: usize) -> u32 {
        self.copied = Vec::new();
        let Some(mut made) = filled(0xFF, self.image.len().max(least)) else {
            return NO_MEMORY.into();
        };
        made[..self.image.len()].copy_from_slice(&self.image);
        self.copied = made;
        0
    }

    // Does something over the volume that begins at a byte of the image or of the copy, with the words and an empty answer.
    fn over(
        &mut self,
        at: usize,
        on_copy: bool,
        does: impl FnOnce(&[String], Chip<'_>) -> u8,
    ) -> u8 {
        let bytes = if on_copy {
            &mut self.copied
        } else {
            &mut self.image
        };
        let start = at.min(bytes.len());
        self.answer = Vec::new();
        does(
            &words_of(&self.words),
            Chip::new(&mut bytes[start..], &mut self.answer),
        )
    }

    pub fn command(&mut self, at: usize, on_copy: bool) -> u8 {
        let status = self.over(at, on_copy, tools::command);
        if status == NO_MEMORY {
            self.answer = b"! memory\n".to_vec();
        }
        status
    }

    pub fn read(&mut self, at: usize, on_copy: bool, id: u16) -> u8 {
        self.over(at, on_copy, |words, chip| reading::read(words, chip, id))
    }

    pub fn picture(&mut self, at: usize, on_copy: bool) -> u8 {
        self.over(at, on_copy, picture::draw)
    }

    pub fn changed(&self, at: usize, block: usize) -> usize {
        let from = |bytes: &[u8]| at.min(bytes.len());
        let image = &self.image[from(&self.image)..];
        let copied = &self.copied[from(&self.copied)..];
        let blocks = copied.chunks(block.max(1)).zip((0..).step_by(block.max(1)));
        blocks
            .filter(|(after, start)| !is_same(image, *start, after))
            .count()
    }
}
