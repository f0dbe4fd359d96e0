//! Bytes of an image made by hand.

#[allow(unused_imports)]
use rattle_host::prelude::*;

/// Puts bytes at a place of an image, as far as they fit.
pub(crate) fn put(image: &mut Vec<u8>, at: usize, bytes: &[u8]) {
    for (i, b) in bytes.iter().enumerate() {
        if let Some(x) = image.get_mut(at.saturating_add(i)) {
            *x = *b;
        }
    }
}
