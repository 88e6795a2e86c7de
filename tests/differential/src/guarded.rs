//! A buffer with known bytes around it.

use crate::random::Random;

const MARGIN: usize = 64;

pub struct Guarded {
    bytes: Vec<u8>,
    original: Vec<u8>,
}

impl Guarded {
    /// A buffer of random bytes between two margins of random bytes.
    pub fn new(random: &mut Random, length: usize) -> Guarded {
        let bytes = random.bytes(length + 2 * MARGIN);
        Guarded {
            original: bytes.clone(),
            bytes,
        }
    }

    /// The same around bytes that a call only reads.
    pub fn holding(random: &mut Random, held: &[u8]) -> Guarded {
        let mut guarded = Guarded::new(random, held.len());
        guarded.inside().copy_from_slice(held);
        guarded.original.clone_from(&guarded.bytes);
        guarded
    }

    pub fn inside(&mut self) -> &mut [u8] {
        let end = self.bytes.len() - MARGIN;
        &mut self.bytes[MARGIN..end]
    }

    /// The same where the length is known.
    pub fn array<const N: usize>(&mut self) -> &mut [u8; N] {
        self.inside().try_into().expect("a buffer of that length")
    }

    /// Checks that no byte has changed.
    pub fn assert_as_it_was(&self, what: &str) {
        self.assert_begins(&[], what);
    }

    /// Checks that the buffer now begins with `written` and that every other
    /// byte, margins included, is as it was.
    pub fn assert_begins(&self, written: &[u8], what: &str) {
        let mut expected = self.original.clone();
        expected[MARGIN..MARGIN + written.len()].copy_from_slice(written);
        if self.bytes != expected {
            let differs = |&at: &usize| self.bytes[at] != expected[at];
            let at = (0..expected.len()).find(differs).unwrap_or(0);
            panic!(
                "{what}: byte {} is {:02X}, expected {:02X} (first {} bytes were to be written)",
                at as isize - MARGIN as isize,
                self.bytes[at],
                expected[at],
                written.len(),
            );
        }
    }
}
