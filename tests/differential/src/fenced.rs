//! A state of the library with known bytes around it.

use crate::random::Random;
use calugnid::{STATE_SIZE, State};

const MARGIN: usize = 64;

#[repr(C)]
struct Memory {
    before: [u8; MARGIN],
    state: State,
    after: [u8; MARGIN],
}

pub struct Fenced {
    memory: Memory,
    margins: [[u8; MARGIN]; 2],
}

fn drawn<const N: usize>(random: &mut Random) -> [u8; N] {
    std::array::from_fn(|_| random.byte())
}

impl Fenced {
    /// Random bytes for a state between two margins of random bytes.
    pub fn new(random: &mut Random) -> Fenced {
        let bytes = drawn(random);
        Fenced::around(random, bytes)
    }

    pub fn around(random: &mut Random, bytes: [u8; STATE_SIZE]) -> Fenced {
        let margins = [drawn(random), drawn(random)];
        Fenced {
            memory: Memory {
                before: margins[0],
                state: State::from_bytes(bytes),
                after: margins[1],
            },
            margins,
        }
    }

    pub fn state(&self) -> &State {
        &self.memory.state
    }

    pub fn state_mut(&mut self) -> &mut State {
        &mut self.memory.state
    }

    pub fn bytes(&self) -> [u8; STATE_SIZE] {
        self.memory.state.bytes()
    }

    /// Checks the state's bytes, and that those around them are as they were.
    pub fn assert_bytes(&self, expected: &[u8; STATE_SIZE], what: &str) {
        assert_eq!(self.bytes(), *expected, "state after {what}");
        let margins = [self.memory.before, self.memory.after];
        assert_eq!(margins, self.margins, "bytes around the state, {what}");
    }
}
