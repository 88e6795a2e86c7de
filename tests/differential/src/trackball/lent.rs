//! The four numbers lent for frames, with known numbers around them.

use crate::random::Random;
use calugnid::{FRAMES, Frames};
use model::Reply;

const MARGIN: usize = 4;
const INSIDE: std::ops::Range<usize> = MARGIN..MARGIN + FRAMES;

type Numbers = [u16; MARGIN + FRAMES + MARGIN];

pub struct Lent {
    numbers: Numbers,
    original: Numbers,
}

fn inside(numbers: &mut Numbers) -> &mut Frames {
    let frames = &mut numbers[INSIDE];
    frames.try_into().expect("as many as are lent")
}

impl Lent {
    /// Random numbers between two margins of random numbers.
    pub fn new(random: &mut Random) -> Lent {
        let numbers = std::array::from_fn(|_| random.word());
        Lent {
            numbers,
            original: numbers,
        }
    }

    pub fn frames(&mut self) -> &mut Frames {
        inside(&mut self.numbers)
    }

    /// The first numbers as they are now.
    pub fn written(&self, count: usize) -> &[u16] {
        &self.numbers[INSIDE][..count]
    }

    /// Whether the first numbers are now the frames of a reply, and every other
    /// one, margins included, is as it was.
    pub fn holds(&self, reply: &Reply) -> bool {
        let mut expected = self.original;
        reply.write_frames(inside(&mut expected));
        self.numbers == expected
    }
}
