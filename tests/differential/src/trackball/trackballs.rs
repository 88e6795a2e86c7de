//! A trackball that the library changes in place and one of the model, driven
//! together. Every call compares all that it hands back and every byte.

use crate::random::Random;
use crate::trackball::act::Act;
use crate::trackball::lent::Lent;
use model::{Reply, TRACKBALL_SIZE, Trackball};

const MARGIN: usize = 16;

/// Known bytes stand around the library's.
#[repr(C)]
struct Memory {
    before: [u8; MARGIN],
    trackball: calugnid::Trackball,
    after: [u8; MARGIN],
}

pub struct Trackballs {
    pub model: Trackball,
    memory: Memory,
    margins: [[u8; MARGIN]; 2],
    lent: Lent,
    /// How many frames the last call wrote.
    count: usize,
    random: Random,
}

fn drawn<const N: usize>(random: &mut Random) -> [u8; N] {
    std::array::from_fn(|_| random.byte())
}

impl Trackballs {
    /// Any bytes.
    pub fn new(random: &mut Random) -> Trackballs {
        let margins = [drawn(random), drawn(random)];
        let bytes = drawn(random);
        Trackballs {
            model: Trackball::from_bytes(bytes),
            memory: Memory {
                before: margins[0],
                trackball: calugnid::Trackball::from_bytes(bytes),
                after: margins[1],
            },
            margins,
            lent: Lent::new(random),
            count: 0,
            random: Random::new(random.word().into()),
        }
    }

    /// A fresh trackball, made where any bytes were.
    pub fn started(random: &mut Random) -> Trackballs {
        let mut both = Trackballs::new(random);
        both.start();
        both
    }

    /// Makes both what six bytes stand for.
    pub fn set(&mut self, bytes: [u8; TRACKBALL_SIZE]) {
        self.model = Trackball::from_bytes(bytes);
        self.memory.trackball = calugnid::Trackball::from_bytes(bytes);
    }

    pub fn start(&mut self) {
        let before = self.memory.trackball.bytes();
        self.memory.trackball.start();
        self.model = Trackball::FRESH;
        let after = self.memory.trackball.bytes();
        assert_eq!(after, self.model.bytes(), "a start over {before:02X?}");
        self.assert_margins();
    }

    /// One call; hands back the bytes that it gives.
    pub fn act(&mut self, act: Act) -> Reply {
        let before = self.memory.trackball.bytes();
        let reply = act.on(&mut self.model);
        self.lent = Lent::new(&mut self.random);
        self.count = self.by_library(act);
        let given = reply.bytes();
        assert_eq!(self.count, given.len(), "{act:?} on {before:02X?}");
        let written = self.lent.written(self.count);
        let right = self.lent.holds(&reply);
        assert!(right, "{written:03X?} by {act:?} on {before:02X?}");
        let after = self.memory.trackball.bytes();
        let expected = self.model.bytes();
        assert_eq!(after, expected, "after {act:?} on {before:02X?}");
        self.assert_margins();
        reply
    }

    /// A move is lent no frames and hands nothing back.
    fn by_library(&mut self, act: Act) -> usize {
        let trackball = &mut self.memory.trackball;
        match act {
            Act::Move { buttons, x, y } => {
                trackball.move_by(buttons, x, y);
                0
            }
            Act::Send(byte) => trackball.send(byte, self.lent.frames()),
            Act::Report => trackball.report(self.lent.frames()),
        }
    }

    /// The frames that the library wrote at the last call.
    pub fn frames(&self) -> &[u16] {
        self.lent.written(self.count)
    }

    fn assert_margins(&self) {
        let margins = [self.memory.before, self.memory.after];
        assert_eq!(margins, self.margins, "bytes around a trackball");
    }
}
