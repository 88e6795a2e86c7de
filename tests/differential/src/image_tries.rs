//! Every call that reads an image, on the same bytes.

use crate::both;
use crate::compare::{self, Room};
use crate::given::Given;
use crate::random::Random;
use crate::under_settings::all;
use model::{EDITION_1_SIZE, IMAGE_SIZE, Settings};

/// Reads, a command and a key: enough to show what was loaded.
const LIST: [u8; 15] = [2, 0, 0, 0, 0, 0, 3, 0x20, 0, 0, 0, 0, 4, 0x38, 0x04];

/// What loads and moves of images are refused by, none being 0.
type Counts = [usize; 17];

pub struct ImageTries {
    pub random: Random,
    given: Vec<Settings>,
    loads: Counts,
    moves: Counts,
}

impl ImageTries {
    pub fn new(seed: u64) -> ImageTries {
        ImageTries {
            random: Random::new(seed),
            given: all(),
            loads: [0; 17],
            moves: [0; 17],
        }
    }

    /// The finder, a load, a run and both moves, with a version byte and a table
    /// that are sound; hands back the number that refuses a load.
    pub fn image(&mut self, bytes: &[u8]) -> u8 {
        compare::find(bytes);
        let index = self.random.below(self.given.len());
        let settings = self.given[index];
        let given = Given::again(&settings);
        let room = Room::enough(&mut self.random, &LIST);
        let run = compare::run_image(&mut self.random, given, bytes, &LIST, room);
        let refusal = self.load(given, bytes);
        assert_eq!(run.refusal, refusal, "run and load of {bytes:02X?}");
        self.both_moves(bytes);
        refusal
    }

    /// A load alone, where there is much to try.
    pub fn load(&mut self, given: Given, bytes: &[u8]) -> u8 {
        let refusal = both::load(&mut self.random, given, bytes);
        self.loads[usize::from(refusal)] += 1;
        refusal
    }

    fn both_moves(&mut self, bytes: &[u8]) {
        let spare = self.random.pick(&[0, 0, 1, 32]);
        let random = &mut self.random;
        let forward = compare::move_to_edition_2(random, bytes, IMAGE_SIZE + spare);
        let back = compare::move_to_edition_1(random, bytes, EDITION_1_SIZE + spare);
        for moved in [forward, back] {
            self.moves[usize::from(moved.err().unwrap_or(0))] += 1;
        }
    }

    pub fn loads(&self, refusal: u8) -> usize {
        self.loads[usize::from(refusal)]
    }

    pub fn moves(&self, refusal: u8) -> usize {
        self.moves[usize::from(refusal)]
    }

    pub fn print(&self) {
        println!("loads {:?}, moves {:?}", self.loads, self.moves);
    }
}
