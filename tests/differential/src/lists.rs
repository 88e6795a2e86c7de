//! Whole lists, each built beside a model that says where it stands.

use crate::coverage::Coverage;
use crate::event::Event;
use crate::keys;
use crate::random::Random;
use crate::unguided;
use crate::walker::Walker;
use model::{Controller, Settings};

/// Most lists are short, some as long as can be.
pub fn choose_length(random: &mut Random) -> usize {
    match random.below(10) {
        0 => random.below(8),
        1..=4 => random.below(200),
        5..=7 => random.below(2_000),
        8 => random.below(7_001),
        _ => 6_990 + random.below(11),
    }
}

/// A lock that cannot open wastes the rest of a list.
pub fn stuck(state: &Controller) -> bool {
    state.locked && !keys::can_open(state)
}

/// A list of at most `length` events that follows the machine from fresh.
pub fn guided(settings: Settings, seed: u64, length: usize, coverage: &mut Coverage) -> Vec<u8> {
    guided_from(&mut Controller::fresh(settings), seed, length, coverage)
}

/// The same from a given state, which is left as after the list.
pub fn guided_from(
    state: &mut Controller,
    seed: u64,
    length: usize,
    coverage: &mut Coverage,
) -> Vec<u8> {
    let mut walker = Walker::new(seed);
    let mut random = Random::new(!seed);
    let mut list = Vec::new();
    for _ in 0..length {
        let event = walker.next(state);
        let before = state.clone();
        let answer = state.event(event.kind, event.value);
        coverage.note(&before, event, answer[0], state);
        list.extend(event.to_bytes());
        if stuck(state) && random.chance(3) {
            break;
        }
    }
    list
}

/// A list of events drawn without a look at the state.
pub fn unguided(random: &mut Random, length: usize) -> Vec<u8> {
    let draw = |_| -> [u8; 3] {
        let event: Event = match random.below(4) {
            0 => unguided::malformed(random),
            _ => unguided::well_formed(random),
        };
        event.to_bytes()
    };
    (0..length).flat_map(draw).collect()
}
