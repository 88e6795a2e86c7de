//! Pairs of lists that differ in secrets only.

use crate::event::{Event, kind};
use crate::few_keys;
use crate::keys;
use crate::mismatch_plan;
use crate::pair_mismatches::SeenMismatches;
use crate::premise::{is_code_byte, is_plain_key, opens};
use crate::random::Random;
use crate::typist::Typist;
use crate::walker::Walker;
use model::{Controller, Pending, Settings, Verdict, judge};
use std::cmp::Ordering;
use std::collections::VecDeque;

/// How much of what matters a number of pairs has reached.
#[derive(Clone, Debug, Default)]
pub struct PairCoverage {
    pub pairs: usize,
    /// Pairs that were locked with two different codes.
    pub locked_apart: usize,
    /// Pairs in which one list tried a right key where the other was wrong.
    pub progressed_apart: usize,
    /// Pairs in which both lists tried a wrong key, and not the same one.
    pub wrong_apart: usize,
    /// Pairs in which the lock opened.
    pub opened: usize,
    /// Pairs in which it opened for two different codes.
    pub opened_apart: usize,
    /// Pairs in which that happened more than once.
    pub reopened_apart: usize,
    /// Pairs in which two different keys were refused.
    pub refused_apart: usize,
    /// Pairs in which a mouse frame came with the key switch turned.
    pub key_turned: usize,
    /// Pairs in which noise was accepted with both lists within their codes,
    /// which differ.
    pub noise_within: usize,
    /// Pairs in which it was accepted with one list further than the other.
    pub noise_progressed_apart: usize,
    /// Pairs in which the lock opened for two different codes after noise
    /// between their keys.
    pub opened_over_noise: usize,
    /// Pairs in which one list kept a part at a wrong key where the other, at
    /// one too, lost all.
    pub kept_apart: usize,
    /// Pairs in which the lock opened after different mismatches, without which
    /// neither list would have opened it.
    pub opened_by_mismatches: usize,
    /// Those of them that did so with different codes.
    pub opened_by_mismatches_apart: usize,
}

/// What has happened so far in the pair being built.
#[derive(Default)]
struct Seen {
    locked: bool,
    progressed: bool,
    wrong: bool,
    opened: bool,
    opened_apart: usize,
    refused: bool,
    key_turned: bool,
    noise: SeenNoise,
    mismatches: SeenMismatches,
}

/// The same of noise, from either device.
#[derive(Default)]
struct SeenNoise {
    within: bool,
    progressed: bool,
    opened: bool,
    /// It came since the first keys of the codes now being typed.
    between_keys: bool,
}

pub struct Pair {
    pub first: Vec<u8>,
    pub second: Vec<u8>,
}

/// Chooses an event of the first list by a look at its state.
type Choose = Box<dyn FnMut(&Controller) -> Event>;

struct Builder {
    choose: Choose,
    /// What the second list's codes are made of, where they have few keys.
    few: Option<Vec<u8>>,
    /// Keys for both lists that open together, where such were drawn.
    planned: VecDeque<(u8, u8)>,
    random: Random,
    first: Controller,
    second: Controller,
    seen: Seen,
}

/// Builds a pair of at most `length` events, both from fresh under the same
/// settings.
pub fn build(settings: Settings, seed: u64, length: usize, coverage: &mut PairCoverage) -> Pair {
    build_from(&Controller::fresh(settings), seed, length, coverage)
}

/// The same from a given state.
pub fn build_from(
    state: &Controller,
    seed: u64,
    length: usize,
    coverage: &mut PairCoverage,
) -> Pair {
    let mut walker = Walker::new(seed);
    let choose = Box::new(move |state: &Controller| walker.next(state));
    let builder = Builder::new(choose, None, Random::new(!seed), state);
    builder.build(length, coverage)
}

/// The same with codes of few keys, so that both lists mismatch all the time. The
/// keys of their codes are the same or others.
pub fn build_with_mismatches(
    state: &Controller,
    seed: u64,
    length: usize,
    coverage: &mut PairCoverage,
) -> Pair {
    let mut typist = Typist::new(seed);
    let mut random = Random::new(!seed);
    let few = if random.chance(50) {
        typist.bytes().to_vec()
    } else {
        few_keys::draw_bytes(&mut random)
    };
    let choose = Box::new(move |state: &Controller| typist.next(state));
    Builder::new(choose, Some(few), random, state).build(length, coverage)
}

impl Seen {
    fn add_to(&self, coverage: &mut PairCoverage) {
        coverage.pairs += 1;
        coverage.locked_apart += usize::from(self.locked);
        coverage.progressed_apart += usize::from(self.progressed);
        coverage.wrong_apart += usize::from(self.wrong);
        coverage.opened += usize::from(self.opened);
        coverage.opened_apart += usize::from(self.opened_apart > 0);
        coverage.reopened_apart += usize::from(self.opened_apart > 1);
        coverage.refused_apart += usize::from(self.refused);
        coverage.key_turned += usize::from(self.key_turned);
        coverage.noise_within += usize::from(self.noise.within);
        coverage.noise_progressed_apart += usize::from(self.noise.progressed);
        coverage.opened_over_noise += usize::from(self.noise.opened);
        coverage.kept_apart += usize::from(self.mismatches.kept_apart);
        coverage.opened_by_mismatches += usize::from(self.mismatches.opened);
        coverage.opened_by_mismatches_apart += usize::from(self.mismatches.opened_apart);
    }
}

impl Builder {
    fn new(choose: Choose, few: Option<Vec<u8>>, random: Random, state: &Controller) -> Builder {
        Builder {
            choose,
            few,
            planned: VecDeque::new(),
            random,
            first: state.clone(),
            second: state.clone(),
            seen: Seen {
                mismatches: SeenMismatches::from(state),
                ..Seen::default()
            },
        }
    }

    fn build(mut self, length: usize, coverage: &mut PairCoverage) -> Pair {
        let mut pair = Pair {
            first: Vec::new(),
            second: Vec::new(),
        };
        for _ in 0..length {
            let (one, other) = self.step();
            pair.first.extend(one.to_bytes());
            pair.second.extend(other.to_bytes());
            if self.stuck() && self.random.chance(3) {
                break;
            }
        }
        self.seen.add_to(coverage);
        pair
    }

    /// Draws until both lists open the lock or neither does.
    fn step(&mut self) -> (Event, Event) {
        loop {
            let (one, other) = self.draw();
            let mut first = self.first.clone();
            let mut second = self.second.clone();
            let opened = opens(&mut first, one);
            if opened == opens(&mut second, other) {
                self.note((one, other), opened, (&first, &second));
                (self.first, self.second) = (first, second);
                return (one, other);
            }
        }
    }

    fn draw(&mut self) -> (Event, Event) {
        let event = (self.choose)(&self.first);
        if self.first.pending == Pending::Password && is_code_byte(event) {
            (event, Event::data(self.other_code_byte(event.value as u8)))
        } else if self.first.locked && is_plain_key(event) {
            self.two_keys(event)
        } else {
            (event, event)
        }
    }

    /// Mostly another byte, and one that a key can give.
    fn other_code_byte(&mut self, byte: u8) -> u8 {
        if let Some(few) = &self.few {
            return self.random.pick(few);
        }
        match self.random.below(100) {
            0..=9 => byte,
            10 => self.random.byte_in(0x01..=0xFF),
            _ => self.random.byte_in(0x01..=0x7F),
        }
    }

    /// Two keys that are mostly right or wrong together. When one list is
    /// ahead, foreign keys bring both back to the start.
    fn two_keys(&mut self, event: Event) -> (Event, Event) {
        if self.few.is_some() {
            return self.two_mismatches(event);
        }
        if self.first.position() != self.second.position() && self.random.chance(50) {
            let one = keys::foreign_key(&self.first, &mut self.random);
            let other = keys::foreign_key(&self.second, &mut self.random);
            return (Event::key(one), Event::key(other));
        }
        let Verdict::Sound(byte) = judge(event.value) else {
            return (event, event);
        };
        let first_is_right = keys::right_key(&self.first) == Some(byte);
        let together = self.random.chance(90);
        match keys::right_key(&self.second) {
            Some(right) if first_is_right == together => (event, Event::key(right)),
            _ => (event, self.wrong_in_second()),
        }
    }

    /// Two keys of which either may mismatch: keys that open together after mismatches,
    /// or such as bring the lists level.
    fn two_mismatches(&mut self, event: Event) -> (Event, Event) {
        if self.planned.is_empty() && self.random.chance(20) {
            let locks = [&self.first, &self.second];
            let keys = mismatch_plan::draw(&mut self.random, locks);
            self.planned = keys.unwrap_or_default().into();
        }
        if let Some((one, other)) = self.planned.pop_front() {
            return (Event::key(one), Event::key(other));
        }
        if self.random.chance(20) {
            let other = wrong_of_few(&self.second, &mut self.random);
            return (event, Event::key(other));
        }
        self.level_keys()
    }

    /// The list that is ahead mismatches while the other has the right key.
    fn level_keys(&mut self) -> (Event, Event) {
        let lists = [&self.first, &self.second];
        let [one, other] = lists.map(|list| wrong_of_few(list, &mut self.random));
        let right = lists.map(keys::right_key);
        let together = self.random.chance(80);
        let (one, other) = match lists[0].position().cmp(&lists[1].position()) {
            Ordering::Less => (right[0].unwrap_or(one), other),
            Ordering::Greater => (one, right[1].unwrap_or(other)),
            Ordering::Equal if together => (right[0].unwrap_or(one), right[1].unwrap_or(other)),
            Ordering::Equal => (one, other),
        };
        (Event::key(one), Event::key(other))
    }

    fn wrong_in_second(&mut self) -> Event {
        Event::key(keys::wrong_key(&self.second, &mut self.random))
    }

    /// Looks at a step by the states before it and the two after it.
    fn note(
        &mut self,
        (one, other): (Event, Event),
        opened: bool,
        (first, second): (&Controller, &Controller),
    ) {
        let codes_differ = self.first.password != self.second.password;
        let refused = self.first.refusal(one.kind, one.value) != 0;
        let keys_differ = self.first.locked && one != other;
        let positions = [first.position(), second.position()];
        let at_start = positions == [0, 0];
        self.seen.wrong |= keys_differ && !refused && !opened && at_start;
        self.seen.locked |= first.locked && codes_differ;
        self.seen.progressed |= positions[0] != positions[1];
        self.seen.opened |= opened;
        self.seen.opened_apart += usize::from(opened && codes_differ);
        self.seen.refused |= keys_differ && refused;
        let mouse_frame = one.kind == kind::MOUSE_FRAME && !refused;
        self.seen.key_turned |= mouse_frame && self.first.key_turned();
        if codes_differ {
            self.note_noise(one.is_noise() && !refused, opened);
        }
        // Other codes have too few mismatches to be looked for.
        if self.few.is_some() {
            let before = [&self.first, &self.second];
            self.seen
                .mismatches
                .note(before, [one, other], [first, second]);
        }
    }

    /// Looks for noise among the keys of two codes that differ.
    fn note_noise(&mut self, accepted_noise: bool, opened: bool) {
        let positions = [self.first.position(), self.second.position()];
        let within = positions.iter().all(|&position| position > 0);
        let seen = &mut self.seen.noise;
        seen.between_keys &= within;
        seen.between_keys |= accepted_noise && within;
        seen.within |= accepted_noise && within;
        seen.progressed |= accepted_noise && positions[0] != positions[1];
        seen.opened |= opened && seen.between_keys;
    }

    /// One of the locks cannot open, so neither may.
    fn stuck(&self) -> bool {
        self.first.locked && !(keys::can_open(&self.first) && keys::can_open(&self.second))
    }
}

/// Mostly a key that keeps as much as it can.
fn wrong_of_few(state: &Controller, random: &mut Random) -> u8 {
    let keeping = keys::keeping_key(state).filter(|_| random.chance(75));
    let mismatch = keeping.or_else(|| keys::mismatch_key(state, random));
    mismatch.unwrap_or_else(|| keys::foreign_key(state, random))
}
