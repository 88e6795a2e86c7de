//! Types at locks whose codes have two or three different keys, so that mismatches
//! come all the time, and puts everything in between that the lock must not
//! mind. An open lock is soon shut again.

use crate::event::{Event, kind};
use crate::few_keys;
use crate::keys;
use crate::lists;
use crate::mismatch_coverage::MismatchCoverage;
use crate::random::Random;
use crate::under_settings::locks;
use crate::unguided;
use model::{Controller, Pending, cell, mode};

pub struct Typist {
    random: Random,
    /// What the codes to be loaded are made of.
    bytes: Vec<u8>,
    /// The code being loaded.
    code: Vec<u8>,
    /// Share of keys, in percent, that are typed with care, so are right.
    care: usize,
    /// Keys to be typed next, whatever the position, the last of them first.
    blindly: Vec<u8>,
}

/// How much care is taken with one code.
const CARE: [usize; 3] = [70, 85, 95];

impl Typist {
    pub fn new(seed: u64) -> Typist {
        let mut random = Random::new(seed);
        let bytes = few_keys::draw_bytes(&mut random);
        let care = random.pick(&CARE);
        Typist {
            random,
            bytes,
            code: Vec::new(),
            care,
            blindly: Vec::new(),
        }
    }

    /// What the codes to be loaded are made of.
    pub fn bytes(&self) -> &[u8] {
        &self.bytes
    }

    pub fn next(&mut self, state: &Controller) -> Event {
        if state.locked {
            self.while_locked(state)
        } else if state.sending.is_some() {
            Event::new(kind::BYTE_TAKEN, 0)
        } else if state.pending != Pending::None {
            Event::data(self.data_byte(state))
        } else if state.full && self.random.chance(90) {
            Event::read()
        } else {
            self.while_open(state)
        }
    }

    fn while_open(&mut self, state: &Controller) -> Event {
        self.blindly.clear();
        let loaded = !state.password.is_empty();
        match self.random.below(100) {
            _ if state.mode(mode::KEYBOARD_OFF) => Event::command(0xAE),
            0..=39 if loaded => Event::command(0xA6),
            0..=79 => self.load(state),
            80..=91 => self.setting(),
            92..=94 => self.pins(80),
            95..=97 => Event::key(self.random.byte()),
            _ => Event::status(),
        }
    }

    /// The code has none of the ignored keys, with which it would not open.
    fn load(&mut self, state: &Controller) -> Event {
        let ignored = |byte: &u8| !keys::counts(state, *byte);
        while self.bytes.iter().any(ignored) {
            self.bytes = few_keys::draw_bytes(&mut self.random);
        }
        let length = few_keys::draw_length(&mut self.random);
        self.code = few_keys::draw_code(&mut self.random, &self.bytes, length);
        self.care = self.random.pick(&CARE);
        Event::command(0xA5)
    }

    /// A command that sets what matters at the lock: the command byte, the
    /// notices, the ignored keys, the mouse.
    fn setting(&mut self) -> Event {
        let commands = [0x60, 0x60, 0x73, 0x74, 0x76, 0x77, 0xA8];
        Event::command(self.random.pick(&commands))
    }

    fn data_byte(&mut self, state: &Controller) -> u8 {
        match state.pending {
            Pending::Password => self.code.get(state.password.len()).copied().unwrap_or(0),
            Pending::Mode => self.random.byte() & !mode::KEYBOARD_OFF,
            Pending::Cell(number) if cell::IGNORED.contains(&number.into()) => {
                few_keys::draw_other(&mut self.random, &self.bytes)
            }
            _ => self.random.pick(&[0x00, 0xC3]),
        }
    }

    /// The key switch not turned in so many of a hundred.
    fn pins(&mut self, not_turned: usize) -> Event {
        let pins = self.random.byte();
        let turned = !self.random.chance(not_turned);
        Event::pins(if turned { pins & 0x7F } else { pins | 0x80 })
    }

    fn while_locked(&mut self, state: &Controller) -> Event {
        if state.full && self.random.chance(80) {
            return Event::read();
        }
        if state.inhibited() && self.random.chance(40) {
            return self.pins(100);
        }
        if let Some(key) = self.blindly.pop() {
            return Event::key(key);
        }
        if self.random.chance(20) {
            return self.interruption(state);
        }
        Event::key(self.key(state))
    }

    fn key(&mut self, state: &Controller) -> u8 {
        let right = keys::right_key(state);
        if let Some(right) = right.filter(|_| self.random.chance(self.care)) {
            return right;
        }
        let mismatch = keys::mismatch_key(state, &mut self.random);
        match self.random.below(8) {
            0..=4 => mismatch.or(right),
            5 => right,
            6 => Some(keys::foreign_key(state, &mut self.random)),
            _ => None,
        }
        .unwrap_or_else(|| keys::wrong_key(state, &mut self.random))
    }

    /// What may come between the keys. Only damage has them lost.
    fn interruption(&mut self, state: &Controller) -> Event {
        match self.random.below(20) {
            0..=2 => unguided::noise(&mut self.random),
            3..=5 => Event::key(0xF0),
            6..=7 => self.ignored_key(state),
            8..=9 => self.pins(0),
            10 => self.damage(state),
            11 => Event::mouse(self.random.byte()),
            12 => Event::new(kind::MOUSE_FRAME, unguided::damaged_frame(&mut self.random)),
            13..=14 => self.too_large(state),
            15 => Event::command(self.random.pick(&[0xA5, 0xA6, 0xAA, 0xAD])),
            16 => Event::data(self.random.byte()),
            17 => Event::new(kind::BYTE_TAKEN, 0),
            18 => Event::read(),
            _ => unguided::any(&mut self.random),
        }
    }

    /// Every other time the code is typed on as if nothing had come.
    fn damage(&mut self, state: &Controller) -> Event {
        if self.random.chance(50) {
            let rest = state.password.bytes().iter().skip(state.position());
            let table = &state.settings.table;
            let keys = rest.rev().filter_map(|&byte| keys::key_for(table, byte));
            self.blindly = keys.collect();
        }
        let frame = unguided::damaged_frame(&mut self.random);
        Event::new(kind::KEYBOARD_FRAME, frame)
    }

    fn ignored_key(&mut self, state: &Controller) -> Event {
        let code = state.ram[self.random.pick(&cell::IGNORED)];
        Event::key(keys::key_for(&state.settings.table, code).unwrap_or(0x12))
    }

    /// A key like any other but for a bit that no frame has.
    fn too_large(&mut self, state: &Controller) -> Event {
        let key = self.key(state);
        Event::new(kind::KEYBOARD_FRAME, model::frame(key) | 0x800)
    }
}

/// Nothing more comes of a lock that cannot open, or of one that is open where
/// no events shut it.
pub fn done(state: &Controller) -> bool {
    lists::stuck(state) || !locks(state.settings) && !state.locked && !state.full
}

/// At most `length` events from a state, which is left as after them.
pub fn list_from(
    state: &mut Controller,
    seed: u64,
    length: usize,
    coverage: &mut MismatchCoverage,
) -> Vec<u8> {
    let mut typist = Typist::new(seed);
    let mut list = Vec::new();
    coverage.start(state);
    while list.len() < length * model::EVENT_SIZE && !done(state) {
        let event = typist.next(state);
        let before = state.clone();
        let refusal = state.event(event.kind, event.value)[0];
        coverage.note(&before, event, refusal, state);
        list.extend(event.to_bytes());
    }
    list
}
