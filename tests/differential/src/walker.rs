//! Chooses events that make sense in the state at hand.

mod at_mode;
mod second_set;

use crate::event::{Event, kind};
use crate::keys;
use crate::random::Random;
use crate::unguided;
use model::{Controller, Pending, cell, mode};

/// Commands that take part in something longer.
const COMMANDS: [u8; 28] = [
    0x20, 0x60, 0x60, 0x73, 0x74, 0x76, 0x77, 0xA4, 0xA5, 0xA5, 0xA5, 0xA6, 0xA7, 0xA8, 0xA8, 0xA9,
    0xAA, 0xAB, 0xAD, 0xAE, 0xAE, 0xC0, 0xC1, 0xC2, 0xD0, 0xD1, 0xE0, 0xF0,
];

pub struct Walker {
    random: Random,
    /// Share of events, in percent, that do not follow the state.
    stray: usize,
    /// Nonzero bytes wanted in the code being loaded.
    code_length: usize,
    /// Share of these, in percent, that repeat another.
    repeats: usize,
    /// A command that the settings switch off has come, and no byte after it.
    data_due: bool,
}

/// Share of events, in percent, that are noise: some in every state, more
/// where there is something that noise could spoil.
fn noise_share(state: &Controller) -> usize {
    let time_out = state.transmit_timeout || state.timeout_error;
    let flagged = time_out || state.parity_error || state.break_flag;
    match (flagged, state.position() > 0) {
        (false, false) => 2,
        (true, true) => 25,
        _ => 6,
    }
}

impl Walker {
    pub fn new(seed: u64) -> Walker {
        let mut random = Random::new(seed);
        let stray = random.pick(&[0, 2, 10, 40]);
        Walker {
            random,
            stray,
            code_length: 0,
            repeats: 0,
            data_due: false,
        }
    }

    pub fn next(&mut self, state: &Controller) -> Event {
        if self.random.chance(self.stray) {
            return unguided::any(&mut self.random);
        }
        if self.random.chance(noise_share(state)) {
            return unguided::noise(&mut self.random);
        }
        if state.locked {
            self.while_locked(state)
        } else if let Some(event) = self.of_second_set(state) {
            event
        } else if state.settings.at_mode {
            self.while_open_in_at_mode(state)
        } else if state.sending.is_some() {
            self.while_sending()
        } else if state.pending != Pending::None {
            self.with_pending(state)
        } else if state.full && self.random.chance(70) {
            Event::read()
        } else {
            self.while_idle(state)
        }
    }

    /// Reads and moves that are good at any time.
    fn anything(&mut self) -> Event {
        match self.random.below(6) {
            0 => Event::read(),
            1 | 2 => Event::status(),
            3 => Event::pins(self.random.byte()),
            4 => unguided::malformed(&mut self.random),
            _ => unguided::well_formed(&mut self.random),
        }
    }

    fn while_sending(&mut self) -> Event {
        match self.random.below(10) {
            0..=3 => Event::new(kind::BYTE_TAKEN, 0),
            4..=6 => Event::new(kind::BYTE_TIMED_OUT, 0),
            7 => Event::command(self.random.byte()),
            8 => Event::data(self.random.byte()),
            _ => self.anything(),
        }
    }

    fn while_locked(&mut self, state: &Controller) -> Event {
        if state.full && self.random.chance(70) {
            return Event::read();
        }
        if state.inhibited() && self.random.chance(30) {
            return Event::pins(self.random.byte() | 0x80);
        }
        match self.random.below(100) {
            0..=75 => Event::key(keys::right_key(state).unwrap_or(0x1C)),
            76..=81 => Event::key(self.wrong_key(state)),
            82..=85 => Event::key(0xF0),
            86..=87 => Event::key(self.random.byte()),
            88 => Event::key(self.random.pick(&[0x00, 0x83, 0x84, 0xE0])),
            89 => Event::key(self.ignored_key(state)),
            90 => Event::new(
                kind::KEYBOARD_FRAME,
                unguided::damaged_frame(&mut self.random),
            ),
            91..=92 => self.mouse_frame(),
            93 => Event::pins(self.random.byte() & 0x7F),
            94 => Event::command(self.random.byte()),
            95 => Event::data(self.random.byte()),
            _ => self.anything(),
        }
    }

    /// Mostly one of the code's own keys, of which a part may be kept.
    fn wrong_key(&mut self, state: &Controller) -> u8 {
        let mismatch = keys::mismatch_key(state, &mut self.random);
        let mismatch = mismatch.filter(|_| self.random.chance(70));
        mismatch.unwrap_or_else(|| keys::wrong_key(state, &mut self.random))
    }

    /// A key whose code stands in one of the cells that a try ignores.
    fn ignored_key(&mut self, state: &Controller) -> u8 {
        let code = state.ram[self.random.pick(&cell::IGNORED)];
        keys::key_for(&state.settings.table, code).unwrap_or(0x12)
    }

    fn mouse_frame(&mut self) -> Event {
        if self.random.chance(30) {
            Event::new(kind::MOUSE_FRAME, unguided::damaged_frame(&mut self.random))
        } else {
            Event::mouse(self.random.byte())
        }
    }

    fn with_pending(&mut self, state: &Controller) -> Event {
        if self.random.chance(4) {
            return self.anything();
        }
        if self.random.chance(1) {
            return self.command();
        }
        let byte = match state.pending {
            Pending::Password => self.code_byte(state),
            Pending::Mode => self.mode_byte(),
            Pending::Cell(number) => self.cell_byte(number.into(), state),
            _ => self.random.byte(),
        };
        Event::data(byte)
    }

    fn code_byte(&mut self, state: &Controller) -> u8 {
        let code = state.password.bytes();
        if code.len() >= self.code_length {
            return 0;
        }
        if !code.is_empty() && self.random.chance(self.repeats) {
            return self.random.pick(code);
        }
        match self.random.below(100) {
            0 => self.random.byte_in(0x80..=0xFF),
            1 => state.ram[self.random.pick(&cell::IGNORED)],
            _ => self.random.byte_in(0x01..=0x7F),
        }
    }

    /// Mostly with the devices on, so that frames get through.
    fn mode_byte(&mut self) -> u8 {
        let byte = self.random.byte();
        match self.random.below(4) {
            0 => byte,
            1 => byte & !mode::KEYBOARD_OFF,
            _ => byte & !(mode::KEYBOARD_OFF | mode::MOUSE_OFF) | mode::TRANSLATE,
        }
    }

    /// The ignored cells take low codes, now and then one of the password.
    fn cell_byte(&mut self, number: usize, state: &Controller) -> u8 {
        if !cell::IGNORED.contains(&number) {
            return if self.random.chance(30) {
                0
            } else {
                self.random.byte()
            };
        }
        let code = state.password.bytes();
        if !code.is_empty() && self.random.chance(10) {
            return self.random.pick(code);
        }
        self.random.byte_in(0x00..=0x7F)
    }

    fn while_idle(&mut self, state: &Controller) -> Event {
        if !state.password.is_empty() && self.random.chance(8) {
            return self.lock_soon(state);
        }
        match self.random.below(100) {
            0..=39 => self.command(),
            40..=49 if state.mode(mode::KEYBOARD_OFF) => Event::command(0xAE),
            40..=64 => Event::key(self.random.byte()),
            65..=69 => Event::key(self.random.pick(&[0xF0, 0x83, 0x84, 0x00, 0xAB])),
            70..=74 => Event::new(
                kind::KEYBOARD_FRAME,
                unguided::damaged_frame(&mut self.random),
            ),
            75..=79 if state.mode(mode::MOUSE_OFF) => Event::command(0xA8),
            75..=84 => self.mouse_frame(),
            85..=89 => Event::data(self.random.byte()),
            90..=92 => self.key_switch(),
            _ => self.anything(),
        }
    }

    /// Mostly turned back, so that keys get through.
    fn key_switch(&mut self) -> Event {
        let pins = self.random.byte();
        let turned = self.random.chance(25);
        Event::pins(if turned { pins & 0x7F } else { pins | 0x80 })
    }

    /// Locks, after switching the keyboard on so that the lock can open.
    fn lock_soon(&mut self, state: &Controller) -> Event {
        if state.mode(mode::KEYBOARD_OFF) && self.random.chance(90) {
            Event::command(0xAE)
        } else {
            Event::command(0xA6)
        }
    }

    fn command(&mut self) -> Event {
        let command = match self.random.below(10) {
            0 => self.random.byte(),
            1 => self.random.byte_in(0x20..=0x3F),
            2 => self.random.byte_in(0x60..=0x7F),
            3 => self.random.byte_in(0xD0..=0xD4),
            4 => self.random.byte_in(0xF0..=0xFF),
            _ => self.random.pick(&COMMANDS),
        };
        if command == 0xA5 {
            self.code_length = self.choose_code_length();
            self.repeats = self.random.pick(&[0, 0, 75]);
        }
        Event::command(command)
    }

    /// Short codes open often; the long ones try the limit.
    fn choose_code_length(&mut self) -> usize {
        match self.random.below(10) {
            0..=4 => 1 + self.random.below(4),
            5..=7 => self.random.below(18),
            _ => 15 + self.random.below(3),
        }
    }
}
