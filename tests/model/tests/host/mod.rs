//! A host that drives the model; every event must be accepted unless asked.
#![allow(dead_code)]

pub mod busy;
pub mod saved;
pub mod tables;

use model::{Controller, Settings, frame};

/// AT mode with the first set, without and with the mouse lock.
pub const IN_AT_MODE: [Settings; 2] = [Settings::AT_MODE, Settings::AT_MODE_AND_MOUSE_LOCK];
/// PS/2 mode, likewise.
pub const IN_PS2_MODE: [Settings; 2] = [Settings::ORDINARY, Settings::MOUSE_LOCK];

/// The first set in both modes.
pub const FIRST_SET: [Settings; 4] = [
    Settings::ORDINARY,
    Settings::MOUSE_LOCK,
    Settings::AT_MODE,
    Settings::AT_MODE_AND_MOUSE_LOCK,
];

/// The second set in PS/2 mode, and in AT mode.
pub const SECOND_SET_IN_PS2_MODE: [Settings; 2] =
    [Settings::SECOND_SET, Settings::SECOND_SET_AND_MOUSE_LOCK];
pub const SECOND_SET_IN_AT_MODE: [Settings; 2] = [
    Settings::SECOND_SET_IN_AT_MODE,
    Settings::SECOND_SET_IN_AT_MODE_AND_MOUSE_LOCK,
];
/// The second set in both modes.
pub const SECOND_SET: [Settings; 4] = [
    Settings::SECOND_SET,
    Settings::SECOND_SET_AND_MOUSE_LOCK,
    Settings::SECOND_SET_IN_AT_MODE,
    Settings::SECOND_SET_IN_AT_MODE_AND_MOUSE_LOCK,
];

pub struct Host {
    pub state: Controller,
}

/// The parts of an answer by name.
#[derive(Clone, Copy, Debug, PartialEq, Eq)]
pub struct Answer {
    pub refusal: u8,
    pub byte: u8,
    pub old: u8,
    pub status: u8,
    pub port: u8,
    pub pulse: u8,
    pub destination: u8,
    pub frame: u16,
}

impl Host {
    /// Fresh, with the ordinary settings.
    pub fn fresh() -> Host {
        Host::started(Settings::ORDINARY)
    }

    pub fn started(settings: Settings) -> Host {
        Host {
            state: Controller::fresh(settings),
        }
    }

    /// Fresh, with the keyboard and the mouse switched on.
    pub fn ready() -> Host {
        Host::ready_under(Settings::ORDINARY)
    }

    /// The same with the given settings; in AT mode the mouse stays off.
    pub fn ready_under(settings: Settings) -> Host {
        let mut host = Host::started(settings);
        host.command(0xAE);
        host.command(0xA8);
        host
    }

    /// Ready, with a code loaded and the lock closed.
    pub fn locked_with(code: &[u8]) -> Host {
        let mut host = Host::ready();
        host.lock(code);
        host
    }

    /// Loads a code and closes the lock.
    pub fn lock(&mut self, code: &[u8]) {
        self.load(code);
        self.command(0xA6);
        assert!(self.state.locked);
    }

    pub fn event(&mut self, kind: u8, value: u16) -> Answer {
        let raw = self.state.event(kind, value);
        Answer {
            refusal: raw[0],
            byte: raw[1],
            old: raw[2],
            status: raw[3],
            port: raw[4],
            pulse: raw[5],
            destination: raw[6],
            frame: u16::from_le_bytes([raw[7], raw[8]]),
        }
    }

    fn accepted(&mut self, kind: u8, value: u16) -> Answer {
        let answer = self.event(kind, value);
        assert_eq!(answer.refusal, 0, "kind {kind} value {value:X}");
        answer
    }

    pub fn read(&mut self) -> Answer {
        self.accepted(0, 0)
    }

    pub fn data(&mut self, byte: u8) -> Answer {
        self.accepted(1, byte.into())
    }

    pub fn status(&mut self) -> Answer {
        self.accepted(2, 0)
    }

    pub fn command(&mut self, byte: u8) -> Answer {
        self.accepted(3, byte.into())
    }

    pub fn command_with(&mut self, byte: u8, data: u8) -> Answer {
        self.command(byte);
        self.data(data)
    }

    pub fn key(&mut self, byte: u8) -> Answer {
        self.accepted(4, frame(byte))
    }

    pub fn keys(&mut self, bytes: &[u8]) {
        for &byte in bytes {
            self.key(byte);
        }
    }

    pub fn keyboard_frame(&mut self, value: u16) -> Answer {
        self.accepted(4, value)
    }

    pub fn mouse(&mut self, byte: u8) -> Answer {
        self.accepted(5, frame(byte))
    }

    pub fn mouse_frame(&mut self, value: u16) -> Answer {
        self.accepted(5, value)
    }

    pub fn taken(&mut self) -> Answer {
        self.accepted(6, 0)
    }

    pub fn timed_out(&mut self) -> Answer {
        self.accepted(7, 0)
    }

    pub fn pins(&mut self, value: u8) -> Answer {
        self.accepted(8, value.into())
    }

    pub fn load(&mut self, code: &[u8]) {
        self.command(0xA5);
        for &byte in code {
            self.data(byte);
        }
        self.data(0);
    }

    /// Every noise frame of a kind: accepted, with the lines as they stand and
    /// nothing changed.
    pub fn assert_noise_does_nothing(&mut self, kind: u8) {
        self.assert_noise_is_answered(kind, 0);
    }

    /// Every noise frame of a kind: refused by 5, with nothing changed.
    pub fn assert_noise_is_refused(&mut self, kind: u8) {
        self.assert_noise_is_answered(kind, 5);
    }

    pub fn assert_noise_is_answered(&mut self, kind: u8, refusal: u8) {
        let before = self.state.clone();
        let mut expected = before.lines();
        expected[0] = refusal;
        for value in (1..0x800).step_by(2) {
            let answer = self.state.event(kind, value);
            assert_eq!(answer, expected, "kind {kind} value {value:03X}");
            assert_eq!(self.state, before, "kind {kind} value {value:03X}");
        }
    }

    /// FAh with a password, F1h without.
    pub fn password_test(&mut self) -> u8 {
        self.command(0xA4);
        self.read().byte
    }
}
