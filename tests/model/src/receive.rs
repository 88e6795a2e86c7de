//! Frames that arrive from the keyboard and the mouse.

use crate::controller::{Controller, Device, mode};
use crate::errors::Error;
use crate::frame::{Verdict, judge};

/// Put in place of a byte that arrived damaged.
const DAMAGED: u8 = 0xFF;

/// What a frame brings, noise apart.
enum Arrival {
    Byte(u8),
    Damage,
}

impl Controller {
    /// Notes the errors of a frame and tells what it brings. Noise brings
    /// nothing and leaves the errors.
    fn check_frame(&mut self, frame: u16) -> Option<Arrival> {
        let error = match judge(frame) {
            Verdict::Noise => return None,
            Verdict::Sound(byte) => {
                self.clear_errors();
                return Some(Arrival::Byte(byte));
            }
            Verdict::Broken => Error::Receive,
            Verdict::WrongParity => Error::Parity,
        };
        self.set_error(error);
        Some(Arrival::Damage)
    }

    pub(crate) fn keyboard_frame(&mut self, frame: u16) {
        match self.check_frame(frame) {
            Some(Arrival::Byte(byte)) => self.keyboard_byte(byte),
            Some(Arrival::Damage) => self.keyboard_damage(),
            None => {}
        }
    }

    /// A damaged frame ends a break sequence, and counting starts afresh.
    fn keyboard_damage(&mut self) {
        self.break_flag = false;
        self.counted.start_afresh();
        if !self.locked && !self.inhibited() {
            self.put(DAMAGED, Device::Keyboard);
        }
    }

    fn keyboard_byte(&mut self, byte: u8) {
        let Some(code) = self.scan_code(byte) else {
            return;
        };
        if self.inhibited() {
            return;
        }
        if self.locked {
            self.try_code(code);
        } else {
            self.put(code, Device::Keyboard);
        }
    }

    /// A locked controller always translates, since the password is in set 1.
    fn scan_code(&mut self, byte: u8) -> Option<u8> {
        if !self.mode(mode::TRANSLATE) && !self.locked {
            self.break_flag = false;
            return Some(byte);
        }
        let (code, break_flag) = self.settings.table.translate(byte, self.break_flag);
        self.break_flag = break_flag;
        code
    }

    pub(crate) fn mouse_frame(&mut self, frame: u16) {
        let byte = match self.check_frame(frame) {
            Some(Arrival::Byte(byte)) => byte,
            Some(Arrival::Damage) => DAMAGED,
            None => return,
        };
        if !self.locked && !self.mouse_inhibited() {
            self.put(byte, Device::Mouse);
        }
    }
}
