//! Why an event is turned down. The first reason that holds is the one given.

use crate::controller::{Controller, mode};

const LAST_KIND: u8 = 8;

fn largest_value(kind: u8) -> u16 {
    match kind {
        1 | 3 | 8 => 0xFF,
        4 | 5 => 0x7FF,
        _ => 0,
    }
}

impl Controller {
    /// The refusal number of an event, 0 when it is accepted.
    pub fn refusal(&self, kind: u8, value: u16) -> u8 {
        if kind > LAST_KIND {
            return 1;
        }
        if value > largest_value(kind) {
            return 2;
        }
        match kind {
            1 | 3 => self.write_refusal(),
            4 => self.frame_refusal(mode::KEYBOARD_OFF),
            // AT mode has no mouse, so nothing else about its frame is asked.
            5 if self.settings.at_mode => 12,
            5 => self.frame_refusal(mode::MOUSE_OFF),
            6 | 7 if self.sending.is_none() => 6,
            _ => 0,
        }
    }

    fn write_refusal(&self) -> u8 {
        if self.sending.is_some() {
            3
        } else if self.locked {
            4
        } else {
            0
        }
    }

    fn frame_refusal(&self, off_bit: u8) -> u8 {
        if self.mode(off_bit) || self.full || self.sending.is_some() {
            5
        } else {
            0
        }
    }
}
