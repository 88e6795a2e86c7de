//! The six bytes of a trackball that a caller keeps.

use crate::movement::Movement;
use crate::trackball::{BUTTONS, Trackball};

pub const TRACKBALL_SIZE: usize = 6;

/// Bits of the second byte.
mod flag {
    pub const REPORTING: u8 = 1 << 0;
    pub const OVERFLOW_X: u8 = 1 << 1;
    pub const OVERFLOW_Y: u8 = 1 << 2;
}

fn flags(trackball: &Trackball) -> u8 {
    let bit = |set, bit| if set { bit } else { 0 };
    bit(trackball.reporting, flag::REPORTING)
        | bit(trackball.x.overflow, flag::OVERFLOW_X)
        | bit(trackball.y.overflow, flag::OVERFLOW_Y)
}

impl Trackball {
    pub fn bytes(&self) -> [u8; TRACKBALL_SIZE] {
        let [x_low, x_high] = self.x.sum.to_le_bytes();
        let [y_low, y_high] = self.y.sum.to_le_bytes();
        [self.buttons, flags(self), x_low, x_high, y_low, y_high]
    }

    /// What any six bytes stand for; the bits that stand for nothing are not
    /// read.
    pub fn from_bytes(bytes: [u8; TRACKBALL_SIZE]) -> Trackball {
        let [buttons, flags, x_low, x_high, y_low, y_high] = bytes;
        Trackball {
            buttons: buttons & BUTTONS,
            reporting: flags & flag::REPORTING != 0,
            x: Movement {
                sum: i16::from_le_bytes([x_low, x_high]),
                overflow: flags & flag::OVERFLOW_X != 0,
            },
            y: Movement {
                sum: i16::from_le_bytes([y_low, y_high]),
                overflow: flags & flag::OVERFLOW_Y != 0,
            },
        }
    }
}
