//! P1, the input port: its pins, and the latches that the second set has for
//! P10-P15.

use crate::controller::Controller;

/// The lines of P1 that have a latch.
pub(crate) const LATCHED: u8 = 0x3F;

/// The line of P1 that the key switch is on.
const KEY_SWITCH: u8 = 1 << 7;

/// The lines that a poll of the second set copies, as bits of its nibble. It
/// leaves the lowest out, whose place in the status is the key switch's.
const POLLED_IN_SECOND_SET: u8 = 0b1110;

impl Controller {
    /// P1 as everything reads it. A latch that is 0 pulls its line low; the
    /// first set has none, so its lines are the pins.
    pub fn input_port(&self) -> u8 {
        if self.settings.second_set {
            self.pins & (self.latches_1 | !LATCHED)
        } else {
            self.pins
        }
    }

    /// The key switch is turned to its locking side, where its line is low.
    pub fn key_turned(&self) -> bool {
        self.input_port() & KEY_SWITCH == 0
    }

    /// Shows half of P1, bit 0 of the nibble being the lowest line, in place of
    /// the upper half of the status.
    pub(crate) fn poll(&mut self, nibble: u8) {
        let copied = if self.settings.second_set {
            POLLED_IN_SECOND_SET
        } else {
            0x0F
        };
        self.overlay = Some(nibble & copied);
    }

    /// Writes the latch of one of P10-P15.
    pub(crate) fn write_latch_1(&mut self, line: u8, one: bool) {
        let bit = 1 << line;
        if one {
            self.latches_1 |= bit;
        } else {
            self.latches_1 &= !bit;
        }
    }

    /// Writes the latches of P10-P13 together.
    pub(crate) fn write_low_latches_1(&mut self, nibble: u8) {
        self.latches_1 = self.latches_1 & !0x0F | nibble & 0x0F;
    }
}
