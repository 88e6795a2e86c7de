//! The latches of the output port as D1h writes them, and what F0h-FFh pulse.

use crate::controller::Controller;

/// The lines of P2 that a mode lets the commands pulse.
const PULSED_IN_PS2_MODE: u8 = 0b0011;
const PULSED_IN_AT_MODE: u8 = 0b1111;

impl Controller {
    /// P25 is no latch in PS/2 mode, so it stays there as it was when fresh.
    pub(crate) fn write_latches(&mut self, byte: u8) {
        let line = |number: u8| byte >> number & 1 != 0;
        self.latch_20 = line(0);
        self.latch_21 = line(1);
        if self.may_write_p22_and_p23() {
            self.latch_22 = line(2);
            self.latch_23 = line(3);
        }
        if self.settings.at_mode {
            self.latch_25 = line(5);
        }
    }

    /// With the second set they are latches in both modes, and D1h has to be
    /// allowed. With the first set they are latches in AT mode only.
    fn may_write_p22_and_p23(&self) -> bool {
        if self.settings.second_set {
            self.output_port_allowed
        } else {
            self.settings.at_mode
        }
    }

    /// The pulse mask of F0h-FFh: lines whose bit of the command is 0. The
    /// latches stay.
    pub(crate) fn pulse(&self, command: u8) -> u8 {
        let lines = if self.settings.at_mode {
            PULSED_IN_AT_MODE
        } else {
            PULSED_IN_PS2_MODE
        };
        !command & lines
    }
}
