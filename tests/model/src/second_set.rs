//! The commands that the VT82C42 adds, after its data sheet. Whether they act is
//! for `command_set.rs` to say.

use crate::controller::{Controller, Device};

impl Controller {
    pub(crate) fn act_in_second_set(&mut self, command: u8) {
        match command {
            0x90..=0x9F => self.write_low_latches_1(command),
            0xA1 | 0xAF => self.put(self.settings.version, Device::Keyboard),
            0xB0..=0xBF => self.write_one_latch(command),
            0xC8 => self.output_port_allowed = true,
            0xC9 => self.output_port_allowed = false,
            0xCA => self.put(u8::from(!self.settings.at_mode), Device::Keyboard),
            0xE1..=0xEF => self.write_three_latches(command),
            _ => {}
        }
    }

    /// B0h-B7h write 0 and B8h-BFh write 1, each to the line that has its place
    /// among eight. P22 and P23 stand between P13 and P14.
    fn write_one_latch(&mut self, command: u8) {
        let one = command >= 0xB8;
        match command & 7 {
            4 => self.latch_22 = one,
            5 => self.latch_23 = one,
            6 => self.write_latch_1(4, one),
            7 => self.write_latch_1(5, one),
            line => self.write_latch_1(line, one),
        }
    }

    /// P21, P22 and P23 from the bits with their numbers, whether or not D1h may
    /// write them. Bit 0 is not P20's here.
    fn write_three_latches(&mut self, command: u8) {
        self.latch_21 = command & 2 != 0;
        self.latch_22 = command & 4 != 0;
        self.latch_23 = command & 8 != 0;
    }
}
