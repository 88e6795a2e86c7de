//! A byte written to port 60h.

use crate::controller::{Controller, Device, Pending, cell, mode};
use crate::password::Password;

impl Controller {
    pub(crate) fn write_data(&mut self, byte: u8) {
        self.command_flag = false;
        let pending = std::mem::replace(&mut self.pending, Pending::None);
        match pending {
            Pending::None => self.send_to_keyboard(byte),
            Pending::Mode => self.ram[cell::MODE] = byte & !mode::UNUSED,
            Pending::Cell(number) => self.ram[usize::from(number)] = byte,
            Pending::Password => self.load_code_byte(byte),
            Pending::OutputPort => self.write_latches(byte),
            Pending::Output => self.put(byte, Device::Keyboard),
            Pending::MouseOutput => self.put(byte, Device::Mouse),
            Pending::SendToMouse => self.sending = Some((Device::Mouse, byte)),
        }
    }

    /// Sending to the keyboard also switches it on.
    fn send_to_keyboard(&mut self, byte: u8) {
        self.sending = Some((Device::Keyboard, byte));
        self.clear_mode(mode::KEYBOARD_OFF);
    }

    /// The load goes on while bytes are nonzero and there is room.
    fn load_code_byte(&mut self, byte: u8) {
        if byte == 0 {
            return;
        }
        if self.password.push(byte) {
            self.pending = Pending::Password;
        } else {
            self.password = Password::EMPTY;
        }
    }
}
