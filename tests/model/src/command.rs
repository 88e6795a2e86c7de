//! A byte written to port 64h.

use crate::controller::{Controller, Device, Pending, mode};
use crate::password::Password;

/// The use of the next data byte, as each command leaves it.
fn pending_after(command: u8) -> Pending {
    match command {
        0x60 => Pending::Mode,
        0x61..=0x7F => Pending::Cell(command - 0x60),
        0xA5 => Pending::Password,
        0xD1 => Pending::OutputPort,
        0xD2 => Pending::Output,
        0xD3 => Pending::MouseOutput,
        0xD4 => Pending::SendToMouse,
        _ => Pending::None,
    }
}

impl Controller {
    /// Carries out a command and hands back its pulse mask.
    pub(crate) fn write_command(&mut self, command: u8) -> u8 {
        self.command_flag = true;
        self.overlay = None;
        // A load that was not ended leaves nothing behind.
        if self.pending == Pending::Password {
            self.password = Password::EMPTY;
        }
        self.pending = Pending::None;
        if !self.settings.command_acts(command) {
            return 0;
        }
        self.pending = pending_after(command);
        self.act(command);
        match command {
            0xF0..=0xFF => self.pulse(command),
            _ => 0,
        }
    }

    fn act(&mut self, command: u8) {
        match command {
            0x20..=0x3F => self.answer_command(self.ram[usize::from(command - 0x20)]),
            0xA4 => self.answer_command(self.password_test()),
            0xA5 => self.password = Password::EMPTY,
            0xA6 => self.lock(),
            0xA7 => self.set_mode(mode::MOUSE_OFF),
            0xA8 => self.clear_mode(mode::MOUSE_OFF),
            0xA9 | 0xAB => self.answer_command(0x00),
            0xAA => self.self_test(),
            0xAD => self.set_mode(mode::KEYBOARD_OFF),
            0xAE => self.clear_mode(mode::KEYBOARD_OFF),
            0xC0 => self.answer_command(self.input_port()),
            0xC1 => self.poll(self.input_port() & 0x0F),
            0xC2 => self.poll(self.input_port() >> 4),
            // The port is read before the put raises an interrupt line.
            0xD0 => self.answer_command(self.output_port()),
            0xE0 => self.answer_command(self.test_inputs()),
            _ => self.act_in_second_set(command),
        }
    }

    fn answer_command(&mut self, byte: u8) {
        self.put(byte, Device::Keyboard);
    }

    fn self_test(&mut self) {
        self.answer_command(0x55);
        self.clear_mode(mode::KEYBOARD_OFF | mode::MOUSE_OFF);
        self.set_mode(mode::SYS);
    }

    /// In AT mode the keyboard's data line and its clock, in PS/2 mode the
    /// clocks of the keyboard and the mouse.
    fn test_inputs(&self) -> u8 {
        let keyboard = u8::from(!self.mode(mode::KEYBOARD_OFF));
        let mouse = u8::from(!self.mode(mode::MOUSE_OFF));
        if self.settings.at_mode {
            1 | keyboard << 1
        } else {
            keyboard | mouse << 1
        }
    }
}
