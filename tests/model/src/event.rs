//! One event: refuse it or carry it out, then answer.

use crate::controller::{Controller, Device};
use crate::errors::Error;
use crate::lines::Outcome;
use crate::list::ANSWER_SIZE;

/// Put when a device does not take the byte sent to it.
const TIMED_OUT: u8 = 0xFE;

impl Controller {
    pub fn event(&mut self, kind: u8, value: u16) -> [u8; ANSWER_SIZE] {
        let refusal = self.refusal(kind, value);
        if refusal != 0 {
            return self.answer(refusal, Outcome::default());
        }
        let outcome = self.carry_out(kind, value);
        self.answer(0, outcome)
    }

    fn carry_out(&mut self, kind: u8, value: u16) -> Outcome {
        let mut outcome = Outcome::default();
        // An accepted value that is not a frame fits in a byte.
        let byte = value as u8;
        match kind {
            0 => (outcome.byte, outcome.old) = self.read_output(),
            1 => self.write_data(byte),
            2 => outcome.byte = self.status(),
            3 => outcome.pulse = self.write_command(byte),
            4 => self.keyboard_frame(value),
            5 => self.mouse_frame(value),
            6 => self.byte_taken(),
            7 => self.byte_timed_out(),
            _ => self.pins = byte,
        }
        outcome
    }

    /// The output byte and whether it is old. An empty buffer counts as the
    /// keyboard's, so the source goes back with the full flag.
    fn read_output(&mut self) -> (u8, bool) {
        let old = !self.full;
        self.full = false;
        self.source = Device::Keyboard;
        (self.output, old)
    }

    fn byte_taken(&mut self) {
        self.sending = None;
        self.clear_errors();
    }

    fn byte_timed_out(&mut self) {
        if let Some((device, _)) = self.sending.take() {
            self.put(TIMED_OUT, device);
        }
        self.set_error(Error::Transmit);
    }
}
