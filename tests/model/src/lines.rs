//! What the host sees: status, output port, and the answer built of them.

use crate::controller::{Controller, Device, mode};
use crate::frame::frame;
use crate::list::ANSWER_SIZE;

/// The part of an answer that only the event itself knows.
#[derive(Clone, Copy, Default)]
pub struct Outcome {
    pub byte: u8,
    pub old: bool,
    pub pulse: u8,
}

fn bit(condition: bool, number: u8) -> u8 {
    u8::from(condition) << number
}

impl Controller {
    fn full_from(&self, device: Device) -> bool {
        self.full && self.source == device
    }

    pub fn status(&self) -> u8 {
        let low = bit(self.full, 0)
            | bit(self.sending.is_some(), 1)
            | bit(self.mode(mode::SYS), 2)
            | bit(self.command_flag, 3);
        let high = match self.overlay {
            Some(nibble) => nibble << 4 | self.key_switch_beside_overlay(),
            None => {
                self.key_switch_bit()
                    | bit(self.status_bit_5(), 5)
                    | bit(self.timeout_error, 6)
                    | bit(self.parity_error, 7)
            }
        };
        low | high
    }

    fn key_switch_bit(&self) -> u8 {
        bit(!self.key_turned(), 4)
    }

    /// An overlay of the second set leaves its lowest place to the key switch,
    /// as it is now.
    fn key_switch_beside_overlay(&self) -> u8 {
        if self.settings.second_set {
            self.key_switch_bit()
        } else {
            0
        }
    }

    /// The transmit time-out in AT mode, a mouse byte that waits in PS/2 mode.
    fn status_bit_5(&self) -> bool {
        if self.settings.at_mode {
            self.transmit_timeout
        } else {
            self.full_from(Device::Mouse)
        }
    }

    /// P2. The interrupt lines follow the command byte as it is now, not as it
    /// was when the byte was put.
    pub fn output_port(&self) -> u8 {
        let of_mode = if self.settings.at_mode {
            self.port_in_at_mode()
        } else {
            self.port_in_ps2_mode()
        };
        bit(self.latch_20, 0)
            | bit(self.latch_21, 1)
            | bit(self.mode(mode::KEYBOARD_OFF), 6)
            | of_mode
    }

    /// The lines that belong to the mouse here, and the keyboard's interrupt.
    fn port_in_ps2_mode(&self) -> u8 {
        bit(self.mode(mode::MOUSE_OFF), 3)
            | bit(self.full_from(Device::Keyboard) && self.mode(mode::EKI), 4)
            | bit(self.full_from(Device::Mouse) && self.mode(mode::EMI), 5)
    }

    /// The interrupt line does not look at the source, and P27 is high. P22 and
    /// P23 show here only, though the second set has their latches in both modes.
    fn port_in_at_mode(&self) -> u8 {
        bit(self.latch_22, 2)
            | bit(self.latch_23, 3)
            | bit(self.full && self.mode(mode::EKI), 4)
            | bit(self.latch_25, 5)
            | bit(true, 7)
    }

    /// The byte on its way to a device, 0 with nobody.
    pub fn sent_byte(&self) -> u8 {
        self.sending.map_or(0, |(_, byte)| byte)
    }

    /// An answer with no event: the lines as they stand.
    pub fn lines(&self) -> [u8; ANSWER_SIZE] {
        self.answer(0, Outcome::default())
    }

    pub fn answer(&self, refusal: u8, outcome: Outcome) -> [u8; ANSWER_SIZE] {
        let (destination, sent) = match self.sending {
            None => (0, 0),
            Some((Device::Keyboard, byte)) => (1, frame(byte)),
            Some((Device::Mouse, byte)) => (2, frame(byte)),
        };
        let [low, high] = sent.to_le_bytes();
        [
            refusal,
            outcome.byte,
            u8::from(outcome.old),
            self.status(),
            self.output_port(),
            outcome.pulse,
            destination,
            low,
            high,
        ]
    }
}
