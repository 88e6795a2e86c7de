//! The walk in AT mode, where there is neither a mouse nor a code to load. More
//! often than in PS/2 mode it comes to time-outs and latches, and a byte mostly
//! follows a command that AT mode switches off.

use super::Walker;
use crate::at_mode_coverage::SWITCHED_OFF;
use crate::event::{Event, kind};
use crate::unguided;
use model::{Controller, Pending, mode};

/// Commands that AT mode answers otherwise, and those that lead up to them.
const COMMANDS: [u8; 7] = [0x60, 0x60, 0xAD, 0xD0, 0xD1, 0xD1, 0xE0];

impl Walker {
    pub(super) fn while_open_in_at_mode(&mut self, state: &Controller) -> Event {
        let data_due = std::mem::take(&mut self.data_due);
        if state.sending.is_some() {
            self.sending_in_at_mode()
        } else if data_due && self.random.chance(70) {
            Event::data(self.random.byte())
        } else if state.pending != Pending::None {
            self.pending_in_at_mode(state)
        } else if state.full && self.random.chance(70) {
            self.full_in_at_mode()
        } else {
            self.idle_in_at_mode(state)
        }
    }

    fn sending_in_at_mode(&mut self) -> Event {
        if self.random.chance(5) {
            self.mouse_frame()
        } else {
            self.while_sending()
        }
    }

    fn full_in_at_mode(&mut self) -> Event {
        if self.random.chance(5) {
            self.mouse_frame()
        } else {
            Event::read()
        }
    }

    fn pending_in_at_mode(&mut self, state: &Controller) -> Event {
        if self.random.chance(15) {
            self.switched_off()
        } else {
            self.with_pending(state)
        }
    }

    fn idle_in_at_mode(&mut self, state: &Controller) -> Event {
        // The command byte may change within a break sequence.
        if state.break_flag && self.random.chance(20) {
            return Event::command(0x60);
        }
        match self.random.below(100) {
            0..=26 => self.command(),
            27..=31 => self.switched_off(),
            32..=38 => Event::command(self.random.pick(&COMMANDS)),
            39..=48 if state.mode(mode::KEYBOARD_OFF) => Event::command(0xAE),
            39..=59 => Event::key(self.random.byte()),
            60..=64 => Event::key(self.random.pick(&[0xF0, 0x83, 0x84, 0x00, 0xAB])),
            65..=72 => Event::new(
                kind::KEYBOARD_FRAME,
                unguided::damaged_frame(&mut self.random),
            ),
            73..=79 => self.mouse_frame(),
            80..=89 => Event::data(self.random.byte()),
            90..=92 => self.key_switch(),
            _ => self.anything(),
        }
    }

    fn switched_off(&mut self) -> Event {
        self.data_due = true;
        Event::command(self.random.pick(&SWITCHED_OFF))
    }
}
