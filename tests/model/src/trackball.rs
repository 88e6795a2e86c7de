//! A trackball for the bench: what it keeps, and what moves, bytes from the host
//! and reports do. The controller has no part in it.

use crate::movement::Movement;
use crate::reply::Reply;

/// The bytes from the host that it knows.
mod request {
    pub const PACKET: u8 = 0xEB;
    pub const IDENTITY: u8 = 0xF2;
    pub const ENABLE: u8 = 0xF4;
    pub const DISABLE: u8 = 0xF5;
    pub const RESET: u8 = 0xFF;
}

const ACKNOWLEDGED: u8 = 0xFA;
const UNKNOWN: u8 = 0xFE;
const TEST_PASSED: u8 = 0xAA;
const MOUSE: u8 = 0x00;

/// The bits of a byte that are buttons.
pub const BUTTONS: u8 = 0x07;

#[derive(Clone, Copy, Debug, PartialEq, Eq)]
pub struct Trackball {
    /// Bits 0-2, 1 while a button is down.
    pub buttons: u8,
    pub reporting: bool,
    pub x: Movement,
    pub y: Movement,
}

impl Trackball {
    pub const FRESH: Trackball = Trackball {
        buttons: 0,
        reporting: false,
        x: Movement::NONE,
        y: Movement::NONE,
    };

    /// Moves count while reporting is disabled too.
    pub fn move_by(&mut self, buttons: u8, x: i16, y: i16) {
        self.buttons = buttons & BUTTONS;
        self.x.add(x);
        self.y.add(y);
    }

    /// Takes a byte from the host. None is an argument of the one before.
    pub fn send(&mut self, byte: u8) -> Reply {
        match byte {
            request::PACKET => {
                let [first, x, y] = self.take_packet();
                Reply::of(&[ACKNOWLEDGED, first, x, y])
            }
            request::IDENTITY => Reply::of(&[ACKNOWLEDGED, MOUSE]),
            request::ENABLE => self.set_reporting(true),
            request::DISABLE => self.set_reporting(false),
            request::RESET => self.reset(),
            _ => Reply::of(&[UNKNOWN]),
        }
    }

    /// A packet, or nothing while reporting is disabled.
    pub fn report(&mut self) -> Reply {
        if self.reporting {
            Reply::of(&self.take_packet())
        } else {
            Reply::NOTHING
        }
    }

    fn set_reporting(&mut self, reporting: bool) -> Reply {
        self.reporting = reporting;
        Reply::of(&[ACKNOWLEDGED])
    }

    /// The buttons stay: only a move sets them.
    fn reset(&mut self) -> Reply {
        self.forget_movement();
        self.reporting = false;
        Reply::of(&[ACKNOWLEDGED, TEST_PASSED, MOUSE])
    }

    fn take_packet(&mut self) -> [u8; 3] {
        let packet = [self.first_byte(), self.x.low_byte(), self.y.low_byte()];
        self.forget_movement();
        packet
    }

    fn first_byte(&self) -> u8 {
        let bit = |set: bool, place: u32| u8::from(set) << place;
        self.buttons
            | bit(true, 3)
            | bit(self.x.is_negative(), 4)
            | bit(self.y.is_negative(), 5)
            | bit(self.x.overflow, 6)
            | bit(self.y.overflow, 7)
    }

    fn forget_movement(&mut self) {
        self.x = Movement::NONE;
        self.y = Movement::NONE;
    }
}
