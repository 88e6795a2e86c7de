//! One event of a list.

use model::{Device, Verdict, frame, judge};

pub mod kind {
    pub const READ_DATA: u8 = 0;
    pub const WRITE_DATA: u8 = 1;
    pub const READ_STATUS: u8 = 2;
    pub const WRITE_COMMAND: u8 = 3;
    pub const KEYBOARD_FRAME: u8 = 4;
    pub const MOUSE_FRAME: u8 = 5;
    pub const BYTE_TAKEN: u8 = 6;
    pub const BYTE_TIMED_OUT: u8 = 7;
    pub const PINS: u8 = 8;
}

#[derive(Clone, Copy, Debug, PartialEq, Eq)]
pub struct Event {
    pub kind: u8,
    pub value: u16,
}

impl Event {
    pub fn new(kind: u8, value: u16) -> Event {
        Event { kind, value }
    }

    pub fn read() -> Event {
        Event::new(kind::READ_DATA, 0)
    }

    pub fn data(byte: u8) -> Event {
        Event::new(kind::WRITE_DATA, byte.into())
    }

    pub fn status() -> Event {
        Event::new(kind::READ_STATUS, 0)
    }

    pub fn command(byte: u8) -> Event {
        Event::new(kind::WRITE_COMMAND, byte.into())
    }

    /// A sound keyboard frame of a set-2 byte.
    pub fn key(byte: u8) -> Event {
        Event::new(kind::KEYBOARD_FRAME, frame(byte))
    }

    /// A sound mouse frame.
    pub fn mouse(byte: u8) -> Event {
        Event::new(kind::MOUSE_FRAME, frame(byte))
    }

    pub fn pins(value: u8) -> Event {
        Event::new(kind::PINS, value.into())
    }

    /// The device that a frame comes from.
    pub fn frame_from(self) -> Option<Device> {
        match self.kind {
            kind::KEYBOARD_FRAME => Some(Device::Keyboard),
            kind::MOUSE_FRAME => Some(Device::Mouse),
            _ => None,
        }
    }

    /// A frame whose start bit is wrong.
    pub fn is_noise(self) -> bool {
        self.frame_from().is_some() && judge(self.value) == Verdict::Noise
    }

    pub fn to_bytes(self) -> [u8; 3] {
        let [low, high] = self.value.to_le_bytes();
        [self.kind, low, high]
    }

    pub fn from_bytes(bytes: &[u8]) -> Event {
        Event::new(bytes[0], u16::from_le_bytes([bytes[1], bytes[2]]))
    }
}
