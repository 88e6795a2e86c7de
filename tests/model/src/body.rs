//! Where each thing stands in the body of a saved image. Edition 1 ends before
//! the options; the rest of it is the same in both editions.

use crate::edition::Edition;

pub const BODY_SIZE: usize = Edition::Second.body_size();
pub const EDITION_1_BODY_SIZE: usize = Edition::First.body_size();

pub type Body = [u8; BODY_SIZE];

pub(crate) mod at {
    pub const OUTPUT: usize = 0;
    pub const FLAGS: usize = 1;
    pub const PINS: usize = 2;
    pub const LATCHES: usize = 3;
    pub const PENDING: usize = 4;
    pub const PENDING_CELL: usize = 5;
    pub const OVERLAY: usize = 6;
    pub const OVERLAY_NIBBLE: usize = 7;
    pub const DESTINATION: usize = 8;
    pub const SENT_BYTE: usize = 9;
    pub const PASSWORD_LENGTH: usize = 10;
    pub const POSITION: usize = 11;
    pub const PASSWORD: usize = 12;
    pub const RAM: usize = 28;
    pub const OPTIONS: usize = 60;
    pub const LATCHES_1: usize = 61;
    pub const UPPER_LATCHES: usize = 62;
    pub const TRANSMIT_TIMEOUT: usize = 63;
}

/// Bits of the flags byte.
pub(crate) mod flag {
    pub const FULL: u8 = 1 << 0;
    pub const MOUSE_SOURCE: u8 = 1 << 1;
    pub const COMMAND: u8 = 1 << 2;
    pub const TIMEOUT_ERROR: u8 = 1 << 3;
    pub const PARITY_ERROR: u8 = 1 << 4;
    pub const BREAK: u8 = 1 << 5;
    pub const LOCKED: u8 = 1 << 6;
    pub const UNUSED: u8 = 1 << 7;
}

/// Bits of the options byte. The lower ones are those of a start.
pub(crate) mod option {
    /// D1h may write P22 and P23. No start names it, since commands change it.
    pub const ALLOWED: u8 = 1 << 3;
    pub const UNUSED: u8 = 0xF0;
}

/// Bits of the byte with the upper latches of P2. The place of P24 stays empty.
pub(crate) mod upper_latch {
    pub const P22: u8 = 1 << 0;
    pub const P23: u8 = 1 << 1;
    pub const P25: u8 = 1 << 3;
    pub const UNUSED: u8 = 0xF4;
}
