//! The controller's state and the few changes that many rules share.

use crate::counted::Counted;
use crate::input_port::LATCHED;
use crate::password::Password;
use crate::settings::Settings;

#[derive(Clone, Copy, Debug, PartialEq, Eq)]
pub enum Device {
    Keyboard,
    Mouse,
}

/// What the next byte written to port 60h is for.
#[derive(Clone, Copy, Debug, PartialEq, Eq)]
pub enum Pending {
    None,
    Mode,
    Cell(u8),
    Password,
    OutputPort,
    Output,
    MouseOutput,
    SendToMouse,
}

/// Bits of the command byte, which is RAM cell 0.
pub mod mode {
    pub const EKI: u8 = 1 << 0;
    pub const EMI: u8 = 1 << 1;
    pub const SYS: u8 = 1 << 2;
    pub const INHIBIT_OVERRIDE: u8 = 1 << 3;
    pub const KEYBOARD_OFF: u8 = 1 << 4;
    pub const MOUSE_OFF: u8 = 1 << 5;
    pub const TRANSLATE: u8 = 1 << 6;
    pub const UNUSED: u8 = 1 << 7;
}

/// RAM cells with a meaning of their own.
pub mod cell {
    pub const MODE: usize = 0x00;
    pub const LOCK_NOTICE: usize = 0x13;
    pub const UNLOCK_NOTICE: usize = 0x14;
    pub const IGNORED: [usize; 2] = [0x16, 0x17];
}

/// Two of them are equal where their state bytes are.
#[derive(Clone, Debug)]
pub struct Controller {
    pub settings: Settings,
    pub output: u8,
    pub full: bool,
    pub source: Device,
    pub command_flag: bool,
    /// AT mode's transmit time-out; PS/2 mode never sets it.
    pub transmit_timeout: bool,
    /// TERR in PS/2 mode, the receive time-out in AT mode.
    pub timeout_error: bool,
    pub parity_error: bool,
    pub break_flag: bool,
    pub locked: bool,
    pub pins: u8,
    /// The latches of P10-P15 in bits 0-5. The first set leaves them 1.
    pub latches_1: u8,
    pub latch_20: bool,
    pub latch_21: bool,
    pub latch_22: bool,
    pub latch_23: bool,
    pub latch_25: bool,
    /// With the second set D1h may write P22 and P23. The first set never sets
    /// it.
    pub output_port_allowed: bool,
    pub pending: Pending,
    pub overlay: Option<u8>,
    pub sending: Option<(Device, u8)>,
    pub password: Password,
    pub counted: Counted,
    pub ram: [u8; 32],
}

impl Controller {
    pub fn fresh(settings: Settings) -> Controller {
        let mut ram = [0; 32];
        ram[cell::MODE] = mode::TRANSLATE | mode::MOUSE_OFF | mode::KEYBOARD_OFF;
        Controller {
            settings,
            output: 0,
            full: false,
            source: Device::Keyboard,
            command_flag: false,
            transmit_timeout: false,
            timeout_error: false,
            parity_error: false,
            break_flag: false,
            locked: false,
            pins: 0xFF,
            latches_1: LATCHED,
            latch_20: true,
            latch_21: true,
            latch_22: true,
            latch_23: true,
            latch_25: false,
            output_port_allowed: false,
            pending: Pending::None,
            overlay: None,
            sending: None,
            password: Password::EMPTY,
            counted: Counted::NONE,
            ram,
        }
    }

    pub fn mode(&self, bit: u8) -> bool {
        self.ram[cell::MODE] & bit != 0
    }

    pub fn set_mode(&mut self, bits: u8) {
        self.ram[cell::MODE] |= bits;
    }

    pub fn clear_mode(&mut self, bits: u8) {
        self.ram[cell::MODE] &= !bits;
    }

    /// The key switch is turned and the mode does not override it.
    pub fn inhibited(&self) -> bool {
        self.key_turned() && !self.mode(mode::INHIBIT_OVERRIDE)
    }

    /// The key switch keeps the mouse from the host, whatever the mode.
    pub fn mouse_inhibited(&self) -> bool {
        self.settings.mouse_lock && self.key_turned()
    }

    /// Fills the output buffer; an unread byte is lost.
    pub fn put(&mut self, byte: u8, source: Device) {
        self.output = byte;
        self.full = true;
        self.source = source;
    }
}
