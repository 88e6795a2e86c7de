//! The state that a body stands for.

use crate::body::{Body, at, flag, option, upper_latch};
use crate::controller::{Controller, Device, Pending};
use crate::counted::Counted;
use crate::key_table::KeyTable;
use crate::password::{PASSWORD_LIMIT, Password};
use crate::settings::Settings;

fn pending(body: &Body) -> Pending {
    match body[at::PENDING] {
        0 => Pending::None,
        1 => Pending::Mode,
        2 => Pending::Cell(body[at::PENDING_CELL]),
        3 => Pending::Password,
        4 => Pending::OutputPort,
        5 => Pending::Output,
        6 => Pending::MouseOutput,
        _ => Pending::SendToMouse,
    }
}

fn sending(body: &Body) -> Option<(Device, u8)> {
    match body[at::DESTINATION] {
        0 => None,
        1 => Some((Device::Keyboard, body[at::SENT_BYTE])),
        _ => Some((Device::Mouse, body[at::SENT_BYTE])),
    }
}

fn source(body: &Body) -> Device {
    if body[at::FLAGS] & flag::MOUSE_SOURCE != 0 {
        Device::Mouse
    } else {
        Device::Keyboard
    }
}

fn password(body: &Body) -> Password {
    let length = usize::from(body[at::PASSWORD_LENGTH]).min(PASSWORD_LIMIT);
    let mut password = Password::EMPTY;
    for &byte in &body[at::PASSWORD..at::PASSWORD + length] {
        password.push(byte);
    }
    password
}

/// Of the counted keys a body tells the position alone, so they are as many of
/// the password's first bytes.
fn counted(body: &Body, password: &Password) -> Counted {
    Counted::first_of(password.bytes(), usize::from(body[at::POSITION]))
}

/// Reads a body that keeps the body rules. It has no place for the version byte
/// and the key table, which are given.
pub(crate) fn decode(body: &Body, version: u8, table: KeyTable) -> Controller {
    let flag = |bit: u8| body[at::FLAGS] & bit != 0;
    let upper = |bit: u8| body[at::UPPER_LATCHES] & bit != 0;
    let mut ram = [0; 32];
    ram.copy_from_slice(&body[at::RAM..at::OPTIONS]);
    let password = password(body);
    Controller {
        settings: Settings::from_options(body[at::OPTIONS], version).with_table(table),
        output: body[at::OUTPUT],
        full: flag(flag::FULL),
        source: source(body),
        command_flag: flag(flag::COMMAND),
        transmit_timeout: body[at::TRANSMIT_TIMEOUT] != 0,
        timeout_error: flag(flag::TIMEOUT_ERROR),
        parity_error: flag(flag::PARITY_ERROR),
        break_flag: flag(flag::BREAK),
        locked: flag(flag::LOCKED),
        pins: body[at::PINS],
        latches_1: body[at::LATCHES_1],
        latch_20: body[at::LATCHES] & 1 != 0,
        latch_21: body[at::LATCHES] & 2 != 0,
        latch_22: upper(upper_latch::P22),
        latch_23: upper(upper_latch::P23),
        latch_25: upper(upper_latch::P25),
        output_port_allowed: body[at::OPTIONS] & option::ALLOWED != 0,
        pending: pending(body),
        overlay: (body[at::OVERLAY] == 1).then_some(body[at::OVERLAY_NIBBLE]),
        sending: sending(body),
        password,
        counted: counted(body, &password),
        ram,
    }
}
