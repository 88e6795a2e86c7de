//! Which bodies can be loaded. One of edition 1 is asked about as a move makes it.

use crate::added_rules::keeps_added_rules;
use crate::body::{Body, at, flag};
use crate::controller::{cell, mode};
use crate::password::PASSWORD_LIMIT;

const PENDING_CELL: u8 = 2;

/// True when a body describes a state that the controller can be in.
pub fn keeps_body_rules(body: &Body) -> bool {
    flags_sound(body)
        && ports_sound(body)
        && pending_sound(body)
        && overlay_sound(body)
        && sending_sound(body)
        && password_sound(body)
        && lock_sound(body)
        && keeps_added_rules(body)
}

/// The mouse can only be the source of a byte that is there.
fn flags_sound(body: &Body) -> bool {
    let flags = body[at::FLAGS];
    let mouse_without_byte = flags & flag::MOUSE_SOURCE != 0 && flags & flag::FULL == 0;
    flags & flag::UNUSED == 0 && !mouse_without_byte
}

fn ports_sound(body: &Body) -> bool {
    body[at::LATCHES] <= 3 && body[at::RAM + cell::MODE] & mode::UNUSED == 0
}

/// Cell 0 is written by the mode code, so code 2 never names it.
fn pending_sound(body: &Body) -> bool {
    let number = body[at::PENDING_CELL];
    match body[at::PENDING] {
        PENDING_CELL => (1..=31).contains(&number),
        code => code <= 7 && number == 0,
    }
}

fn overlay_sound(body: &Body) -> bool {
    match body[at::OVERLAY] {
        0 => body[at::OVERLAY_NIBBLE] == 0,
        present => present == 1 && body[at::OVERLAY_NIBBLE] <= 0x0F,
    }
}

fn sending_sound(body: &Body) -> bool {
    match body[at::DESTINATION] {
        0 => body[at::SENT_BYTE] == 0,
        destination => destination <= 2,
    }
}

fn password_sound(body: &Body) -> bool {
    let length = usize::from(body[at::PASSWORD_LENGTH]);
    if length > PASSWORD_LIMIT {
        return false;
    }
    let (used, unused) = body[at::PASSWORD..at::RAM].split_at(length);
    used.iter().all(|&byte| byte != 0) && unused.iter().all(|&byte| byte == 0)
}

/// Position is below the length when locked, which also asks for a password.
fn lock_sound(body: &Body) -> bool {
    if body[at::FLAGS] & flag::LOCKED == 0 {
        return body[at::POSITION] == 0;
    }
    body[at::POSITION] < body[at::PASSWORD_LENGTH]
        && body[at::PENDING] == 0
        && body[at::DESTINATION] == 0
}
