//! The body that a state is saved as.

use crate::body::{BODY_SIZE, Body, at, flag, option, upper_latch};
use crate::controller::{Controller, Device, Pending};

/// The bits of a byte whose conditions hold.
fn bits(conditions: &[(bool, u8)]) -> u8 {
    let set = conditions.iter().filter(|&&(holds, _)| holds);
    set.fold(0, |byte, &(_, bit)| byte | bit)
}

fn flags(state: &Controller) -> u8 {
    bits(&[
        (state.full, flag::FULL),
        (state.source == Device::Mouse, flag::MOUSE_SOURCE),
        (state.command_flag, flag::COMMAND),
        (state.timeout_error, flag::TIMEOUT_ERROR),
        (state.parity_error, flag::PARITY_ERROR),
        (state.break_flag, flag::BREAK),
        (state.locked, flag::LOCKED),
    ])
}

fn options(state: &Controller) -> u8 {
    let allowed = bits(&[(state.output_port_allowed, option::ALLOWED)]);
    state.settings.options() | allowed
}

fn upper_latches(state: &Controller) -> u8 {
    bits(&[
        (state.latch_22, upper_latch::P22),
        (state.latch_23, upper_latch::P23),
        (state.latch_25, upper_latch::P25),
    ])
}

fn pending(pending: Pending) -> [u8; 2] {
    match pending {
        Pending::None => [0, 0],
        Pending::Mode => [1, 0],
        Pending::Cell(number) => [2, number],
        Pending::Password => [3, 0],
        Pending::OutputPort => [4, 0],
        Pending::Output => [5, 0],
        Pending::MouseOutput => [6, 0],
        Pending::SendToMouse => [7, 0],
    }
}

/// All of a state but the version byte and the key table.
pub fn encode(state: &Controller) -> Body {
    let mut body = [0; BODY_SIZE];
    body[at::OUTPUT] = state.output;
    body[at::FLAGS] = flags(state);
    body[at::PINS] = state.pins;
    body[at::LATCHES] = u8::from(state.latch_20) | u8::from(state.latch_21) << 1;
    [body[at::PENDING], body[at::PENDING_CELL]] = pending(state.pending);
    body[at::OVERLAY] = u8::from(state.overlay.is_some());
    body[at::OVERLAY_NIBBLE] = state.overlay.unwrap_or(0);
    if let Some((device, byte)) = state.sending {
        body[at::DESTINATION] = if device == Device::Keyboard { 1 } else { 2 };
        body[at::SENT_BYTE] = byte;
    }
    body[at::PASSWORD_LENGTH] = state.password.len() as u8;
    body[at::POSITION] = state.position() as u8;
    let code = state.password.bytes();
    body[at::PASSWORD..at::PASSWORD + code.len()].copy_from_slice(code);
    body[at::RAM..at::OPTIONS].copy_from_slice(&state.ram);
    body[at::OPTIONS] = options(state);
    body[at::LATCHES_1] = state.latches_1;
    body[at::UPPER_LATCHES] = upper_latches(state);
    body[at::TRANSMIT_TIMEOUT] = u8::from(state.transmit_timeout);
    body
}
