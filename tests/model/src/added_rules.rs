//! The body rules that came with edition 2. They are about what only one mode or
//! one set has.

use crate::body::{Body, at, option, upper_latch};
use crate::input_port::LATCHED;
use crate::settings::Settings;

/// P22 and P23 as when fresh.
const FRESH_UPPER_LATCHES: u8 = upper_latch::P22 | upper_latch::P23;

pub(crate) fn keeps_added_rules(body: &Body) -> bool {
    let settings = Settings::from_options(body[at::OPTIONS], 0);
    unused_bits_clear(body)
        && (settings.second_set || first_set_sound(body))
        && (settings.second_set || settings.at_mode || p22_and_p23_fresh(body))
        && (settings.at_mode || ps2_mode_sound(body))
        && (!settings.second_set || overlay_sound(body))
}

fn unused_bits_clear(body: &Body) -> bool {
    body[at::OPTIONS] & option::UNUSED == 0
        && body[at::LATCHES_1] <= LATCHED
        && body[at::UPPER_LATCHES] & upper_latch::UNUSED == 0
        && body[at::TRANSMIT_TIMEOUT] <= 1
}

/// The first set has no latches of P1 and gives D1h no leave.
fn first_set_sound(body: &Body) -> bool {
    body[at::LATCHES_1] == LATCHED && body[at::OPTIONS] & option::ALLOWED == 0
}

/// Neither PS/2 mode nor the first set has these latches.
fn p22_and_p23_fresh(body: &Body) -> bool {
    body[at::UPPER_LATCHES] == FRESH_UPPER_LATCHES
}

/// PS/2 mode has no latch of P25, and its one flag for both time-outs is the
/// other.
fn ps2_mode_sound(body: &Body) -> bool {
    body[at::UPPER_LATCHES] & upper_latch::P25 == 0 && body[at::TRANSMIT_TIMEOUT] == 0
}

/// The second set leaves the lowest place of an overlay to the key switch.
fn overlay_sound(body: &Body) -> bool {
    body[at::OVERLAY_NIBBLE] & 1 == 0
}
