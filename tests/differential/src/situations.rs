//! States made by hand, reachable by events or not, for tests that go through
//! every command and every frame. All of them keep the rules for a state.

use model::{Controller, Device, Password, Pending, Settings};

pub const PENDINGS: [Pending; 8] = [
    Pending::None,
    Pending::Mode,
    Pending::Cell(19),
    Pending::Password,
    Pending::OutputPort,
    Pending::Output,
    Pending::MouseOutput,
    Pending::SendToMouse,
];

/// The output buffer: empty, or with a byte of either device.
pub const OUTPUTS: [Option<Device>; 3] = [None, Some(Device::Keyboard), Some(Device::Mouse)];

/// Lengths of a code near its limits.
const LENGTHS: [usize; 5] = [2, 16, 0, 15, 1];

/// Transmit time-out, TERR or receive time-out, parity error.
pub type Errors = [bool; 3];

/// Every mix of the error flags that a mode has.
pub fn error_mixes(settings: Settings) -> Vec<Errors> {
    let mixes = (0..8).map(|bits| [bits & 1 != 0, bits & 2 != 0, bits & 4 != 0]);
    let in_mode = |[transmit, _, _]: &Errors| settings.at_mode || !transmit;
    mixes.filter(in_mode).collect()
}

pub fn set_errors(state: &mut Controller, [transmit, receive, parity]: Errors) {
    state.transmit_timeout = transmit;
    state.timeout_error = receive;
    state.parity_error = parity;
}

pub fn fill(state: &mut Controller, source: Option<Device>) {
    if let Some(device) = source {
        state.put(0x4B, device);
    }
}

/// One of the patterns that the latches of P2 can have in a mode and with a set,
/// all of them in turn.
pub fn set_latches(state: &mut Controller, number: usize) {
    let bit = |place: usize| number >> place & 1 != 0;
    state.latch_20 = bit(0);
    state.latch_21 = bit(1);
    if state.settings.at_mode || state.settings.second_set {
        state.latch_22 = bit(2);
        state.latch_23 = bit(3);
    }
    if state.settings.at_mode {
        state.latch_25 = bit(4);
    }
}

/// One of the patterns that the latches of P1 can have with a set, and the leave
/// for D1h given or not; all of them in turn.
pub fn set_input_latches(state: &mut Controller, number: usize) {
    if state.settings.second_set {
        state.latches_1 = number as u8 & 0x3F;
        state.output_port_allowed = number >> 6 & 1 != 0;
    }
}

/// One of the nibbles that an overlay can have with a set, all of them in turn.
pub fn overlay_nibble(settings: Settings, number: usize) -> u8 {
    let nibble = number as u8 % 16;
    if settings.second_set {
        nibble & !1
    } else {
        nibble
    }
}

/// A code of one of the lengths, all of them in turn.
pub fn set_code(state: &mut Controller, number: usize) {
    state.password = Password::EMPTY;
    for byte in 0..LENGTHS[number % LENGTHS.len()] {
        state.password.push(0x81 + byte as u8);
    }
}

#[cfg(test)]
mod tests {
    use super::*;
    use crate::under_settings::all;
    use model::{keeps_state_rules, state_bytes};
    use std::collections::BTreeSet;

    #[test]
    fn error_mixes_are_those_of_the_mode() {
        for settings in all() {
            let mut seen = BTreeSet::new();
            for errors in error_mixes(settings) {
                let mut state = Controller::fresh(settings);
                set_errors(&mut state, errors);
                seen.insert(state.status());
            }
            assert_eq!(seen.len(), if settings.at_mode { 8 } else { 4 });
        }
    }

    #[test]
    fn latches_take_every_pattern_of_the_mode_and_the_set() {
        for settings in all() {
            let mut seen = BTreeSet::new();
            for number in 0..32 {
                let mut state = Controller::fresh(settings);
                set_latches(&mut state, number);
                assert!(keeps_state_rules(&state));
                let bytes = state_bytes(&state);
                seen.insert([bytes[3], bytes[62]]);
            }
            let patterns = match (settings.at_mode, settings.second_set) {
                (true, _) => 32,
                (false, true) => 16,
                (false, false) => 4,
            };
            assert_eq!(seen.len(), patterns);
        }
    }

    #[test]
    fn input_latches_and_overlays_are_those_of_the_set() {
        for settings in all() {
            let mut seen = BTreeSet::new();
            let mut nibbles = BTreeSet::new();
            for number in 0..128 {
                let mut state = Controller::fresh(settings);
                set_input_latches(&mut state, number);
                state.overlay = Some(overlay_nibble(settings, number));
                assert!(keeps_state_rules(&state));
                let bytes = state_bytes(&state);
                seen.insert([bytes[60], bytes[61]]);
                nibbles.insert(bytes[7]);
            }
            let (patterns, overlays) = if settings.second_set {
                (128, 8)
            } else {
                (1, 16)
            };
            assert_eq!((seen.len(), nibbles.len()), (patterns, overlays));
        }
    }

    #[test]
    fn body_rules_are_kept() {
        let mut lengths = BTreeSet::new();
        for (number, pending) in PENDINGS.into_iter().enumerate() {
            for source in OUTPUTS {
                let mut state = Controller::fresh(Settings::AT_MODE);
                state.pending = pending;
                fill(&mut state, source);
                set_code(&mut state, number);
                lengths.insert(state.password.len());
                assert!(keeps_state_rules(&state));
            }
        }
        assert_eq!(lengths.len(), LENGTHS.len());
    }
}
