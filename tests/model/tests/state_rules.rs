//! The rules for what only a mode or a set has, by parts of a state: each broken
//! alone, and kept by events.

mod host;

use host::Host;
use model::{Controller, Settings, keeps_state_rules};

/// True where a change of a fresh state leaves the rules kept.
fn kept(settings: Settings, change: fn(&mut Controller)) -> bool {
    let mut state = Controller::fresh(settings);
    assert!(keeps_state_rules(&state));
    change(&mut state);
    keeps_state_rules(&state)
}

/// The choices under which a change leaves the rules kept, by their options.
fn kept_under(change: fn(&mut Controller)) -> Vec<u8> {
    let all = Settings::ALL.into_iter();
    all.filter(|&settings| kept(settings, change))
        .map(Settings::options)
        .collect()
}

#[test]
fn what_only_the_second_set_has() {
    assert_eq!(kept_under(|state| state.latches_1 = 0x1F), [4, 5, 6, 7]);
    assert_eq!(kept_under(|state| state.latches_1 = 0), [4, 5, 6, 7]);
    let allowed = kept_under(|state| state.output_port_allowed = true);
    assert_eq!(allowed, [4, 5, 6, 7]);
}

#[test]
fn no_set_has_a_latch_of_p16() {
    assert!(kept_under(|state| state.latches_1 = 0x7F).is_empty());
}

#[test]
fn what_ps2_mode_with_the_first_set_lacks() {
    assert_eq!(
        kept_under(|state| state.latch_22 = false),
        [2, 3, 4, 5, 6, 7]
    );
    assert_eq!(
        kept_under(|state| state.latch_23 = false),
        [2, 3, 4, 5, 6, 7]
    );
}

#[test]
fn what_only_at_mode_has() {
    assert_eq!(kept_under(|state| state.latch_25 = true), [2, 3, 6, 7]);
    let timed_out = kept_under(|state| state.transmit_timeout = true);
    assert_eq!(timed_out, [2, 3, 6, 7]);
}

#[test]
fn the_second_set_keeps_the_lowest_bit_of_an_overlay_0() {
    assert_eq!(kept_under(|state| state.overlay = Some(1)), [0, 1, 2, 3]);
    assert_eq!(kept_under(|state| state.overlay = Some(14)).len(), 8);
    assert_eq!(kept_under(|state| state.overlay = None).len(), 8);
}

#[test]
fn the_body_rules_are_asked_too() {
    assert!(kept_under(|state| state.locked = true).is_empty());
    assert!(kept_under(|state| state.overlay = Some(16)).is_empty());
}

#[test]
fn every_table_that_is_refused_breaks_them() {
    assert!(kept_under(|state| state.settings.table.0[0x7F] = 0x01).is_empty());
    assert!(kept_under(|state| state.settings.table.0[0xFE] = 0xFF).is_empty());
    assert_eq!(
        kept_under(|state| state.settings.table.0[0x80] = 0).len(),
        8
    );
}

/// Every command, the byte after it, a time-out, and a poll with every pin low.
#[test]
fn commands_and_their_bytes_keep_the_rules() {
    for settings in Settings::ALL {
        for command in 0..=0xFF {
            for byte in [0x00, 0x2F, 0xD0, 0xFF] {
                let mut host = Host::ready_under(settings);
                for (kind, value) in [
                    (3, 0xC8),
                    (3, command),
                    (1, byte),
                    (7, 0),
                    (3, 0xC1),
                    (8, 0x00),
                    (3, 0xC2),
                    (3, command),
                ] {
                    host.event(kind, value);
                    assert!(keeps_state_rules(&host.state), "{settings:?} {command:02X}");
                }
            }
        }
    }
}
