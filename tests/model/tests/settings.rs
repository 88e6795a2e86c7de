//! The start settings, their options byte, and what carries them.

mod host;

use host::Host;
use host::tables::reversed;
use model::{Controller, KeyTable, Settings, encode, run, state_bytes};

#[test]
fn only_three_bits_of_the_options_count() {
    for options in 0..=0xFF {
        let settings = Settings::from_options(options, 0x5A);
        assert_eq!(settings.mouse_lock, options % 2 == 1, "{options:02X}");
        assert_eq!(settings.at_mode, options / 2 % 2 == 1, "{options:02X}");
        assert_eq!(settings.second_set, options / 4 % 2 == 1, "{options:02X}");
        assert_eq!(settings.options(), options % 8, "{options:02X}");
        assert_eq!(settings.version, 0x5A);
        assert_eq!(settings.table, KeyTable::BUILT_IN);
    }
}

#[test]
fn every_choice_is_listed_once() {
    let listed = Settings::ALL.map(Settings::options);
    assert_eq!(listed, [0, 1, 2, 3, 4, 5, 6, 7]);
    assert_eq!(Settings::ALL[0], Settings::ORDINARY);
    for settings in Settings::ALL {
        assert_eq!(Settings::from_options(settings.options(), 0), settings);
        let other = settings.with_version(0xC2);
        assert_eq!(Settings::from_options(settings.options(), 0xC2), other);
    }
}

#[test]
fn state_bytes_are_the_body_the_version_byte_and_the_table() {
    for settings in Settings::ALL {
        for version in 0..=0xFF {
            let fresh = Controller::fresh(settings.with_version(version));
            let bytes = state_bytes(&fresh);
            assert_eq!(bytes.len(), 321);
            assert_eq!(bytes[..64], encode(&fresh));
            let rest = [settings.options(), 0x3F, 0x03, 0, version];
            assert_eq!(bytes[60..65], rest);
            assert_eq!(bytes[65..], KeyTable::BUILT_IN.0);
        }
    }
}

/// What only a mode or a set has stands at the body's end, each part in bits of
/// its own.
#[test]
fn each_latch_the_leave_and_the_time_out_has_its_bit() {
    let fresh = Controller::fresh(Settings::SECOND_SET_IN_AT_MODE.with_version(0x99));
    let rest = |change: fn(&mut Controller)| {
        let mut state = fresh.clone();
        change(&mut state);
        let bytes = state_bytes(&state);
        assert_eq!(bytes[..60], state_bytes(&fresh)[..60]);
        assert_eq!(bytes[65..], state_bytes(&fresh)[65..]);
        bytes[60..65].to_vec()
    };
    assert_eq!(
        rest(|state| state.output_port_allowed = true),
        [0x0E, 0x3F, 0x03, 0, 0x99]
    );
    assert_eq!(
        rest(|state| state.latches_1 = 0x29),
        [6, 0x29, 0x03, 0, 0x99]
    );
    assert_eq!(
        rest(|state| state.latch_22 = false),
        [6, 0x3F, 0x02, 0, 0x99]
    );
    assert_eq!(
        rest(|state| state.latch_23 = false),
        [6, 0x3F, 0x01, 0, 0x99]
    );
    assert_eq!(
        rest(|state| state.latch_25 = true),
        [6, 0x3F, 0x0B, 0, 0x99]
    );
    assert_eq!(
        rest(|state| state.transmit_timeout = true),
        [6, 0x3F, 0x03, 0x01, 0x99]
    );
}

#[test]
fn fresh_differs_in_the_settings_alone() {
    for settings in Settings::ALL {
        let mut fresh = Controller::fresh(settings);
        fresh.settings = Settings::ORDINARY;
        assert_eq!(fresh, Controller::fresh(Settings::ORDINARY));
    }
    let lines = |settings| Host::started(settings).state.lines();
    assert_eq!(lines(Settings::MOUSE_LOCK), lines(Settings::ORDINARY));
    assert_eq!(lines(Settings::SECOND_SET), lines(Settings::ORDINARY));
    assert_eq!(
        lines(Settings::SECOND_SET_IN_AT_MODE),
        lines(Settings::AT_MODE)
    );
}

/// Each event in a state where most of them act.
#[test]
fn no_event_changes_the_settings() {
    let choices = Settings::ALL.map(|choice| choice.with_version(0x42).with_table(reversed()));
    for settings in choices {
        for kind in 0..=9 {
            for value in 0..=0x800 {
                let mut host = Host::ready_under(settings);
                host.event(kind, value);
                assert_eq!(host.state.settings, settings, "kind {kind} value {value:X}");
            }
        }
    }
}

#[test]
fn an_image_keeps_the_mouse_lock() {
    let mut host = Host::ready_under(Settings::MOUSE_LOCK.with_version(0x42));
    host.pins(0x7F);
    let mut restored = host.restored();
    assert_eq!(restored.mouse(0x14).status & 0x21, 0);
}

/// The mouse on, the key switch turned, a sound mouse frame.
#[test]
fn a_list_runs_under_the_settings_given() {
    let list = [3, 0xA8, 0, 8, 0x7F, 0, 5, 0x28, 0x06];
    let mut answers = [0; 27];
    assert_eq!(run(Settings::ORDINARY, &list, &mut answers), 0);
    assert_eq!(answers[18..], [0, 0, 0, 0x29, 0x43, 0, 0, 0, 0]);
    assert_eq!(run(Settings::MOUSE_LOCK, &list, &mut answers), 0);
    assert_eq!(answers[18..], [0, 0, 0, 0x08, 0x43, 0, 0, 0, 0]);
    assert_eq!(run(Settings::AT_MODE, &list, &mut answers), 0);
    assert_eq!(answers[18..], [12, 0, 0, 0x08, 0xCF, 0, 0, 0, 0]);
}
