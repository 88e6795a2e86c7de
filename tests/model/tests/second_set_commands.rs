//! The commands of the VT82C42: which act with which set and in which mode, and
//! what they put.

mod host;

use host::busy::{PENDINGS, SWITCHED_OFF, acts, assert_loads_no_code, assert_unknown, busy};
use host::{FIRST_SET, Host, SECOND_SET, SECOND_SET_IN_AT_MODE, SECOND_SET_IN_PS2_MODE};
use model::{Pending, Settings, mode};

/// What the second set adds, row by row as its rules name them.
fn added() -> Vec<u8> {
    let mut all: Vec<u8> = (0x90..=0x9F).collect();
    all.extend([0xA1, 0xAF]);
    all.extend(0xB0..=0xBF);
    all.extend([0xC8, 0xC9, 0xCA]);
    all.extend(0xE1..=0xEF);
    all
}

#[test]
fn fifty_two_commands_are_added() {
    assert_eq!(added().len(), 16 + 2 + 16 + 3 + 15);
}

#[test]
fn the_first_set_knows_none_of_them() {
    for settings in FIRST_SET {
        assert_unknown(settings, &added());
    }
}

#[test]
fn neither_mode_of_the_second_set_loads_a_code_or_locks() {
    for settings in SECOND_SET {
        assert_unknown(settings, &[0xA5, 0xA6]);
    }
}

#[test]
fn at_mode_switches_off_the_same_eleven_with_the_second_set() {
    for settings in SECOND_SET_IN_AT_MODE {
        assert_unknown(settings, &SWITCHED_OFF);
    }
}

/// The other nine act in PS/2 mode.
#[test]
fn ps2_mode_knows_the_rest_of_the_eleven() {
    for settings in SECOND_SET_IN_PS2_MODE {
        for command in SWITCHED_OFF {
            let known = ![0xA5, 0xA6].contains(&command);
            assert_eq!(acts(settings, command), known, "{command:02X}");
        }
    }
}

/// Where neither set has a rule of its own they do the same. C0h, C1h and C2h
/// go by P1 as read, and A4h by the set.
#[test]
fn every_other_command_does_the_same_with_both_sets() {
    let own = |command: &u8| {
        added().contains(command) || [0xA4, 0xA5, 0xA6, 0xC0, 0xC1, 0xC2].contains(command)
    };
    for (first, second) in [
        (Settings::ORDINARY, Settings::SECOND_SET),
        (Settings::AT_MODE, Settings::SECOND_SET_IN_AT_MODE),
    ] {
        for command in (0..=0xFF).filter(|command| !own(command)) {
            for pending in PENDINGS {
                let mut hosts = [first, second].map(|settings| busy(settings, pending));
                // D0h shows the latches in AT mode.
                hosts[1].state.latch_22 = true;
                let answers = hosts.each_mut().map(|host| host.command(command));
                assert_eq!(answers[0], answers[1], "{command:02X} {pending:?}");
                let [one, mut other] = hosts.map(|host| host.state);
                other.settings = one.settings;
                other.latches_1 = 0x3F;
                assert_eq!(one, other, "{command:02X} {pending:?}");
            }
        }
    }
}

/// Reads the byte that a command puts; it is the keyboard's, so EKI raises its
/// interrupt and no status bit tells of the mouse.
fn put_by(settings: Settings, command: u8) -> u8 {
    let mut host = Host::started(settings);
    host.command_with(0x60, mode::EKI | mode::EMI);
    let answer = host.command(command);
    assert_eq!((answer.status & 0x21, answer.port & 0x30), (0x01, 0x10));
    let read = host.read();
    assert_eq!(read.old, 0);
    read.byte
}

#[test]
fn the_version_byte_is_put_by_two_commands() {
    for settings in SECOND_SET {
        for version in 0..=0xFF {
            let settings = settings.with_version(version);
            assert_eq!(put_by(settings, 0xA1), version);
            assert_eq!(put_by(settings, 0xAF), version);
        }
    }
}

#[test]
fn the_mode_is_put() {
    for settings in SECOND_SET_IN_PS2_MODE {
        assert_eq!(put_by(settings, 0xCA), 1);
    }
    for settings in SECOND_SET_IN_AT_MODE {
        assert_eq!(put_by(settings, 0xCA), 0);
    }
}

/// A code is there only in a state that no events make.
#[test]
fn the_password_test_finds_none() {
    for settings in SECOND_SET_IN_PS2_MODE {
        assert_eq!(put_by(settings, 0xA4), 0xF1);
        let mut host = busy(settings, Pending::None);
        assert_eq!(host.password_test(), 0xF1);
        assert_eq!(host.state.password.bytes(), [0x1E, 0x30]);
        // A load that the command cuts short is dropped as ever.
        let mut host = busy(settings, Pending::Password);
        assert_eq!(host.password_test(), 0xF1);
        assert!(host.state.password.is_empty());
    }
}

#[test]
fn no_code_is_loaded_from_fresh() {
    for settings in SECOND_SET {
        assert_loads_no_code(settings);
    }
}

/// A lock is shut only in a state that no events make; it goes by its rules.
#[test]
fn a_lock_that_is_shut_opens_as_ever() {
    for settings in SECOND_SET {
        let mut host = busy(settings, Pending::None);
        host.state.pins = 0xFF;
        host.state.locked = true;
        host.state.clear_mode(mode::KEYBOARD_OFF);
        for command in 0..=0xFF {
            assert_eq!(host.event(3, command).refusal, 4, "{command:02X}");
        }
        host.keys(&[0x1C, 0x32]);
        assert!(!host.state.locked);
    }
}

#[test]
fn a_byte_that_waits_is_lost_and_one_to_be_sent_refuses_them() {
    for settings in SECOND_SET {
        for command in added() {
            let mut host = Host::ready_under(settings);
            host.key(0x1C);
            let kept = ![0xA1, 0xAF, 0xCA].contains(&command);
            host.command(command);
            assert_eq!(host.read().byte == 0x1E, kept, "{command:02X}");
            host.data(0xED);
            assert_eq!(host.event(3, command.into()).refusal, 3);
        }
    }
}
