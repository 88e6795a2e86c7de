//! Commands in AT mode: eleven act like unknown ones, the others as ever.

mod host;

use host::busy::{PENDINGS, SWITCHED_OFF, acts, assert_loads_no_code, assert_unknown, busy};
use host::{Host, IN_AT_MODE, IN_PS2_MODE};
use model::{Device, Pending, Settings, mode};

#[test]
fn eleven_commands_act_like_unknown_ones() {
    for settings in IN_AT_MODE {
        assert_unknown(settings, &SWITCHED_OFF);
    }
}

/// No command but the eleven is switched off.
#[test]
fn every_other_command_does_the_same_in_both_modes() {
    for command in (0..=0xFF).filter(|command| !SWITCHED_OFF.contains(command)) {
        for pending in PENDINGS {
            let mut in_at_mode = busy(Settings::AT_MODE, pending);
            let mut in_ps2_mode = busy(Settings::ORDINARY, pending);
            in_at_mode.command(command);
            in_ps2_mode.command(command);
            let mut state = in_at_mode.state;
            state.settings = in_ps2_mode.state.settings;
            // D0h and E0h put what they find, which is another byte here.
            if [0xD0, 0xE0].contains(&command) {
                assert_ne!(state.output, in_ps2_mode.state.output);
                state.output = in_ps2_mode.state.output;
            }
            assert_eq!(state, in_ps2_mode.state, "{command:02X} {pending:?}");
        }
    }
}

#[test]
fn ps2_mode_knows_the_eleven() {
    for settings in IN_PS2_MODE {
        for command in SWITCHED_OFF {
            assert!(acts(settings, command), "{command:02X}");
        }
    }
}

#[test]
fn no_code_is_loaded_from_fresh() {
    for settings in IN_AT_MODE {
        let mut host = assert_loads_no_code(settings);
        assert_eq!(host.command(0xA4).status & 0x01, 0);
    }
}

#[test]
fn a_whole_code_stays_and_nothing_uses_it() {
    let mut host = busy(Settings::AT_MODE, Pending::None);
    for command in SWITCHED_OFF {
        host.command(command);
        assert_eq!(host.state.password.bytes(), [0x1E, 0x30]);
        assert!(!host.state.locked && !host.state.full);
    }
}

/// These codes are pending only in states that no events make.
#[test]
fn a_pending_code_says_what_its_byte_does() {
    for settings in IN_AT_MODE {
        let mut host = busy(settings, Pending::Output);
        assert_eq!(host.data(0x77).port & 0x10, 0x10);
        assert_eq!(
            (host.state.source, host.read().byte),
            (Device::Keyboard, 0x77)
        );
        let mut host = busy(settings, Pending::MouseOutput);
        assert_eq!(host.data(0x78).port & 0x10, 0x10);
        assert_eq!((host.state.source, host.read().byte), (Device::Mouse, 0x78));
        let mut host = busy(settings, Pending::SendToMouse);
        assert_eq!(host.data(0x14).destination, 2);
        assert!(host.state.mode(mode::KEYBOARD_OFF));
        let mut host = busy(settings, Pending::Password);
        host.data(0x2E);
        host.data(0);
        assert_eq!(host.state.password.bytes(), [0x1E, 0x30, 0x2E]);
    }
}

#[test]
fn commands_are_refused_as_ever() {
    for settings in IN_AT_MODE {
        for command in 0..=0xFF {
            let mut host = Host::ready_under(settings);
            host.data(0xED);
            assert_eq!(host.event(3, command).refusal, 3);
            let mut host = busy(settings, Pending::None);
            host.state.locked = true;
            assert_eq!(host.event(3, command).refusal, 4);
            assert_eq!(host.event(3, command + 0x100).refusal, 2);
        }
    }
}

#[test]
fn self_test_switches_on_and_leaves_latches_and_errors() {
    let mut host = Host::started(Settings::AT_MODE);
    host.command_with(0xD1, 0x20);
    host.state.transmit_timeout = true;
    host.state.parity_error = true;
    let answer = host.command(0xAA);
    assert_eq!((answer.status, answer.port), (0xBD, 0xA0));
    assert_eq!(host.read().byte, 0x55);
    assert_eq!(host.state.ram[0], mode::TRANSLATE | mode::SYS);
}
