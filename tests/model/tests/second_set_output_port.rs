//! P2 with the second set: the latches of P22 and P23, and what may write them.

mod host;

use host::{FIRST_SET, Host, SECOND_SET, SECOND_SET_IN_AT_MODE, SECOND_SET_IN_PS2_MODE};
use model::{Settings, state_bytes};

/// The latches of P20-P23 as the bits of P2.
fn latches(host: &Host) -> u8 {
    let state = &host.state;
    let all = [
        state.latch_20,
        state.latch_21,
        state.latch_22,
        state.latch_23,
    ];
    let bits = all.iter().zip(0..);
    bits.map(|(&latch, line)| u8::from(latch) << line).sum()
}

fn with_latches(settings: Settings, bits: u8) -> Host {
    let mut host = Host::started(settings);
    host.state.latch_20 = bits & 1 != 0;
    host.state.latch_21 = bits & 2 != 0;
    host.state.latch_22 = bits & 4 != 0;
    host.state.latch_23 = bits & 8 != 0;
    host
}

#[test]
fn writing_p22_and_p23_is_forbidden_when_fresh() {
    for settings in SECOND_SET {
        let mut host = Host::started(settings);
        assert!(!host.state.output_port_allowed);
        host.command_with(0xD1, 0x00);
        assert_eq!(latches(&host), 0b1100);
    }
}

/// Whatever the latches were and whatever is written, allowed and forbidden.
#[test]
fn d1h_writes_p22_and_p23_when_allowed() {
    for settings in SECOND_SET {
        for before in 0..16 {
            for byte in 0..=0xFF_u8 {
                let mut host = with_latches(settings, before);
                host.command(0xC8);
                host.command_with(0xD1, byte);
                assert_eq!(latches(&host), byte % 16);
                let mut host = with_latches(settings, before);
                host.command(0xC8);
                host.command(0xC9);
                host.command_with(0xD1, byte);
                assert_eq!(latches(&host), before & 0b1100 | byte & 0b0011);
            }
        }
    }
}

/// What counts is whether it is allowed when the byte comes; no other command
/// moves it.
#[test]
fn only_two_commands_allow_and_forbid() {
    for settings in SECOND_SET {
        for allowed in [false, true] {
            for command in 0..=0xFF {
                let mut host = Host::started(settings);
                host.state.output_port_allowed = allowed;
                host.command(command);
                let expected = match command {
                    0xC8 => true,
                    0xC9 => false,
                    _ => allowed,
                };
                let bit = state_bytes(&host.state)[60] & 0x08 != 0;
                assert_eq!(bit, expected, "{command:02X}");
            }
        }
    }
    for settings in FIRST_SET {
        let mut host = Host::started(settings);
        host.command(0xC8);
        assert!(!host.state.output_port_allowed);
    }
}

#[test]
fn p25_is_written_in_at_mode_alone_and_needs_no_leave() {
    for settings in SECOND_SET {
        for leave in [0xC8, 0xC9] {
            let mut host = Host::started(settings);
            host.command(leave);
            host.command_with(0xD1, 0xFF);
            assert_eq!(host.state.latch_25, settings.at_mode);
            host.command_with(0xD1, 0xDF);
            assert!(!host.state.latch_25);
        }
    }
}

#[test]
fn four_commands_write_p22_and_p23() {
    for settings in SECOND_SET {
        for before in 0..16 {
            for (command, after) in [
                (0xB4, before & !4),
                (0xB5, before & !8),
                (0xBC, before | 4),
                (0xBD, before | 8),
            ] {
                let mut host = with_latches(settings, before);
                host.command(command);
                assert_eq!(latches(&host), after, "{command:02X}");
                assert_eq!(host.state.latches_1, 0x3F);
            }
        }
    }
}

/// P20 stays, and E0h puts the test inputs as ever.
#[test]
fn fifteen_commands_set_three_lines() {
    for settings in SECOND_SET {
        for before in 0..16 {
            for command in 0xE1..=0xEF_u8 {
                let mut host = with_latches(settings, before);
                host.command(command);
                assert_eq!(latches(&host), before & 1 | command & 0b1110);
                assert!(!host.state.full);
            }
            let mut host = with_latches(settings, before);
            host.command(0xE0);
            assert_eq!(latches(&host), before);
            // Both devices are off.
            assert_eq!(host.read().byte, u8::from(settings.at_mode));
        }
    }
}

#[test]
fn at_mode_shows_p22_and_p23() {
    for settings in SECOND_SET_IN_AT_MODE {
        for bits in 0..16 {
            let mut host = with_latches(settings, bits);
            assert_eq!(host.status().port, 0xC0 | bits);
            host.command(0xD0);
            assert_eq!(host.read().byte, 0xC0 | bits);
        }
    }
}

/// Bit 3 is the mouse's there, and bit 2 is 0.
#[test]
fn ps2_mode_keeps_p22_and_p23_and_shows_neither() {
    for settings in SECOND_SET_IN_PS2_MODE {
        for bits in 0..16 {
            let mut host = with_latches(settings, bits);
            assert_eq!(host.status().port, 0x48 | bits & 3);
            host.command(0xD0);
            assert_eq!(host.read().byte, 0x48 | bits & 3);
            assert_eq!(host.command(0xA8).port, 0x40 | bits & 3);
            assert_eq!(host.command(0xA7).port, 0x48 | bits & 3);
            assert_eq!(latches(&host), bits);
        }
    }
}

#[test]
fn pulses_are_those_of_the_mode() {
    for settings in SECOND_SET {
        let lines = if settings.at_mode { 0x0F } else { 0x03 };
        for leave in [0xC8, 0xC9] {
            for command in 0xF0..=0xFF {
                let mut host = with_latches(settings, 0b0110);
                host.command(leave);
                let answer = host.command(command);
                assert_eq!(answer.pulse, (0xFF - command) & lines);
                assert_eq!(latches(&host), 0b0110);
            }
        }
    }
}

/// AT mode allows what it has, and nothing has to be asked.
#[test]
fn the_first_set_writes_p22_and_p23_in_at_mode() {
    for settings in FIRST_SET {
        let mut host = Host::started(settings);
        host.command_with(0xD1, 0x00);
        let kept = if settings.at_mode { 0 } else { 0b1100 };
        assert_eq!(latches(&host), kept);
    }
}
