//! Frames, time-outs and the three error bits in AT mode.

mod host;

use host::{Host, IN_AT_MODE, IN_PS2_MODE};
use model::{Device, Settings, Verdict, judge, mode};

const BROKEN: u16 = 1022;
const WRONG_PARITY: u16 = 0x428;

/// Ready, with the given error bits of the status.
fn with_errors(settings: Settings, bits: u8) -> Host {
    let mut host = Host::ready_under(settings);
    host.state.transmit_timeout = bits & 0x20 != 0;
    host.state.timeout_error = bits & 0x40 != 0;
    host.state.parity_error = bits & 0x80 != 0;
    assert_eq!(host.status().byte & 0xE0, bits);
    host
}

/// Every mix of the error bits.
fn mixes() -> impl Iterator<Item = u8> {
    (0..8).map(|bits| bits << 5)
}

fn errors_after(verdict: Verdict, before: u8) -> u8 {
    match verdict {
        Verdict::Sound(_) => 0,
        Verdict::Broken => 0x40,
        Verdict::WrongParity => 0x80,
        Verdict::Noise => before,
    }
}

#[test]
fn a_keyboard_frame_leaves_its_own_error_alone() {
    for settings in IN_AT_MODE {
        for before in mixes() {
            for value in 0..0x800 {
                let mut host = with_errors(settings, before);
                let status = host.keyboard_frame(value).status;
                let expected = errors_after(judge(value), before);
                assert_eq!(status & 0xE0, expected, "frame {value:03X}");
            }
        }
    }
}

/// The same with the key switch turned, overridden or not, and at the lock,
/// which closes only in a state that no events make.
#[test]
fn what_keeps_a_byte_back_keeps_no_error_back() {
    for before in mixes() {
        for value in [0x628, BROKEN, WRONG_PARITY, 0x629] {
            for (bits, locked) in [(0, false), (mode::INHIBIT_OVERRIDE, false), (0, true)] {
                let mut host = with_errors(Settings::AT_MODE, before);
                host.state.pins = 0x7F;
                host.state.set_mode(bits);
                host.state.password.push(0x1E);
                host.state.locked = locked;
                let status = host.keyboard_frame(value).status;
                assert_eq!(status & 0xE0, errors_after(judge(value), before));
                let put = bits != 0 && judge(value) != Verdict::Noise;
                assert_eq!(status & 0x01, u8::from(put), "frame {value:03X}");
            }
        }
    }
}

#[test]
fn damage_puts_ffh_and_ends_a_break_sequence() {
    let mut host = Host::ready_under(Settings::AT_MODE);
    for (damaged, errors) in [(BROKEN, 0x41), (WRONG_PARITY, 0x81)] {
        host.key(0xF0);
        assert_eq!(host.keyboard_frame(damaged).status & 0xE1, errors);
        assert_eq!(host.read().byte, 0xFF);
        assert_eq!(host.key(0x1C).status & 0xE1, 0x01);
        assert_eq!(host.read().byte, 0x1E);
    }
    host.key(0xF0);
    host.key(0x1C);
    assert_eq!(host.read().byte, 0x9E);
}

#[test]
fn noise_changes_nothing() {
    for settings in IN_AT_MODE {
        for before in mixes() {
            let mut host = with_errors(settings, before);
            host.assert_noise_does_nothing(4);
            host.assert_noise_is_answered(5, 12);
        }
    }
}

#[test]
fn a_time_out_leaves_status_bit_5_alone() {
    for settings in IN_AT_MODE {
        for before in mixes() {
            let mut host = with_errors(settings, before);
            host.data(0xED);
            assert_eq!(host.status().byte & 0xE3, before | 0x02);
            assert_eq!(host.timed_out().status & 0xE3, 0x21);
            assert_eq!(host.state.source, Device::Keyboard);
            let answer = host.read();
            assert_eq!((answer.byte, answer.old, answer.status), (0xFE, 0, 0x30));
        }
    }
}

#[test]
fn a_byte_taken_clears_all_three() {
    for settings in IN_AT_MODE {
        for before in mixes() {
            let mut host = with_errors(settings, before);
            host.data(0xED);
            assert_eq!(host.taken().status & 0xE3, 0);
        }
    }
}

/// A byte goes to the mouse only in a state that no events make.
#[test]
fn a_time_out_of_the_mouse_has_its_source() {
    for before in mixes() {
        let mut host = with_errors(Settings::AT_MODE, before);
        host.state.sending = Some((Device::Mouse, 0xF4));
        assert_eq!(host.timed_out().status & 0xE3, 0x21);
        assert_eq!(host.state.source, Device::Mouse);
        assert_eq!(host.read().byte, 0xFE);
        let mut host = with_errors(Settings::AT_MODE, before);
        host.state.sending = Some((Device::Mouse, 0xF4));
        assert_eq!(host.taken().status & 0xE3, 0);
    }
}

#[test]
fn writes_reads_and_pins_leave_the_errors() {
    for before in mixes() {
        for command in 0..=0xFF {
            let mut host = with_errors(Settings::AT_MODE, before);
            assert_eq!(host.command(command).status & 0xE0, before);
            assert_eq!(host.data(0x00).status & 0xE0, before);
            assert_eq!(host.read().status & 0xE0, before);
            assert_eq!(host.pins(command).status & 0xE0, before);
        }
    }
}

#[test]
fn refused_frames_leave_the_errors() {
    for before in mixes() {
        let mut host = with_errors(Settings::AT_MODE, before);
        host.data(0xED);
        assert_eq!(host.event(4, BROKEN).refusal, 5);
        assert_eq!(host.status().byte & 0xE0, before);
        host.state.sending = None;
        host.command(0xAD);
        assert_eq!(host.event(4, 0x628).refusal, 5);
        host.command(0xC0);
        host.command(0xAE);
        assert_eq!(host.event(4, 0x628).refusal, 5);
        assert_eq!(host.status().byte & 0xE0, before);
    }
}

/// Whatever would refuse it by 5, and at the lock.
fn states_for_the_mouse(settings: Settings) -> Vec<Host> {
    let ready = || Host::ready_under(settings);
    let mut hosts = vec![Host::started(settings), ready()];
    let mut on = ready();
    on.state.clear_mode(mode::MOUSE_OFF);
    hosts.push(on);
    let mut full = ready();
    full.key(0x1C);
    hosts.push(full);
    let mut sending = ready();
    sending.data(0xED);
    hosts.push(sending);
    let mut turned = ready();
    turned.pins(0x7F);
    hosts.push(turned);
    let mut locked = ready();
    locked.state.password.push(0x1E);
    locked.state.locked = true;
    hosts.push(locked);
    hosts
}

#[test]
fn mouse_frames_are_refused_by_12_straight_after_2() {
    for settings in IN_AT_MODE {
        for mut host in states_for_the_mouse(settings) {
            let before = host.state.clone();
            let lines = before.lines();
            for value in (0..0x1000).chain([0xFFFF]) {
                let refusal = if value > 2047 { 2 } else { 12 };
                assert_eq!(host.state.refusal(5, value), refusal);
                let answer = host.state.event(5, value);
                assert_eq!(answer[0], refusal, "frame {value:03X}");
                assert_eq!(answer[1..], lines[1..], "frame {value:03X}");
                assert_eq!(host.state, before);
            }
        }
    }
}

#[test]
fn the_other_checks_are_as_in_ps2_mode() {
    for (kind, value, refusal) in [
        (9, 0, 1),
        (0, 1, 2),
        (1, 256, 2),
        (4, 2048, 2),
        (4, 0x628, 5),
        (6, 0, 6),
        (7, 0, 6),
        (7, 1, 2),
    ] {
        for settings in Settings::ALL {
            assert_eq!(Host::started(settings).event(kind, value).refusal, refusal);
        }
    }
}

/// In PS/2 mode bit 5 is the mouse's, and one flag has both time-outs.
#[test]
fn ps2_mode_has_no_transmit_time_out() {
    for settings in IN_PS2_MODE {
        let mut host = Host::ready_under(settings);
        host.data(0xED);
        assert_eq!(host.timed_out().status & 0xE1, 0x41);
        assert!(!host.state.transmit_timeout);
        host.read();
        host.command_with(0xD4, 0xF4);
        assert_eq!(host.timed_out().status & 0xE1, 0x61);
        assert!(!host.state.transmit_timeout);
        host.read();
        for value in 0..0x800 {
            for kind in [4, 5] {
                assert_eq!(host.event(kind, value).refusal, 0);
                assert!(!host.state.transmit_timeout);
                host.read();
            }
        }
    }
}

#[test]
fn keys_are_translated_as_ever() {
    for byte in 0..=0xFF {
        for bits in [0, mode::TRANSLATE] {
            let typed = |settings| {
                let mut host = Host::ready_under(settings);
                host.command_with(0x60, bits);
                host.key(0xF0);
                host.read();
                host.key(byte);
                host.read().byte
            };
            assert_eq!(typed(Settings::AT_MODE), typed(Settings::ORDINARY));
        }
    }
}
