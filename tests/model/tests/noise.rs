//! Noise frames, whose start bit is wrong, while the controller is open.

mod host;

use host::Host;
use model::{Pending, mode};

const BROKEN: u16 = 1022;
const WRONG_PARITY: u16 = 0x428;
const KINDS: [u8; 2] = [4, 5];

#[test]
fn noise_puts_nothing() {
    let mut host = Host::ready();
    for kind in KINDS {
        host.assert_noise_does_nothing(kind);
        let answer = host.read();
        assert_eq!((answer.byte, answer.old), (0, 1));
    }
    host.key(0x1C);
    assert_eq!(host.read().byte, 0x1E);
}

/// The byte read before is still the one that an empty buffer gives.
#[test]
fn noise_leaves_the_old_output_byte() {
    let mut host = Host::ready();
    host.mouse(0x14);
    host.read();
    for kind in KINDS {
        host.assert_noise_does_nothing(kind);
        let answer = host.read();
        assert_eq!((answer.byte, answer.old), (0x14, 1));
    }
}

#[test]
fn noise_leaves_the_errors_of_both_devices() {
    for (damaged, errors) in [(BROKEN, 0x40), (WRONG_PARITY, 0x80)] {
        for from in KINDS {
            for kind in KINDS {
                let mut host = Host::ready();
                assert_eq!(host.event(from, damaged).refusal, 0);
                host.read();
                host.assert_noise_does_nothing(kind);
                assert_eq!(host.status().status & 0xC1, errors);
                // A sound frame clears them as ever.
                assert_eq!(host.mouse(0x14).status & 0xC1, 0x01);
            }
        }
    }
}

#[test]
fn noise_leaves_the_error_of_a_time_out() {
    for kind in KINDS {
        let mut host = Host::ready();
        host.data(0xED);
        host.timed_out();
        host.read();
        host.assert_noise_does_nothing(kind);
        assert_eq!(host.status().status & 0xC1, 0x40);
    }
}

#[test]
fn noise_sets_no_error() {
    let mut host = Host::ready();
    for kind in KINDS {
        host.assert_noise_does_nothing(kind);
        assert_eq!(host.status().status & 0xC1, 0);
    }
}

#[test]
fn noise_in_a_break_sequence_leaves_it() {
    for kind in KINDS {
        let mut host = Host::ready();
        host.key(0xF0);
        host.assert_noise_does_nothing(kind);
        assert!(host.state.break_flag);
        host.key(0x1C);
        assert_eq!(host.read().byte, 0x9E);
    }
}

/// F0h with the start bit wrong is no prefix.
#[test]
fn noise_starts_no_break_sequence() {
    let mut host = Host::ready();
    host.keyboard_frame(0x7E0 | 1);
    assert!(!host.state.break_flag);
    host.key(0x1C);
    assert_eq!(host.read().byte, 0x1E);
}

#[test]
fn noise_is_the_same_untranslated() {
    for kind in KINDS {
        let mut host = Host::ready();
        host.key(0xF0);
        host.command_with(0x60, 0);
        host.assert_noise_does_nothing(kind);
        // A sound byte would have cleared the flag in this mode.
        assert!(host.state.break_flag);
        host.command_with(0x60, mode::TRANSLATE);
        host.key(0x1C);
        assert_eq!(host.read().byte, 0x9E);
    }
}

#[test]
fn noise_is_the_same_with_the_key_turned() {
    for bits in [0, mode::INHIBIT_OVERRIDE] {
        for kind in KINDS {
            let mut host = Host::ready();
            host.command_with(0x60, bits | mode::TRANSLATE);
            host.pins(0x7F);
            host.key(0xF0);
            host.assert_noise_does_nothing(kind);
            host.pins(0xFF);
            host.key(0x1C);
            assert_eq!(host.read().byte, 0x9E);
        }
    }
}

#[test]
fn noise_leaves_what_is_pending() {
    for kind in KINDS {
        let mut host = Host::ready();
        host.command(0xA5);
        host.data(0x1E);
        host.assert_noise_does_nothing(kind);
        assert_eq!(host.state.pending, Pending::Password);
        host.data(0x30);
        host.data(0);
        assert_eq!(host.state.password.bytes(), [0x1E, 0x30]);
        host.command(0xD2);
        host.assert_noise_does_nothing(kind);
        host.data(0x77);
        assert_eq!(host.read().byte, 0x77);
    }
}

#[test]
fn noise_leaves_an_overlay() {
    let mut host = Host::ready();
    host.pins(0xA5);
    host.command(0xC1);
    for kind in KINDS {
        host.assert_noise_does_nothing(kind);
        assert_eq!(host.status().byte & 0xF0, 0x50);
    }
}

#[test]
fn noise_of_a_device_that_is_off_is_refused() {
    let mut host = Host::fresh();
    host.assert_noise_is_refused(4);
    host.assert_noise_is_refused(5);
    host.command(0xAE);
    host.assert_noise_does_nothing(4);
    host.assert_noise_is_refused(5);
    host.command(0xA8);
    host.command(0xAD);
    host.assert_noise_is_refused(4);
    host.assert_noise_does_nothing(5);
}

#[test]
fn noise_is_refused_while_a_byte_waits() {
    for kind in KINDS {
        let mut host = Host::ready();
        host.key(0x1C);
        host.assert_noise_is_refused(kind);
        let answer = host.read();
        assert_eq!((answer.byte, answer.old), (0x1E, 0));
        host.mouse_frame(BROKEN);
        host.assert_noise_is_refused(kind);
        assert_eq!(host.status().status & 0xE1, 0x61);
        assert_eq!(host.read().byte, 0xFF);
        host.assert_noise_does_nothing(kind);
    }
}

#[test]
fn noise_is_refused_while_a_byte_is_sent() {
    for kind in KINDS {
        let mut host = Host::ready();
        host.data(0xED);
        host.assert_noise_is_refused(kind);
        host.taken();
        host.command_with(0xD4, 0xF4);
        host.assert_noise_is_refused(kind);
        assert_eq!(host.state.sent_byte(), 0xF4);
        host.taken();
        host.assert_noise_does_nothing(kind);
    }
}

/// An odd number past the frames is a wrong value and no noise.
#[test]
fn values_above_2047_are_refused_first() {
    let mut host = Host::ready();
    for kind in KINDS {
        for value in [2049, 0x629 | 0x800, 0xFFFF] {
            assert_eq!(host.event(kind, value).refusal, 2);
        }
    }
    host.key(0x1C);
    assert_eq!(host.event(4, 2049).refusal, 2);
    assert_eq!(host.event(4, 2047).refusal, 5);
}
