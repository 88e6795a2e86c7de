//! The key lock and tries at it.

mod host;

use host::Host;
use model::mode;

/// 1Eh 30h, which the keys 1Ch 32h give.
const CODE: [u8; 2] = [0x1E, 0x30];
const FIRST: u8 = 0x1C;
const SECOND: u8 = 0x32;
const OTHER: u8 = 0x21;
const BROKEN: u16 = 1022;
const WRONG_PARITY: u16 = 0x428;

#[test]
fn right_keys_open() {
    let mut host = Host::locked_with(&CODE);
    let before = host.status();
    let answer = host.key(FIRST);
    // Nothing on the lines tells that the first key was right.
    assert_eq!((answer.status, answer.port), (before.status, before.port));
    assert_eq!(host.state.position(), 1);
    host.key(SECOND);
    assert!(!host.state.locked);
    assert_eq!(host.state.position(), 0);
}

/// A key that is nowhere in the code; others may be a start of it.
#[test]
fn foreign_key_starts_over() {
    let mut host = Host::locked_with(&CODE);
    host.keys(&[FIRST, OTHER, SECOND]);
    assert!(host.state.locked);
    host.keys(&[FIRST, SECOND]);
    assert!(!host.state.locked);
}

#[test]
fn writes_are_refused_while_locked() {
    let mut host = Host::locked_with(&CODE);
    assert_eq!(host.event(1, 0).refusal, 4);
    assert_eq!(host.event(3, 0xAA).refusal, 4);
    assert_eq!(host.event(3, 0x1AA).refusal, 2);
}

#[test]
fn break_codes_and_chosen_codes_are_ignored() {
    let mut host = Host::ready();
    host.command_with(0x76, 0x2A);
    host.command_with(0x77, 0x36);
    host.load(&CODE);
    host.command(0xA6);
    // 12h and 59h give the two chosen codes; 00h gives FFh.
    host.keys(&[FIRST, 0xF0, FIRST, 0x12, 0x59, 0x00, SECOND]);
    assert!(!host.state.locked);
}

#[test]
fn chosen_code_in_the_password_never_counts() {
    let mut host = Host::ready();
    host.command_with(0x77, 0x1E);
    host.load(&CODE);
    host.command(0xA6);
    host.keys(&[FIRST, SECOND]);
    assert!(host.state.locked);
}

#[test]
fn locked_keys_are_translated_in_any_mode() {
    let mut host = Host::ready();
    host.command_with(0x60, 0);
    host.load(&CODE);
    host.command(0xA6);
    host.keys(&[FIRST, SECOND]);
    assert!(!host.state.locked);
    host.key(FIRST);
    assert_eq!(host.read().byte, FIRST);
}

#[test]
fn damaged_frame_starts_over_even_while_locked() {
    for damaged in [BROKEN, WRONG_PARITY] {
        let mut host = Host::locked_with(&CODE);
        host.keys(&[FIRST, 0xF0]);
        let answer = host.keyboard_frame(damaged);
        assert_eq!(answer.status & 1, 0);
        assert!(!host.state.break_flag);
        assert_eq!(host.state.position(), 0);
        host.key(SECOND);
        assert!(host.state.locked);
        host.keys(&[FIRST, SECOND]);
        assert!(!host.state.locked);
    }
}

#[test]
fn inhibit_swallows_before_a_try() {
    let mut host = Host::locked_with(&CODE);
    host.key(FIRST);
    host.pins(0x7F);
    host.keys(&[OTHER, SECOND]);
    assert!(host.state.locked);
    assert_eq!(host.state.position(), 1);
    host.pins(0xFF);
    host.key(SECOND);
    assert!(!host.state.locked);
}

#[test]
fn swallowed_break_prefix_still_sets_the_flag() {
    let mut host = Host::locked_with(&CODE);
    host.pins(0x7F);
    host.key(0xF0);
    host.pins(0xFF);
    host.keys(&[OTHER, FIRST, SECOND]);
    assert!(!host.state.locked);
}

#[test]
fn damage_starts_over_under_inhibit_too() {
    let mut host = Host::locked_with(&CODE);
    host.key(FIRST);
    host.pins(0x7F);
    assert_eq!(host.keyboard_frame(BROKEN).status & 1, 0);
    assert_eq!(host.state.position(), 0);
}

#[test]
fn noise_between_the_keys_leaves_the_position() {
    for kind in [4, 5] {
        let mut host = Host::locked_with(&CODE);
        host.key(FIRST);
        host.assert_noise_does_nothing(kind);
        assert_eq!(host.state.position(), 1);
        host.key(SECOND);
        assert!(!host.state.locked);
    }
}

#[test]
fn noise_is_no_try() {
    let mut host = Host::locked_with(&CODE);
    // The right keys but for the start bit.
    for key in [FIRST, SECOND] {
        host.keyboard_frame(model::frame(key) | 1);
    }
    assert!(host.state.locked);
    assert_eq!(host.state.position(), 0);
    host.assert_noise_does_nothing(4);
    host.keys(&[FIRST, OTHER]);
    host.assert_noise_does_nothing(4);
    host.key(SECOND);
    assert!(host.state.locked);
}

#[test]
fn noise_in_a_locked_break_sequence_leaves_it() {
    for kind in [4, 5] {
        let mut host = Host::locked_with(&CODE);
        host.keys(&[FIRST, 0xF0]);
        host.assert_noise_does_nothing(kind);
        assert!(host.state.break_flag);
        // A break code is ignored, so the second key is still to come.
        host.keys(&[OTHER, SECOND]);
        assert!(!host.state.locked);
    }
}

#[test]
fn noise_under_inhibit_leaves_the_position() {
    for bits in [0, mode::INHIBIT_OVERRIDE] {
        for kind in [4, 5] {
            let mut host = Host::ready();
            host.command_with(0x60, bits);
            host.lock(&CODE);
            host.key(FIRST);
            host.pins(0x7F);
            host.assert_noise_does_nothing(kind);
            host.pins(0xFF);
            host.key(SECOND);
            assert!(!host.state.locked);
        }
    }
}

#[test]
fn noise_at_the_lock_leaves_the_errors_of_the_mouse() {
    for (damaged, errors) in [(BROKEN, 0x40), (WRONG_PARITY, 0x80)] {
        for kind in [4, 5] {
            let mut host = Host::locked_with(&CODE);
            host.key(FIRST);
            host.mouse_frame(damaged);
            host.assert_noise_does_nothing(kind);
            assert_eq!(host.status().status & 0xC1, errors);
            host.key(SECOND);
            assert!(!host.state.locked);
        }
    }
}

#[test]
fn noise_is_refused_while_a_notice_waits() {
    let mut host = Host::ready();
    host.command_with(0x73, 0xC3);
    host.lock(&CODE);
    host.assert_noise_is_refused(4);
    host.assert_noise_is_refused(5);
    assert_eq!(host.read().byte, 0xC3);
    host.assert_noise_does_nothing(4);
    host.keys(&[FIRST, SECOND]);
    assert!(!host.state.locked);
}

#[test]
fn notices_are_put_when_nonzero() {
    let mut host = Host::ready();
    host.command_with(0x73, 0xC3);
    host.command_with(0x74, 0xC4);
    host.load(&CODE);
    assert_eq!(host.command(0xA6).status & 1, 1);
    assert_eq!(host.event(4, 0x628).refusal, 5);
    assert_eq!(host.read().byte, 0xC3);
    host.keys(&[FIRST, SECOND]);
    assert_eq!(host.read().byte, 0xC4);
    host.command_with(0x73, 0);
    assert_eq!(host.command(0xA6).status & 1, 0);
    assert!(host.state.locked);
}

#[test]
fn locked_mouse_sets_errors_and_puts_nothing() {
    let mut host = Host::locked_with(&CODE);
    host.keys(&[FIRST, 0xF0]);
    assert_eq!(host.mouse_frame(BROKEN).status & 0xC1, 0x40);
    assert_eq!(host.mouse_frame(WRONG_PARITY).status & 0xC1, 0x80);
    assert_eq!(host.mouse(0x55).status & 0xC1, 0);
    assert!(host.state.break_flag);
    assert_eq!(host.state.position(), 1);
}
