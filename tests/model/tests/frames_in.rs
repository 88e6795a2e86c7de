//! Frames that arrive while the controller is open.

mod host;

use host::Host;
use model::mode;

const BROKEN: u16 = 1022;
const WRONG_PARITY: u16 = 0x428;

#[test]
fn damaged_keyboard_frame_puts_ffh() {
    let mut host = Host::ready();
    assert_eq!(host.keyboard_frame(BROKEN).status & 0xE1, 0x41);
    assert_eq!(host.read().byte, 0xFF);
    assert_eq!(host.keyboard_frame(WRONG_PARITY).status & 0xE1, 0x81);
    assert_eq!(host.read().byte, 0xFF);
    assert_eq!(host.key(0x1C).status & 0xE1, 0x01);
    assert_eq!(host.read().byte, 0x1E);
}

#[test]
fn damaged_mouse_frame_puts_ffh_as_the_mouse() {
    let mut host = Host::ready();
    host.key(0xF0);
    assert_eq!(host.mouse_frame(BROKEN).status & 0xE1, 0x61);
    assert_eq!(host.read().byte, 0xFF);
    assert_eq!(host.mouse_frame(WRONG_PARITY).status & 0xE1, 0xA1);
    assert_eq!(host.read().byte, 0xFF);
    // The keyboard's break flag is none of the mouse's business.
    assert_eq!(host.key(0x1C).status & 0xE1, 0x01);
    assert_eq!(host.read().byte, 0x9E);
}

#[test]
fn inhibit_swallows_keys_and_damage_but_not_the_mouse() {
    let mut host = Host::ready();
    host.pins(0x7F);
    assert_eq!(host.key(0x1C).status & 1, 0);
    assert_eq!(host.keyboard_frame(BROKEN).status & 0xC1, 0x40);
    assert_eq!(host.mouse(0x1C).status & 0x21, 0x21);
}

#[test]
fn override_lifts_inhibit() {
    let mut host = Host::ready();
    host.command_with(0x60, mode::INHIBIT_OVERRIDE | mode::TRANSLATE);
    host.pins(0x7F);
    host.key(0x1C);
    assert_eq!(host.read().byte, 0x1E);
    host.keyboard_frame(BROKEN);
    assert_eq!(host.read().byte, 0xFF);
}

#[test]
fn frames_are_refused_when_off_full_or_sending() {
    let mut host = Host::fresh();
    assert_eq!(host.event(4, 0x628).refusal, 5);
    assert_eq!(host.event(5, 0x628).refusal, 5);
    host.command(0xAE);
    assert_eq!(host.event(4, 0x628).refusal, 0);
    assert_eq!(host.event(4, 0x628).refusal, 5);
    host.read();
    host.command_with(0xD4, 0x00);
    assert_eq!(host.event(4, 0x628).refusal, 5);
    assert_eq!(host.event(4, 2048).refusal, 2);
    assert_eq!(host.event(4, 2049).refusal, 2);
}
