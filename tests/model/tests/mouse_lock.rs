//! The key switch with the mouse lock on.

mod host;

use host::Host;
use model::{Settings, mode};

const BROKEN: u16 = 0x228;
const WRONG_PARITY: u16 = 0x428;
const NOISE: u16 = 0x629;
/// P1 with the key switch turned.
const TURNED: u8 = 0x7F;

fn with_mouse_lock() -> Host {
    Host::ready_under(Settings::MOUSE_LOCK)
}

/// Both devices on, the mouse lock on and the key switch turned.
fn turned() -> Host {
    let mut host = with_mouse_lock();
    host.pins(TURNED);
    host
}

/// Accepted, with OBF 0 after it and the given error bits.
fn assert_kept_back(host: &mut Host, frame: u16, errors: u8) {
    let answer = host.mouse_frame(frame);
    assert_eq!(answer.status & 0xE1, errors, "frame {frame:03X}");
    assert!(!host.state.full);
}

#[test]
fn a_turned_key_keeps_every_mouse_byte_from_the_host() {
    let mut host = turned();
    for byte in 0..=0xFF {
        assert_kept_back(&mut host, model::frame(byte), 0);
    }
    let answer = host.read();
    assert_eq!((answer.byte, answer.old), (0, 1));
}

#[test]
fn damaged_mouse_frames_change_the_errors_and_put_nothing() {
    let mut host = turned();
    assert_kept_back(&mut host, BROKEN, 0x40);
    assert_kept_back(&mut host, WRONG_PARITY, 0x80);
    assert_kept_back(&mut host, BROKEN, 0x40);
    assert_kept_back(&mut host, 0x628, 0);
    assert_eq!(host.read().old, 1);
}

#[test]
fn noise_leaves_the_errors_with_the_key_either_way() {
    for pins in [0xFF, TURNED] {
        for (frame, errors) in [(BROKEN, 0x40), (WRONG_PARITY, 0x80), (0x628, 0)] {
            for kind in [4, 5] {
                let mut host = with_mouse_lock();
                host.mouse_frame(frame);
                host.read();
                host.pins(pins);
                host.assert_noise_does_nothing(kind);
                assert_eq!(host.status().status & 0xE1, errors, "frame {frame:03X}");
            }
        }
    }
}

#[test]
fn noise_leaves_the_errors_with_the_override_on() {
    let mut host = with_mouse_lock();
    host.command_with(0x60, mode::INHIBIT_OVERRIDE | mode::TRANSLATE);
    host.pins(TURNED);
    host.mouse_frame(BROKEN);
    host.assert_noise_does_nothing(4);
    host.assert_noise_does_nothing(5);
    assert_kept_back(&mut host, WRONG_PARITY, 0x80);
    host.assert_noise_does_nothing(4);
    host.assert_noise_does_nothing(5);
}

#[test]
fn a_turned_key_refuses_noise_for_the_usual_reasons() {
    let mut host = turned();
    host.command_with(0xD3, 0x55);
    host.assert_noise_is_refused(4);
    host.assert_noise_is_refused(5);
    assert_eq!(host.read().byte, 0x55);
    host.command_with(0xD4, 0xF4);
    host.assert_noise_is_refused(5);
    host.taken();
    host.command(0xA7);
    host.assert_noise_is_refused(5);
    host.assert_noise_does_nothing(4);
}

#[test]
fn override_helps_the_keyboard_and_not_the_mouse() {
    let mut host = with_mouse_lock();
    host.command_with(0x60, mode::INHIBIT_OVERRIDE | mode::TRANSLATE);
    host.pins(TURNED);
    assert_kept_back(&mut host, 0x628, 0);
    assert_kept_back(&mut host, BROKEN, 0x40);
    assert_kept_back(&mut host, WRONG_PARITY, 0x80);
    host.key(0x14);
    assert_eq!(host.read().byte, 0x1D);
    host.keyboard_frame(BROKEN);
    assert_eq!(host.read().byte, 0xFF);
}

#[test]
fn without_override_both_devices_are_kept_back() {
    let mut host = turned();
    assert_kept_back(&mut host, 0x628, 0);
    assert_eq!(host.key(0x14).status & 1, 0);
}

#[test]
fn mouse_bytes_are_put_again_once_the_key_is_turned_back() {
    let mut host = turned();
    assert_kept_back(&mut host, 0x628, 0);
    // The other pins do not matter.
    host.pins(0x80);
    assert_eq!(host.mouse(0x14).status & 0xE1, 0x21);
    assert_eq!(host.read().byte, 0x14);
    assert_eq!(host.mouse_frame(WRONG_PARITY).status & 0xE1, 0xA1);
    assert_eq!(host.read().byte, 0xFF);
    assert_eq!(host.mouse_frame(BROKEN).status & 0xE1, 0x61);
    assert_eq!(host.read().byte, 0xFF);
}

#[test]
fn break_flag_and_position_stay() {
    let mut host = with_mouse_lock();
    host.lock(&[0x1E, 0x30]);
    host.key(0x1C);
    host.pins(TURNED);
    host.key(0xF0);
    for frame in [0x628, BROKEN, WRONG_PARITY, NOISE] {
        host.mouse_frame(frame);
        assert!(host.state.break_flag);
        assert_eq!(host.state.position(), 1);
    }
}

#[test]
fn a_closed_lock_keeps_the_mouse_back_with_the_key_either_way() {
    let mut host = with_mouse_lock();
    host.lock(&[0x1E, 0x30]);
    for pins in [0xFF, TURNED] {
        host.pins(pins);
        assert_kept_back(&mut host, 0x628, 0);
        assert_kept_back(&mut host, BROKEN, 0x40);
        assert_kept_back(&mut host, WRONG_PARITY, 0x80);
        assert_kept_back(&mut host, NOISE, 0x80);
    }
}

#[test]
fn a_time_out_is_put_with_the_key_turned() {
    let mut host = turned();
    host.command_with(0xD4, 0xF4);
    assert_eq!(host.timed_out().status & 0xE3, 0x61);
    assert_eq!(host.read().byte, 0xFE);
    host.data(0xED);
    assert_eq!(host.timed_out().status & 0xE3, 0x41);
    assert_eq!(host.read().byte, 0xFE);
}

/// D3h is the host's own byte and no frame.
#[test]
fn a_byte_that_the_host_puts_as_the_mouse_is_put() {
    let mut host = turned();
    assert_eq!(host.command_with(0xD3, 0x55).status & 0x21, 0x21);
    assert_eq!(host.read().byte, 0x55);
}

#[test]
fn a_byte_put_before_the_key_was_turned_is_read() {
    let mut host = with_mouse_lock();
    host.mouse(0x14);
    assert_eq!(host.pins(TURNED).status & 0x21, 0x21);
    assert_eq!(host.event(5, 0x628).refusal, 5);
    assert_eq!(host.read().byte, 0x14);
}

#[test]
fn a_turned_key_stops_no_mouse_under_the_ordinary_settings() {
    let mut host = Host::ready();
    host.pins(TURNED);
    assert_eq!(host.mouse(0x14).status & 0xE1, 0x21);
    assert_eq!(host.read().byte, 0x14);
    assert_eq!(host.mouse_frame(BROKEN).status & 0xE1, 0x61);
    assert_eq!(host.read().byte, 0xFF);
}
