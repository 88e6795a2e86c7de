//! Port 60h and 64h reads, the source, and the lines that follow them.

mod host;

use host::Host;
use model::{Device, Settings, mode, run};

#[test]
fn printed_case() {
    let list = [0x03, 0xAA, 0, 2, 0, 0, 0, 0, 0, 0, 0, 0];
    let mut answers = [0; 36];
    assert_eq!(run(Settings::ORDINARY, &list, &mut answers), 0);
    let expected = [
        [0x00, 0x00, 0x00, 0x1D, 0x03, 0, 0, 0, 0],
        [0x00, 0x1D, 0x00, 0x1D, 0x03, 0, 0, 0, 0],
        [0x00, 0x55, 0x00, 0x1C, 0x03, 0, 0, 0, 0],
        [0x00, 0x55, 0x01, 0x1C, 0x03, 0, 0, 0, 0],
    ];
    assert_eq!(answers, *expected.as_flattened());
}

#[test]
fn empty_read_is_old() {
    let mut host = Host::fresh();
    let answer = host.read();
    assert_eq!((answer.byte, answer.old), (0, 1));
    host.command_with(0xD2, 0x77);
    let answer = host.read();
    assert_eq!((answer.byte, answer.old), (0x77, 0));
    let answer = host.read();
    assert_eq!((answer.byte, answer.old), (0x77, 1));
}

#[test]
fn interrupt_follows_the_mode_while_the_buffer_is_full() {
    let mut host = Host::fresh();
    assert_eq!(host.command_with(0xD2, 0x77).port & 0x30, 0);
    assert_eq!(
        host.command_with(0x60, mode::EKI | mode::EMI).port & 0x30,
        0x10
    );
    assert_eq!(host.command_with(0x60, 0).port & 0x30, 0);
    assert_eq!(host.command_with(0xD3, 0x77).port & 0x30, 0);
    assert_eq!(
        host.command_with(0x60, mode::EKI | mode::EMI).port & 0x30,
        0x20
    );
    assert_eq!(host.read().port & 0x30, 0);
}

#[test]
fn source_goes_back_to_the_keyboard_with_the_byte() {
    let mut host = Host::fresh();
    assert_eq!(host.command_with(0xD3, 0x55).status & 0x21, 0x21);
    assert_eq!(host.state.source, Device::Mouse);
    assert_eq!(host.read().status & 0x21, 0);
    assert_eq!(host.state.source, Device::Keyboard);
}

#[test]
fn newer_byte_replaces_an_unread_one() {
    let mut host = Host::fresh();
    host.command_with(0xD3, 0x11);
    host.command_with(0xD2, 0x22);
    assert_eq!(host.status().byte & 0x21, 0x01);
    assert_eq!(host.read().byte, 0x22);
}
