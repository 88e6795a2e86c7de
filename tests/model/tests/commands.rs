//! Commands to port 64h and the data bytes that belong to them.

mod host;

use host::Host;
use model::{Pending, cell, mode};

#[test]
fn output_port_is_read_as_before_the_command() {
    let mut host = Host::ready();
    host.command_with(0x60, mode::EKI);
    // The buffer was empty, so the interrupt line was still low.
    assert_eq!(host.command(0xD0).port, 0x13);
    assert_eq!(host.read().byte, 0x03);
    host.command_with(0xD2, 0x99);
    assert_eq!(host.command(0xD0).port, 0x13);
    assert_eq!(host.read().byte, 0x13);
}

#[test]
fn latches_take_two_bits() {
    let mut host = Host::ready();
    assert_eq!(host.command_with(0xD1, 0xFE).port, 0x02);
    assert_eq!(host.command_with(0xD1, 0x01).port, 0x01);
}

#[test]
fn overlay_replaces_the_high_nibble_until_the_next_command() {
    let mut host = Host::fresh();
    host.pins(0xA5);
    assert_eq!(host.command(0xC1).status, 0x58);
    // Neither data, reads, pins nor a refused command end it.
    assert_eq!(host.data(0x00).status, 0x52);
    assert_eq!(host.event(3, 0xC2).refusal, 3);
    assert_eq!(host.pins(0x00).status, 0x52);
    assert_eq!(host.timed_out().status, 0x51);
    assert_eq!(host.read().status, 0x50);
    assert_eq!(host.command(0x00).status, 0x48);
    host.pins(0xA5);
    assert_eq!(host.command(0xC2).status, 0xA8);
    assert_eq!(host.command(0xC0).status, 0x59);
    assert_eq!(host.read().byte, 0xA5);
}

#[test]
fn pulses_leave_the_latches() {
    let mut host = Host::fresh();
    let pulses: Vec<u8> = (0xF0..=0xFF)
        .map(|command| host.command(command).pulse)
        .collect();
    assert_eq!(pulses, [3, 2, 1, 0].repeat(4));
    assert_eq!(host.status().pulse, 0);
    assert_eq!(host.status().port & 3, 3);
}

#[test]
fn data_for_the_keyboard_switches_it_on() {
    let mut host = Host::fresh();
    let answer = host.data(0x14);
    assert_eq!((answer.destination, answer.frame), (1, 0x628));
    assert!(!host.state.mode(mode::KEYBOARD_OFF));
    assert!(host.state.mode(mode::MOUSE_OFF));
}

#[test]
fn data_for_the_mouse_switches_nothing() {
    let mut host = Host::fresh();
    let answer = host.command_with(0xD4, 0x14);
    assert_eq!((answer.destination, answer.frame), (2, 0x628));
    assert_eq!(host.state.ram[cell::MODE], 0x70);
    assert_eq!(host.state.pending, Pending::None);
}

#[test]
fn time_out_has_the_source_of_the_device() {
    let mut host = Host::fresh();
    host.command_with(0xD4, 0x01);
    let answer = host.timed_out();
    assert_eq!(
        (answer.status & 0xE3, answer.destination, answer.frame),
        (0x61, 0, 0)
    );
    assert_eq!(host.read().byte, 0xFE);
    host.data(0x01);
    assert_eq!(host.timed_out().status & 0xE3, 0x41);
    assert_eq!(host.read().byte, 0xFE);
    host.data(0x01);
    assert_eq!(host.taken().status & 0xE3, 0);
}

#[test]
fn cells_are_written_and_read() {
    let mut host = Host::fresh();
    for number in 0x01..=0x1F {
        host.command_with(0x60 + number, 0xE0 | number);
    }
    for number in 0x01..=0x1F {
        host.command(0x20 + number);
        assert_eq!(host.read().byte, 0xE0 | number);
    }
    assert_eq!(host.state.ram[cell::MODE], 0x70);
}

#[test]
fn mode_never_has_bit_7() {
    let mut host = Host::fresh();
    host.command_with(0x60, 0xFF);
    host.command(0x20);
    assert_eq!(host.read().byte, 0x7F);
}

#[test]
fn self_test_and_switches() {
    let mut host = Host::fresh();
    host.command(0xE0);
    assert_eq!(host.read().byte, 0);
    host.command(0xAE);
    host.command(0xE0);
    assert_eq!(host.read().byte, 1);
    host.command(0xA8);
    host.command(0xAD);
    host.command(0xE0);
    assert_eq!(host.read().byte, 2);
    host.command(0xA7);
    host.command(0xAA);
    assert_eq!(host.read().byte, 0x55);
    assert_eq!(host.state.ram[cell::MODE], mode::TRANSLATE | mode::SYS);
    for command in [0xA9, 0xAB] {
        assert_eq!(host.command(command).status & 1, 1);
        assert_eq!(host.read().byte, 0);
    }
}

#[test]
fn a_command_ends_what_was_pending() {
    let mut host = Host::fresh();
    host.command(0xD2);
    host.command(0x00);
    assert_eq!(host.data(0x55).destination, 1);
}
