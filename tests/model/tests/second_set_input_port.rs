//! P1 with the second set: a line reads 1 exactly if its pin and its latch are 1.

mod host;

use host::{FIRST_SET, Host, SECOND_SET, SECOND_SET_IN_AT_MODE, SECOND_SET_IN_PS2_MODE};
use model::{Settings, mode};

/// The commands that write one latch each: the line, its 0 and its 1.
const SINGLE: [(u8, u8, u8); 6] = [
    (0, 0xB0, 0xB8),
    (1, 0xB1, 0xB9),
    (2, 0xB2, 0xBA),
    (3, 0xB3, 0xBB),
    (4, 0xB6, 0xBE),
    (5, 0xB7, 0xBF),
];

/// Writes all six latches by commands.
fn write_latches(host: &mut Host, latches: u8) {
    for (line, zero, one) in SINGLE {
        let high = latches >> line & 1 != 0;
        host.command(if high { one } else { zero });
    }
    assert_eq!(host.state.latches_1, latches);
}

/// What P1 reads line by line.
fn read_as(pins: u8, latches: u8) -> u8 {
    let high = |line: u8| {
        let pin = pins >> line & 1 == 1;
        let latch = line > 5 || latches >> line & 1 == 1;
        pin && latch
    };
    (0..8).map(|line| u8::from(high(line)) << line).sum()
}

#[test]
fn each_command_writes_its_own_latch() {
    for settings in SECOND_SET {
        for before in 0..64 {
            for (line, zero, one) in SINGLE {
                let mut host = Host::started(settings);
                host.state.latches_1 = before;
                host.command(zero);
                assert_eq!(host.state.latches_1, before & !(1 << line), "{zero:02X}");
                host.state.latches_1 = before;
                host.command(one);
                assert_eq!(host.state.latches_1, before | 1 << line, "{one:02X}");
            }
        }
    }
}

#[test]
fn nine_with_a_nibble_writes_four_latches() {
    for settings in SECOND_SET {
        for before in 0..64 {
            for nibble in 0..16 {
                let mut host = Host::started(settings);
                host.state.latches_1 = before;
                host.command(0x90 + nibble);
                assert_eq!(host.state.latches_1, before / 16 * 16 + nibble);
            }
        }
    }
}

#[test]
fn every_latch_pattern_with_every_pin_pattern() {
    for settings in SECOND_SET {
        let mut host = Host::started(settings);
        for latches in 0..64 {
            write_latches(&mut host, latches);
            for pins in 0..=0xFF {
                assert_eq!(host.pins(pins).status >> 4, pins >> 7);
                host.command(0xC0);
                assert_eq!(host.read().byte, read_as(pins, latches));
                assert_eq!(host.state.latches_1, latches);
                assert_eq!(host.state.pins, pins);
            }
        }
    }
}

/// Bits 5-7 are P11-P13 or P15-P17, bit 4 the key switch.
#[test]
fn polls_of_every_pattern() {
    for settings in SECOND_SET_IN_PS2_MODE {
        let mut host = Host::started(settings);
        for latches in 0..64 {
            write_latches(&mut host, latches);
            for pins in 0..=0xFF {
                host.pins(pins);
                let read = read_as(pins, latches);
                let key = pins >> 7 << 4;
                let polled = read << 4 & 0xE0;
                assert_eq!(host.command(0xC1).status, polled | key | 0x08);
                assert_eq!(host.state.overlay, Some(read % 16 / 2 * 2));
                let polled = read & 0xE0;
                assert_eq!(host.command(0xC2).status, polled | key | 0x08);
                assert_eq!(host.state.overlay, Some(read / 32 * 2));
            }
        }
    }
}

/// The nibble stays as it was polled; the key switch shows as it is.
#[test]
fn only_the_key_switch_moves_under_an_overlay() {
    for settings in SECOND_SET_IN_PS2_MODE {
        for (command, status) in [(0xC1, 0xA0), (0xC2, 0x40)] {
            let mut host = Host::started(settings);
            host.pins(0x4A);
            assert_eq!(host.command(command).status, status | 0x08);
            assert_eq!(host.pins(0xFF).status, status | 0x18);
            assert_eq!(host.pins(0x80).status, status | 0x18);
            assert_eq!(host.status().byte, status | 0x18);
            assert_eq!(host.pins(0x7F).status, status | 0x08);
            assert_eq!(host.pins(0x00).status, status | 0x08);
            // It ends at the next command, whatever that is.
            assert_eq!(host.command(0xB0).status, 0x08);
        }
    }
}

/// An overlay is there only in a state that no events make.
#[test]
fn an_overlay_leaves_the_key_switch_in_at_mode_too() {
    for settings in SECOND_SET_IN_AT_MODE {
        let mut host = Host::started(settings);
        host.state.overlay = Some(0x0A);
        assert_eq!(host.status().status, 0xB0);
        assert_eq!(host.pins(0x7F).status, 0xA0);
        assert_eq!(host.command(0xC2).status, 0x08);
    }
}

#[test]
fn latches_do_not_move_with_the_pins_nor_the_self_test() {
    for settings in SECOND_SET {
        let mut host = Host::started(settings);
        write_latches(&mut host, 0b01_0110);
        for pins in 0..=0xFF {
            host.pins(pins);
        }
        host.command(0xAA);
        host.read();
        assert_eq!(host.state.latches_1, 0b01_0110);
        host.command(0xC0);
        assert_eq!(host.read().byte, 0xD6);
    }
}

/// P17 has no latch, so nothing but its pin turns the key.
#[test]
fn the_key_lock_goes_by_its_pin() {
    for settings in SECOND_SET {
        let mut host = Host::ready_under(settings);
        write_latches(&mut host, 0);
        assert_eq!(host.key(0x1C).status & 0x11, 0x11);
        assert_eq!(host.read().byte, 0x1E);
        host.pins(0x7F);
        assert_eq!(host.key(0x1C).status & 0x11, 0);
        host.command_with(0x60, mode::TRANSLATE | mode::INHIBIT_OVERRIDE);
        assert_eq!(host.key(0x32).status & 0x11, 0x01);
        assert_eq!(host.read().byte, 0x30);
    }
}

#[test]
fn the_mouse_lock_goes_by_its_pin() {
    for (settings, locked) in [
        (Settings::SECOND_SET, false),
        (Settings::SECOND_SET_AND_MOUSE_LOCK, true),
    ] {
        let mut host = Host::ready_under(settings);
        write_latches(&mut host, 0);
        assert_eq!(host.mouse(0x14).status & 0x21, 0x21);
        host.read();
        host.pins(0x7F);
        let full = host.mouse(0x14).status & 0x01 != 0;
        assert_eq!(full, !locked);
    }
}

/// No command moves a latch, and all of P1 is its pins.
#[test]
fn the_first_set_reads_the_pins() {
    for settings in FIRST_SET {
        let mut host = Host::started(settings);
        for command in (0x90..=0x9F).chain(0xB0..=0xBF) {
            host.command(command);
            assert_eq!(host.state.latches_1, 0x3F);
        }
        for pins in 0..=0xFF {
            host.pins(pins);
            host.command(0xC0);
            assert_eq!(host.read().byte, pins);
            if !settings.at_mode {
                assert_eq!(host.command(0xC1).status, pins << 4 | 0x08);
                assert_eq!(host.command(0xC2).status, pins & 0xF0 | 0x08);
                // The overlay has all of the upper half.
                assert_eq!(host.pins(!pins).status, pins & 0xF0 | 0x08);
            }
        }
    }
}
