//! Status, output port and pulses in AT mode.

mod host;

use host::{Host, IN_AT_MODE, IN_PS2_MODE};
use model::{Controller, Device, Settings, mode};

/// Every way the five latches can be, as the bits of P2.
fn patterns() -> impl Iterator<Item = u8> {
    (0..=0xFF).filter(|bits| bits & !0x2F == 0)
}

#[test]
fn lines_of_a_fresh_controller() {
    for settings in IN_AT_MODE {
        let fresh = Host::started(settings).state;
        // Latches 1 for bits 0-3 and 0 for bit 5, the keyboard off, bit 7.
        assert_eq!(fresh.lines(), [0, 0, 0, 0x10, 0xCF, 0, 0, 0, 0]);
    }
}

#[test]
fn the_output_port_is_written_in_five_bits() {
    for settings in IN_AT_MODE {
        let mut host = Host::started(settings);
        for byte in 0..=0xFF {
            let port = host.command_with(0xD1, byte).port;
            assert_eq!(port, 0xC0 | byte & 0x2F, "{byte:02X}");
        }
    }
}

#[test]
fn each_pattern_of_the_latches_follows_each_other() {
    for before in patterns() {
        let mut host = Host::ready_under(Settings::AT_MODE);
        for after in patterns() {
            host.command_with(0xD1, before);
            assert_eq!(host.command_with(0xD1, after).port, 0x80 | after);
        }
    }
}

/// P22, P23 and P25 are as when fresh for ever.
#[test]
fn ps2_mode_writes_two_bits() {
    for settings in IN_PS2_MODE {
        let mut host = Host::started(settings);
        for byte in 0..=0xFF {
            let port = host.command_with(0xD1, byte).port;
            assert_eq!(port, 0x48 | byte & 0x03, "{byte:02X}");
            let state = &host.state;
            let upper = [state.latch_22, state.latch_23, state.latch_25];
            assert_eq!(upper, [true, true, false], "{byte:02X}");
        }
    }
}

/// Of the command byte only EKI and keyboard off show, and EKI with OBF only.
#[test]
fn the_output_port_with_every_command_byte() {
    for settings in IN_AT_MODE {
        let mut host = Host::started(settings);
        for byte in 0..=0x7F {
            let off = if byte & mode::KEYBOARD_OFF == 0 {
                0
            } else {
                0x40
            };
            let interrupt = if byte & mode::EKI == 0 { 0 } else { 0x10 };
            let port = host.command_with(0x60, byte).port;
            assert_eq!(port, 0x8F | off, "{byte:02X}");
            assert_eq!(host.command(0xC0).port, 0x8F | off | interrupt);
            assert_eq!(host.read().port, 0x8F | off);
        }
    }
}

#[test]
fn the_interrupt_follows_the_command_byte_while_the_buffer_is_full() {
    let mut host = Host::ready_under(Settings::AT_MODE);
    host.key(0x1C);
    assert_eq!(host.status().port & 0x30, 0);
    assert_eq!(host.command_with(0x60, mode::EMI).port & 0x30, 0);
    assert_eq!(host.command_with(0x60, mode::EKI).port & 0x30, 0x10);
    assert_eq!(host.command_with(0x60, 0).port & 0x30, 0);
}

/// A mouse byte is there only in a state that no events make.
#[test]
fn the_source_of_the_byte_shows_nowhere() {
    for settings in IN_AT_MODE {
        for bits in [0, mode::EKI, mode::EMI, mode::EKI | mode::EMI] {
            let mut of_keyboard = Controller::fresh(settings);
            of_keyboard.ram[0] = bits;
            let mut of_mouse = of_keyboard.clone();
            of_keyboard.put(0x14, Device::Keyboard);
            of_mouse.put(0x14, Device::Mouse);
            assert_eq!(of_keyboard.lines(), of_mouse.lines());
            let interrupt = if bits & mode::EKI == 0 { 0 } else { 0x10 };
            assert_eq!(of_mouse.output_port() & 0x30, interrupt);
            assert_eq!(of_mouse.status() & 0x21, 0x01);
        }
    }
}

#[test]
fn p25_is_a_latch_and_no_interrupt() {
    let mut host = Host::ready_under(Settings::AT_MODE);
    host.command_with(0x60, mode::EKI | mode::EMI);
    host.command_with(0xD1, 0x20);
    assert_eq!(host.status().port, 0xA0);
    host.key(0x1C);
    assert_eq!(host.status().port, 0xB0);
    assert_eq!(host.read().port, 0xA0);
}

#[test]
fn the_output_port_is_read_as_before_the_command() {
    for pattern in patterns() {
        let mut host = Host::ready_under(Settings::AT_MODE);
        host.command_with(0x60, mode::EKI);
        host.command_with(0xD1, pattern);
        host.command(0xD0);
        assert_eq!(host.read().byte, 0x80 | pattern);
        host.command(0xC0);
        assert_eq!(host.command(0xD0).port, 0x90 | pattern);
        assert_eq!(host.read().byte, 0x90 | pattern);
    }
}

#[test]
fn four_lines_are_pulsed_and_the_latches_stay() {
    for settings in IN_AT_MODE {
        for pattern in patterns() {
            let mut host = Host::ready_under(settings);
            host.command_with(0xD1, pattern);
            for command in 0xF0..=0xFF {
                let answer = host.command(command);
                assert_eq!(answer.pulse, 0xFF - command, "{command:02X}");
                assert_eq!(answer.port, 0x80 | pattern, "{command:02X}");
            }
            assert_eq!(host.status().pulse, 0);
        }
    }
}

#[test]
fn ps2_mode_pulses_two_lines() {
    for settings in IN_PS2_MODE {
        let mut host = Host::started(settings);
        for command in 0xF0..=0xFF {
            assert_eq!(host.command(command).pulse, (0xFF - command) & 0x03);
        }
    }
}

/// Bit 1 follows the keyboard; the mouse is not looked at.
#[test]
fn the_test_inputs() {
    for settings in IN_AT_MODE {
        let mut host = Host::started(settings);
        for byte in 0..=0x7F {
            host.command_with(0x60, byte);
            host.command(0xE0);
            let keyboard_on = byte & mode::KEYBOARD_OFF == 0;
            assert_eq!(host.read().byte, if keyboard_on { 3 } else { 1 });
        }
    }
}

#[test]
fn status_bit_5_is_the_transmit_time_out() {
    for bits in 0..8 {
        let mut state = Controller::fresh(Settings::AT_MODE);
        state.transmit_timeout = bits & 1 != 0;
        state.timeout_error = bits & 2 != 0;
        state.parity_error = bits & 4 != 0;
        assert_eq!(state.status(), 0x10 | bits << 5);
        state.pins = 0x7F;
        state.put(0xFE, Device::Mouse);
        assert_eq!(state.status(), 0x01 | bits << 5);
        // An overlay is there only in a state that no events make.
        state.overlay = Some(0x05);
        assert_eq!(state.status(), 0x51);
    }
}

#[test]
fn pins_and_reads_leave_latches_and_errors() {
    let mut host = Host::ready_under(Settings::AT_MODE);
    host.command_with(0xD1, 0x29);
    host.data(0xED);
    host.timed_out();
    for pins in 0..=0xFF {
        let answer = host.pins(pins);
        assert_eq!(answer.port, 0xA9);
        assert_eq!(answer.status, 0x21 | pins >> 7 << 4);
    }
    assert_eq!(host.read().status, 0x30);
    assert_eq!(host.read().port, 0xA9);
    assert_eq!(host.status().byte, 0x30);
}
