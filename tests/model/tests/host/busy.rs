//! What a command does to a state in which each command has something to change,
//! against what an unknown one leaves.

use super::Host;
use model::{Controller, Password, Pending, Settings, mode};

/// What AT mode switches off, with either set.
pub const SWITCHED_OFF: [u8; 11] = [
    0xA4, 0xA5, 0xA6, 0xA7, 0xA8, 0xA9, 0xC1, 0xC2, 0xD2, 0xD3, 0xD4,
];

pub const PENDINGS: [Pending; 8] = [
    Pending::None,
    Pending::Mode,
    Pending::Cell(31),
    Pending::Password,
    Pending::OutputPort,
    Pending::Output,
    Pending::MouseOutput,
    Pending::SendToMouse,
];

fn password(code: &[u8]) -> Password {
    let mut password = Password::EMPTY;
    for &byte in code {
        password.push(byte);
    }
    password
}

/// A state in which each command has something to change, with the given code
/// pending. Events make it only in part.
pub fn busy(settings: Settings, pending: Pending) -> Host {
    let mut host = Host::started(settings.with_version(0xC3));
    host.state.ram = std::array::from_fn(|cell| 0xA0 + cell as u8);
    host.state.ram[0] = mode::EKI | mode::TRANSLATE | mode::KEYBOARD_OFF | mode::MOUSE_OFF;
    host.state.pins = 0x5A;
    host.state.overlay = Some(0x0C);
    host.state.password = password(&[0x1E, 0x30]);
    host.state.pending = pending;
    if settings.second_set {
        host.state.latches_1 = 0b10_0101;
        host.state.latch_22 = false;
    }
    host
}

/// What an unknown command leaves.
fn after_unknown(state: &Controller) -> Controller {
    let mut after = state.clone();
    after.command_flag = true;
    after.overlay = None;
    after.pending = Pending::None;
    if state.pending == Pending::Password {
        after.password = Password::EMPTY;
    }
    after
}

/// Each of the commands, over each pending code, leaves just what an unknown one
/// does, and the byte after it is for the keyboard.
pub fn assert_unknown(settings: Settings, commands: &[u8]) {
    for pending in PENDINGS {
        for &command in commands {
            let mut host = busy(settings, pending);
            let expected = after_unknown(&host.state);
            let answer = host.command(command);
            assert_eq!(host.state, expected, "{command:02X} {pending:?}");
            assert_eq!((answer.pulse, answer.destination), (0, 0));
            let answer = host.data(0x14);
            assert_eq!((answer.destination, answer.frame), (1, 0x628));
            assert!(!host.state.mode(mode::KEYBOARD_OFF));
        }
    }
}

/// Whether the command does something more than an unknown one.
pub fn acts(settings: Settings, command: u8) -> bool {
    let mut host = busy(settings, Pending::None);
    // So that A7h has something to set and A8h something to clear.
    host.state.ram[0] ^= if command == 0xA7 { mode::MOUSE_OFF } else { 0 };
    let unknown = after_unknown(&host.state);
    host.command(command);
    host.state != unknown
}

/// From fresh, A5h starts no load, its bytes being for the keyboard, and A6h does
/// not lock.
pub fn assert_loads_no_code(settings: Settings) -> Host {
    let mut host = Host::ready_under(settings);
    host.command(0xA5);
    assert_eq!(host.data(0x1E).destination, 1);
    assert_eq!(host.event(1, 0x30).refusal, 3);
    host.taken();
    assert_eq!(host.data(0).destination, 1);
    host.taken();
    host.command(0xA6);
    assert!(!host.state.locked && host.state.password.is_empty());
    host
}
