//! Loading a code with A5h.

mod host;

use host::Host;
use model::Pending;

const NONE: u8 = 0xF1;
const PRESENT: u8 = 0xFA;

#[test]
fn sixteen_bytes_load() {
    let mut host = Host::ready();
    host.load(&[0x1E; 16]);
    assert_eq!(host.password_test(), PRESENT);
    assert_eq!(host.state.password.len(), 16);
}

#[test]
fn seventeenth_byte_ends_the_load_without_a_password() {
    let mut host = Host::ready();
    host.command(0xA5);
    for _ in 0..16 {
        assert_eq!(host.data(0x1E).destination, 0);
        assert_eq!(host.state.pending, Pending::Password);
    }
    assert_eq!(host.data(0x1E).destination, 0);
    assert_eq!(host.state.pending, Pending::None);
    // The load is over, so this one is for the keyboard.
    assert_eq!(host.data(0x1E).destination, 1);
    host.taken();
    assert_eq!(host.password_test(), NONE);
}

#[test]
fn a_command_during_a_load_leaves_no_password() {
    let mut host = Host::ready();
    host.load(&[0x30]);
    host.command(0xA5);
    host.data(0x1E);
    host.data(0x30);
    // A4h itself already sees that the code is gone.
    assert_eq!(host.password_test(), NONE);
    host.command(0xA5);
    host.data(0x1E);
    host.command(0xA6);
    assert!(!host.state.locked);
}

#[test]
fn zero_at_once_leaves_no_password() {
    let mut host = Host::ready();
    host.load(&[0x30]);
    assert_eq!(host.password_test(), PRESENT);
    host.load(&[]);
    assert_eq!(host.password_test(), NONE);
    assert_eq!(host.state.pending, Pending::None);
}

#[test]
fn lock_needs_a_password() {
    let mut host = Host::ready();
    host.command(0xA6);
    assert!(!host.state.locked);
    assert_eq!(host.data(0x55).refusal, 0);
}
