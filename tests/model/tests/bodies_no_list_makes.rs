//! Bodies that keep the rules though no list from fresh makes them: each rule goes
//! by what it reads.

mod host;

use host::Host;
use host::saved::{fresh_body, sealed, with_bytes};
use host::{IN_AT_MODE, SECOND_SET, SECOND_SET_IN_AT_MODE, SECOND_SET_IN_PS2_MODE};
use model::{Pending, Settings, load, save};

/// A fresh controller with bytes of its body changed, loaded.
fn loaded(settings: Settings, changes: &[(usize, u8)]) -> Host {
    let body = with_bytes(fresh_body(settings), changes);
    let state = load(settings.version, &sealed(&body)).expect("an image");
    assert_eq!(save(&state).to_vec(), sealed(&body));
    Host { state }
}

/// The keyboard on and the code 1Eh 30h in place, locked with or not.
const CODE: [(usize, u8); 4] = [(28, 0x60), (10, 2), (12, 0x1E), (13, 0x30)];
const LOCKED: [(usize, u8); 5] = [(28, 0x60), (10, 2), (12, 0x1E), (13, 0x30), (1, 0x40)];

/// The choices without a lock of their own.
fn without_lock() -> Vec<Settings> {
    [&SECOND_SET[..], &IN_AT_MODE].concat()
}

/// Writes are refused, keys are tries, and the code opens.
#[test]
fn a_closed_lock_opens() {
    for settings in without_lock() {
        let mut host = loaded(settings, &LOCKED);
        assert_eq!(host.event(3, 0xAA).refusal, 4);
        assert_eq!(host.event(1, 0).refusal, 4);
        host.keys(&[0x1C, 0x1C]);
        assert_eq!(save(&host.state)[11], 1);
        host = host.restored();
        host.key(0x32);
        assert!(!host.state.locked);
        assert_eq!(save(&host.state)[10..14], [2, 0, 0x1E, 0x30]);
        // Nothing locks again.
        host.command(0xA6);
        assert!(!host.state.locked);
    }
}

/// A notice is put by the lock that opens, in AT mode too.
#[test]
fn a_lock_that_opens_puts_its_notice() {
    for settings in without_lock() {
        let changes = [&LOCKED[..], &[(28 + 0x14, 0x77), (11, 1)]].concat();
        let mut host = loaded(settings, &changes);
        assert_eq!(host.key(0x32).status & 0x01, 1);
        assert_eq!(host.read().byte, 0x77);
    }
}

#[test]
fn a_mouse_frame_at_a_closed_lock_of_the_second_set() {
    for settings in SECOND_SET_IN_PS2_MODE {
        let changes = [&LOCKED[..], &[(28, 0x40)]].concat();
        let mut host = loaded(settings, &changes);
        assert_eq!(host.mouse(0x14).status & 0x21, 0);
    }
    for settings in SECOND_SET_IN_AT_MODE {
        let mut host = loaded(settings, &LOCKED);
        assert_eq!(host.event(5, 0x628).refusal, 12);
    }
}

/// A4h of the second set says that there is none; a new load cannot be started.
#[test]
fn a_code_stays_with_the_second_set() {
    for settings in SECOND_SET_IN_PS2_MODE {
        let mut host = loaded(settings, &CODE);
        assert_eq!(host.password_test(), 0xF1);
        host.command(0xA5);
        assert_eq!(host.data(0x2E).destination, 1);
        assert_eq!(save(&host.state)[10..14], [2, 0, 0x1E, 0x30]);
    }
}

/// Bytes append until 00h, and a command before that drops them.
#[test]
fn a_load_under_way_goes_on() {
    for settings in without_lock() {
        let changes = [&CODE[..], &[(4, 3)]].concat();
        let mut host = loaded(settings, &changes);
        assert_eq!(host.data(0x2E).destination, 0);
        host = host.restored();
        assert_eq!(host.state.pending, Pending::Password);
        host.data(0x00);
        assert_eq!(save(&host.state)[10..16], [3, 0, 0x1E, 0x30, 0x2E, 0]);
        assert_eq!(host.data(0x2E).destination, 1);
        let mut host = loaded(settings, &changes);
        host.command(0x20);
        assert_eq!(save(&host.state)[10..14], [0, 0, 0, 0]);
        let mut host = loaded(settings, &changes);
        for _ in 0..15 {
            host.data(0xFF);
        }
        assert_eq!(save(&host.state)[10..13], [0, 0, 0]);
        assert_eq!(host.state.pending, Pending::None);
    }
}

/// AT mode has no bit for the source: bit 5 is the transmit time-out, and the
/// interrupt is the keyboard's.
#[test]
fn a_mouse_byte_in_at_mode() {
    for settings in [IN_AT_MODE, SECOND_SET_IN_AT_MODE].concat() {
        let changes = [(0, 0x14), (1, 0x03), (28, 0x43)];
        let mut host = loaded(settings, &changes);
        let answer = host.status();
        assert_eq!((answer.status, answer.port), (0x11, 0x9F));
        assert_eq!(host.read().byte, 0x14);
        assert_eq!(save(&host.state)[1] & 0x03, 0);
    }
}

#[test]
fn an_overlay_in_at_mode() {
    for settings in IN_AT_MODE {
        let mut host = loaded(settings, &[(6, 1), (7, 0x0A), (63, 1)]);
        assert_eq!(host.status().status, 0xA0);
        host.pins(0x00);
        assert_eq!(host.status().status, 0xA0);
        assert_eq!(host.command(0x00).status, 0x28);
    }
    for settings in SECOND_SET_IN_AT_MODE {
        let mut host = loaded(settings, &[(6, 1), (7, 0x0A), (63, 1)]);
        assert_eq!(host.status().status, 0xB0);
        host.pins(0x00);
        assert_eq!(host.status().status, 0xA0);
        assert_eq!(host.command(0x00).status, 0x28);
    }
}

/// The codes that D2h, D3h and D4h leave, which do nothing in AT mode.
#[test]
fn pending_codes_of_ps2_mode_in_at_mode() {
    for settings in [IN_AT_MODE, SECOND_SET_IN_AT_MODE].concat() {
        let mut host = loaded(settings, &[(4, 5)]);
        assert_eq!(host.data(0x42).status & 0x01, 1);
        assert_eq!(save(&host.state)[..2], [0x42, 0x01]);
        let mut host = loaded(settings, &[(4, 6)]);
        host.data(0x42);
        assert_eq!(save(&host.state)[..2], [0x42, 0x03]);
        let mut host = loaded(settings, &[(4, 7)]);
        let answer = host.data(0xF4);
        assert_eq!(answer.destination, 2);
        assert_eq!(host.restored().timed_out().status, 0x31);
        assert_eq!(host.timed_out().status, 0x31);
        assert_eq!(save(&host.state)[..2], [0xFE, 0x03]);
        assert_eq!(save(&host.state)[63], 1);
    }
}
