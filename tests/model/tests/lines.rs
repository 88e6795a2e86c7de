//! The lines with no event, and what an event would be refused by.

mod host;

use host::Host;
use model::frame;

#[test]
fn lines_of_a_fresh_controller() {
    let fresh = Host::fresh().state;
    assert_eq!(fresh.lines(), [0, 0, 0, 0x10, 0x4B, 0, 0, 0, 0]);
    assert_eq!(fresh.sent_byte(), 0);
}

#[test]
fn lines_show_the_byte_being_sent() {
    let mut host = Host::ready();
    host.command_with(0xD4, 0x14);
    assert_eq!(host.state.lines(), [0, 0, 0, 0x12, 0x03, 0, 2, 0x28, 0x06]);
    assert_eq!(host.state.sent_byte(), 0x14);
    host.taken();
    assert_eq!(host.state.lines(), [0, 0, 0, 0x10, 0x03, 0, 0, 0, 0]);
    assert_eq!(host.state.sent_byte(), 0);
}

/// What a read or a pulse told is not told again.
#[test]
fn lines_tell_nothing_of_the_last_event() {
    let mut host = Host::ready();
    host.command(0xF0);
    assert_eq!(host.state.lines()[5], 0);
    assert_eq!(host.read().old, 1);
    assert_eq!(host.state.lines()[..3], [0, 0, 0]);
    assert_eq!(host.event(9, 0).refusal, 1);
    assert_eq!(host.state.lines()[0], 0);
}

#[test]
fn a_frame_is_asked_about_and_not_fed() {
    let mut host = Host::fresh();
    let key = frame(0x1C);
    assert_eq!(host.state.refusal(4, key), 5);
    host.command(0xAE);
    assert_eq!(host.state.refusal(4, key), 0);
    assert_eq!(host.state.lines()[3] & 1, 0);
    host.key(0x1C);
    assert_eq!(host.state.refusal(4, key), 5);
    host.read();
    host.data(0xED);
    assert_eq!(host.state.refusal(4, key), 5);
    assert_eq!(host.state.refusal(1, 0x02), 3);
    host.taken();
    assert_eq!(host.state.refusal(4, key), 0);
}

#[test]
fn a_list_goes_on_from_its_state() {
    let mut host = Host::ready();
    host.key(0x1C);
    let before = host.state.clone();
    let mut answers = [0xA5; 10];
    assert_eq!(host.state.run(&[0, 0], &mut answers), 7);
    assert_eq!(host.state.run(&[0, 0, 0, 0, 0, 0], &mut answers), 8);
    assert_eq!((host.state.clone(), answers), (before, [0xA5; 10]));
    assert_eq!(host.state.run(&[0, 0, 0], &mut answers), 0);
    assert_eq!(answers[..3], [0, 0x1E, 0]);
    assert_eq!(answers[9], 0xA5);
    assert!(!host.state.full);
}
