//! Refused events and refused lists.

mod host;

use host::Host;
use model::{Settings, run};

#[test]
fn malformed_events() {
    let mut host = Host::fresh();
    assert_eq!(host.event(9, 0).refusal, 1);
    assert_eq!(host.event(255, 0xFFFF).refusal, 1);
    for kind in [0, 2, 6, 7] {
        assert_eq!(host.event(kind, 1).refusal, 2);
    }
    for kind in [1, 3, 8] {
        assert_eq!(host.event(kind, 256).refusal, 2);
    }
    for kind in [4, 5] {
        assert_eq!(host.event(kind, 2048).refusal, 2);
    }
    assert_eq!(host.event(6, 0).refusal, 6);
    assert_eq!(host.event(7, 0).refusal, 6);
}

#[test]
fn refused_event_shows_the_unchanged_lines() {
    let mut host = Host::fresh();
    host.command_with(0xD4, 0x14);
    let before = host.state.clone();
    let lines = host.status();
    let answer = host.event(3, 0xF0);
    assert_eq!(
        (answer.refusal, answer.byte, answer.old, answer.pulse),
        (3, 0, 0, 0)
    );
    assert_eq!((answer.status, answer.port), (lines.status, lines.port));
    assert_eq!((answer.destination, answer.frame), (2, 0x628));
    assert_eq!(host.state, before);
}

#[test]
fn refused_lists_write_nothing() {
    let cases = [
        (1, 9, 7),
        (2, 9, 7),
        (4, 18, 7),
        (3, 8, 8),
        (6, 17, 8),
        (21_003, 70_000, 7),
    ];
    for (list, room, refusal) in cases {
        let mut answers = vec![0xA5; room];
        assert_eq!(
            run(Settings::ORDINARY, &vec![2; list], &mut answers),
            refusal
        );
        assert!(answers.iter().all(|&byte| byte == 0xA5));
    }
}

#[test]
fn accepted_lists_leave_the_rest() {
    for (list, room) in [
        (0, 0),
        (0, 5),
        (3, 9),
        (3, 17),
        (21_000, 63_000),
        (21_000, 63_001),
    ] {
        let mut answers = vec![0xA5; room];
        assert_eq!(run(Settings::ORDINARY, &vec![0; list], &mut answers), 0);
        assert!(answers[list * 3..].iter().all(|&byte| byte == 0xA5));
        assert!(answers[..list * 3].chunks(9).all(|answer| answer[2] == 1));
    }
}
