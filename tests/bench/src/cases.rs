//! The lists of the benchmark.

use model::{Settings, frame};

/// What every event past the set-up must be.
#[derive(Clone, Copy, PartialEq)]
enum Outcome {
    Accepted,
    Refused,
}

pub struct Case {
    pub list: Vec<u8>,
    setup: usize,
    outcome: Outcome,
}

fn event(kind: u8, value: u16) -> [u8; 3] {
    let [low, high] = value.to_le_bytes();
    [kind, low, high]
}

fn cycle(events: &[[u8; 3]], count: usize) -> Vec<u8> {
    events
        .iter()
        .cycle()
        .take(count)
        .flatten()
        .copied()
        .collect()
}

/// A key arrives and is read, then the output port, then the keyboard is
/// switched off. Switching it on stands first, since it is off when fresh.
pub fn mix(count: usize) -> Case {
    let events = [
        event(3, 0xAE),
        event(4, frame(0x1C)),
        event(2, 0),
        event(0, 0),
        event(3, 0xD0),
        event(2, 0),
        event(0, 0),
        event(3, 0xAD),
    ];
    Case {
        list: cycle(&events, count),
        setup: 0,
        outcome: Outcome::Accepted,
    }
}

/// The set 2 bytes of two keys, and the codes that they are translated to.
const KEY: u8 = 0x1C;
const CODE: u8 = 0x1E;
const OTHER_KEY: u8 = 0x32;
const OTHER_CODE: u8 = 0x30;

/// The code is loaded and locked with, then these keys come over and over.
fn locked_with(code: &[u8], keys: &[u8], count: usize) -> Case {
    let mut setup = vec![event(3, 0xAE), event(3, 0xA5)];
    setup.extend(code.iter().map(|&byte| event(1, u16::from(byte))));
    setup.extend([event(1, 0x00), event(3, 0xA6)]);
    let keys: Vec<_> = keys.iter().map(|&key| event(4, frame(key))).collect();
    let mut list = cycle(&setup, setup.len());
    list.extend(cycle(&keys, count));
    Case {
        list,
        setup: setup.len(),
        outcome: Outcome::Accepted,
    }
}

/// Wrong keys only, each ruled out by the first byte of the code.
fn tries() -> Case {
    locked_with(&[CODE, OTHER_CODE], &[0x32, 0x21, 0x23, 0x24, 0x2B], 6_994)
}

/// Fifteen equal bytes and another. The first key comes over and over, and each
/// after the fifteenth is a mismatch that keeps the position.
fn mismatches() -> Case {
    let mut code = [CODE; 16];
    code[15] = OTHER_CODE;
    locked_with(&code, &[KEY], 6_980)
}

/// A try for which each beginning of the code has to be compared to its end,
/// as no other code asks for: the last event of the list.
pub fn dearest() -> Case {
    let mut code = [OTHER_CODE; 16];
    code[0] = CODE;
    code[15] = CODE;
    let mut keys = [OTHER_KEY; 16];
    keys[0] = KEY;
    locked_with(&code, &keys, 16)
}

/// Unknown kind, value too large, device off, nothing being sent.
fn refused() -> Case {
    let events = [event(9, 0), event(2, 1), event(4, frame(0x1C)), event(6, 0)];
    Case {
        list: cycle(&events, 7_000),
        setup: 0,
        outcome: Outcome::Refused,
    }
}

pub fn by_name(name: &str) -> Option<Case> {
    match name {
        "mix-1" => Some(mix(1)),
        "mix-70" => Some(mix(70)),
        "mix-700" => Some(mix(700)),
        "mix-7000" => Some(mix(7_000)),
        "tries" => Some(tries()),
        "mismatches" => Some(mismatches()),
        "refused" => Some(refused()),
        _ => None,
    }
}

impl Case {
    /// Checks by the model that the case does what it is named for.
    pub fn check(&self) {
        let mut answers = vec![0; self.list.len() * 3];
        assert_eq!(model::run(Settings::ORDINARY, &self.list, &mut answers), 0);
        for answer in answers.chunks(9).skip(self.setup) {
            assert_eq!(answer[0] == 0, self.outcome == Outcome::Accepted);
        }
        if self.setup > 0 {
            self.check_locked();
        }
    }

    /// A write after the list is refused because of the lock.
    fn check_locked(&self) {
        let mut list = self.list[..self.list.len() - 3].to_vec();
        list.extend(event(1, 0));
        let mut answers = vec![0; list.len() * 3];
        assert_eq!(model::run(Settings::ORDINARY, &list, &mut answers), 0);
        assert_eq!(answers[answers.len() - 9], 4);
    }
}
