//! Keys to press at a locked controller.

use crate::random::Random;
use model::{Controller, Counted, KeyTable, Settings, cell};

/// The set-2 make code that a table translates to `code`.
pub fn key_for(table: &KeyTable, code: u8) -> Option<u8> {
    (0x01..=0x7F).find(|&key| table.entry(key) == code)
}

/// The key that gives a code from 01h to 7Fh under some settings.
pub fn giving(settings: Settings, code: u8) -> u8 {
    key_for(&settings.table, code).expect("a code that a key gives")
}

/// False for a code that the lock ignores.
pub fn counts(state: &Controller, code: u8) -> bool {
    code < 0x80
        && cell::IGNORED
            .iter()
            .all(|&number| state.ram[number] != code)
}

/// The byte of the code that would make the position one more, or open.
fn next_byte(state: &Controller) -> Option<u8> {
    state.password.bytes().get(state.position()).copied()
}

/// The key that would be right now, if there is one.
pub fn right_key(state: &Controller) -> Option<u8> {
    let code = next_byte(state)?;
    if counts(state, code) {
        key_for(&state.settings.table, code)
    } else {
        None
    }
}

/// A make code that would not be right now. A part of the position may be kept
/// all the same.
pub fn wrong_key(state: &Controller, random: &mut Random) -> u8 {
    let right = right_key(state);
    loop {
        let key = random.byte_in(0x01..=0x7F);
        if Some(key) != right {
            return key;
        }
    }
}

/// One of the code's own keys that would not be right now, if there is one. Of
/// all wrong keys only these may keep a part of the position.
pub fn mismatch_key(state: &Controller, random: &mut Random) -> Option<u8> {
    let next = next_byte(state);
    let mismatch = |&byte: &u8| Some(byte) != next && counts(state, byte);
    let code = state.password.bytes().iter().copied();
    let others: Vec<u8> = code.filter(mismatch).collect();
    if others.is_empty() {
        None
    } else {
        key_for(&state.settings.table, random.pick(&others))
    }
}

/// Of the code's own keys that would not be right now the one that keeps the
/// most of the position, if any keeps a part.
pub fn keeping_key(state: &Controller) -> Option<u8> {
    let code = state.password.bytes();
    let next = next_byte(state);
    let mismatch = |&byte: &u8| Some(byte) != next && counts(state, byte);
    let kept = |byte| {
        let mut counted = Counted::first_of(code, state.position());
        counted.count(byte);
        counted.position(code)
    };
    let mismatches = code.iter().copied().filter(mismatch);
    let (_, byte) = mismatches.map(|byte| (kept(byte), byte)).max()?;
    key_for(&state.settings.table, byte).filter(|_| kept(byte) > 0)
}

/// A key that counts and is none of the code's, so that nothing is kept.
pub fn foreign_key(state: &Controller, random: &mut Random) -> u8 {
    let code = state.password.bytes();
    loop {
        let key = random.byte_in(0x01..=0x7F);
        let given = state.settings.table.entry(key);
        if counts(state, given) && !code.contains(&given) {
            return key;
        }
    }
}

/// False when no keys whatever can open the lock.
pub fn can_open(state: &Controller) -> bool {
    let code = state.password.bytes();
    !state.mode(model::mode::KEYBOARD_OFF) && code.iter().all(|&byte| counts(state, byte))
}

#[cfg(test)]
mod tests {
    use super::*;
    use crate::few_keys;
    use crate::under_settings::ORDINARY;

    const CODE: [u8; 7] = [0x1E, 0x30, 0x1E, 0x1E, 0x30, 0x1E, 0x2E];

    fn after(state: &Controller, key: u8) -> Controller {
        let mut state = state.clone();
        assert_eq!(state.event(4, model::frame(key))[0], 0);
        state
    }

    /// Of all keys the right one alone makes the position grow or opens.
    #[test]
    fn one_key_is_right() {
        for position in 0..CODE.len() {
            let state = few_keys::locked(ORDINARY, &CODE, position);
            let grows = |&key: &u8| {
                let after = after(&state, key);
                !after.locked || after.position() > position
            };
            let right: Vec<u8> = (0x01..=0x7F).filter(grows).collect();
            assert_eq!(right, [right_key(&state).expect("a key that counts")]);
        }
    }

    /// A code that is loaded may hold a byte that no key gives there.
    #[test]
    fn none_is_right_for_a_byte_that_does_not_count() {
        let mut state = few_keys::locked(ORDINARY, &CODE, 1);
        state.ram[0x17] = 0x30;
        assert_eq!(right_key(&state), None);
        assert!(!can_open(&state));
        let state = few_keys::locked(ORDINARY, &[0x1E, 0x9E], 1);
        assert_eq!(right_key(&state), None);
    }

    #[test]
    fn a_mismatch_is_wrong_and_a_foreign_key_keeps_nothing() {
        let mut random = Random::new(8);
        let mut kept = [0; CODE.len()];
        for position in 0..CODE.len() {
            let state = few_keys::locked(ORDINARY, &CODE, position);
            for _ in 0..100 {
                let mismatch = mismatch_key(&state, &mut random).expect("two other keys");
                let after_mismatch = after(&state, mismatch);
                assert!(after_mismatch.locked && after_mismatch.position() <= position);
                kept[after_mismatch.position()] += 1;
                let most = keeping_key(&state).map_or(0, |key| after(&state, key).position());
                assert!((after_mismatch.position()..=position).contains(&most));
                let foreign = foreign_key(&state, &mut random);
                assert_eq!(after(&state, foreign).position(), 0);
                let wrong = wrong_key(&state, &mut random);
                assert!(after(&state, wrong).position() <= position);
            }
        }
        assert!(kept[0] > 0 && kept[1] > 0 && kept[2] > 0, "{kept:?}");
        let one_key = few_keys::locked(ORDINARY, &[0x1E; 4], 2);
        assert_eq!(mismatch_key(&one_key, &mut random), None);
        assert_eq!(keeping_key(&one_key), None);
    }
}
