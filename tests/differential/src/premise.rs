//! When two lists must be answered alike.

use crate::event::{Event, kind};
use model::{Controller, EVENT_SIZE, Pending, Settings, Verdict, judge};

/// A nonzero byte written to port 60h.
pub fn is_code_byte(event: Event) -> bool {
    event.kind == kind::WRITE_DATA && (0x01..=0xFF).contains(&event.value)
}

/// A sound keyboard frame of a byte from 01h to 7Fh.
pub fn is_plain_key(event: Event) -> bool {
    event.kind == kind::KEYBOARD_FRAME && matches!(judge(event.value), Verdict::Sound(0x01..=0x7F))
}

/// True when two events may stand at one place, by the first list's state.
pub fn may_pair(state: &Controller, first: Event, second: Event) -> bool {
    let both = |test: fn(Event) -> bool| test(first) && test(second);
    first == second
        || state.pending == Pending::Password && both(is_code_byte)
        || state.locked && both(is_plain_key)
}

/// Carries out an event; true when it opens the lock.
pub fn opens(state: &mut Controller, event: Event) -> bool {
    let was_locked = state.locked;
    state.event(event.kind, event.value);
    was_locked && !state.locked
}

/// True when the two lists, which share the settings, differ only in secrets
/// and open at the same places.
pub fn comparable(settings: Settings, first: &[u8], second: &[u8]) -> bool {
    comparable_from(&Controller::fresh(settings), first, second)
}

/// The same of two lists from a given state.
pub fn comparable_from(state: &Controller, first: &[u8], second: &[u8]) -> bool {
    if first.len() != second.len() {
        return false;
    }
    let mut first_state = state.clone();
    let mut second_state = state.clone();
    let places = first
        .chunks_exact(EVENT_SIZE)
        .zip(second.chunks_exact(EVENT_SIZE));
    for (one, other) in places {
        let (one, other) = (Event::from_bytes(one), Event::from_bytes(other));
        if !may_pair(&first_state, one, other) {
            return false;
        }
        if opens(&mut first_state, one) != opens(&mut second_state, other) {
            return false;
        }
    }
    true
}

#[cfg(test)]
mod tests {
    use super::*;
    use crate::few_keys;
    use crate::keys;
    use crate::under_settings::{MOUSE_LOCK, ORDINARY, locks};
    use model::mode;

    /// Switches the keyboard on, loads two bytes, locks and types two keys.
    fn list(code: [u8; 2], keys: [u8; 2]) -> Vec<u8> {
        [
            Event::command(0xAE),
            Event::command(0xA5),
            Event::data(code[0]),
            Event::data(code[1]),
            Event::data(0),
            Event::command(0xA6),
            Event::key(keys[0]),
            Event::key(keys[1]),
        ]
        .iter()
        .flat_map(|event| event.to_bytes())
        .collect()
    }

    /// In AT mode and with the second set no code is loaded from fresh, so no two
    /// lists differ in secrets only.
    fn secrets_may_differ_where_the_lock_opens_alike(settings: Settings) {
        let pair = |one: &[u8], other: &[u8]| comparable(settings, one, other);
        let loads = locks(settings);
        let [a, b] = [0x1E, 0x30].map(|code| keys::giving(settings, code));
        let opened = list([0x1E, 0x30], [a, b]);
        assert!(pair(&opened, &opened));
        let other_opened = list([0x30, 0x1E], [b, a]);
        assert_eq!(pair(&opened, &other_opened), loads);
        assert!(!pair(&opened, &list([0x1E, 0x30], [a, a])));
        assert!(!pair(&opened, &list([0x30, 0x30], [a, b])));
        let shut = [list([1, 2], [a, b]), list([0xFF, 0x80], [0x7F, 1])];
        assert_eq!(pair(&shut[0], &shut[1]), loads);
    }

    fn nothing_else_may_differ(settings: Settings) {
        let pair = |one: &[u8], other: &[u8]| comparable(settings, one, other);
        let base = list([0x11, 0x12], [0x01, 0x02]);
        assert!(!pair(&base, &list([0x11, 0x00], [0x01, 0x02])));
        assert!(!pair(&base, &list([0x11, 0x12], [0x01, 0xF0])));
        assert!(!pair(&base, &list([0x11, 0x12], [0x00, 0x02])));
        assert!(!pair(&base, &base[3..]));
        let mut other_command = base.clone();
        other_command[1] = 0xA8;
        assert!(!pair(&base, &other_command));
    }

    /// The lock is shut from the start, under all settings.
    fn keys_may_differ_from_a_locked_state(settings: Settings) {
        let mut state = Controller::fresh(settings);
        state.clear_mode(mode::KEYBOARD_OFF);
        state.password.push(0x1E);
        state.locked = true;
        let list = |key| Event::key(key).to_bytes();
        let keys = [0x1E, 0x30, 0x2E].map(|code| keys::giving(settings, code));
        let [right, wrong, other] = keys.map(list);
        assert!(comparable_from(&state, &wrong, &other));
        assert!(comparable_from(&state, &right, &right));
        assert!(!comparable_from(&state, &wrong, &right));
        assert!(!comparable(settings, &wrong, &other));
    }

    /// Loads a code, locks and types, in a list of its own for each code.
    fn typed_at(code: &[u8], keys: &[u8]) -> Vec<u8> {
        let load = [Event::command(0xAE), Event::command(0xA5)];
        let code = code.iter().map(|&byte| Event::data(byte));
        let lock = [Event::data(0), Event::command(0xA6)];
        let keys = keys.iter().map(|&key| Event::key(key));
        let events = load.into_iter().chain(code).chain(lock).chain(keys);
        events.flat_map(Event::to_bytes).collect()
    }

    /// The places of opening are those at which the last keys are the code,
    /// whatever mismatches come before.
    #[test]
    fn mismatches_move_no_opening() {
        let pair = |one: &[u8], other: &[u8]| comparable(ORDINARY, one, other);
        let [a, b, other] = [0x1C, 0x32, 0x21];
        let code = [0x1E, 0x1E, 0x30];
        let mismatched = typed_at(&code, &[a, a, a, b]);
        // Opened at the fourth key too, after another wrong key.
        assert!(pair(&mismatched, &typed_at(&code, &[other, a, a, b])));
        let palindrome = [0x1E, 0x30, 0x1E];
        assert!(pair(&mismatched, &typed_at(&palindrome, &[a, a, b, a])));
        // Shut to the end, as a lock would be that throws a start away.
        for keys in [[a, a, a, a], [a, a, other, b], [b, b, b, b]] {
            assert!(!pair(&mismatched, &typed_at(&code, &keys)));
            assert!(!pair(&typed_at(&code, &keys), &mismatched));
        }
        // Opened one key earlier.
        assert!(!pair(&mismatched, &typed_at(&code, &[a, a, b, b])));
        let shut = typed_at(&code, &[a, a, a, a]);
        assert!(pair(&shut, &typed_at(&palindrome, &[a, b, b, a])));
        assert!(!pair(&shut, &typed_at(&palindrome, &[a, a, b, a])));
    }

    /// From a lock that is shut within its code, under all settings.
    fn mismatches_move_no_opening_from_a_locked_state(settings: Settings) {
        let [a, b, other] = [0x1E, 0x30, 0x2E].map(|code| keys::giving(settings, code));
        let list = |keys: &[u8]| -> Vec<u8> {
            let keys = keys.iter().map(|&key| Event::key(key));
            keys.flat_map(Event::to_bytes).collect()
        };
        let code = [0x1E, 0x30, 0x1E, 0x30, 0x30];
        let state = few_keys::locked(settings, &code, 4);
        let pair = |one: &[u8], other: &[u8]| comparable_from(&state, &list(one), &list(other));
        assert!(pair(&[a, b, b], &[a, b, b]));
        assert!(!pair(&[a, b, b], &[other, b, b]));
        assert!(pair(&[a, b, a], &[other, b, b]));
        assert!(!pair(&[a, a, b, a, b, b], &[b, a, b, a, b, b]));
        assert!(pair(&[a, a, b, a, b, b], &[other, a, b, a, b, b]));
    }

    /// A mouse byte that waits unread has the key refused. The mouse lock keeps
    /// that byte back, so that the right key opens.
    #[test]
    fn the_settings_decide_whether_a_key_counts() {
        let list = |key| -> Vec<u8> {
            [
                Event::command(0x60),
                Event::data(mode::INHIBIT_OVERRIDE),
                Event::pins(0x7F),
                Event::mouse(0x14),
                Event::command(0xA5),
                Event::data(0x1E),
                Event::data(0),
                Event::command(0xA6),
                Event::key(key),
            ]
            .iter()
            .flat_map(|event| event.to_bytes())
            .collect()
        };
        let (right, wrong) = (list(0x1C), list(0x32));
        assert!(comparable(ORDINARY, &right, &wrong));
        assert!(!comparable(MOUSE_LOCK, &right, &wrong));
    }

    fn noise_values() -> impl Iterator<Item = u16> {
        (1..0x800).step_by(2)
    }

    /// A key is a sound frame, and noise is none, whatever its data bits.
    fn noise_may_not_differ_while_locked(settings: Settings) {
        let mut locked = Controller::fresh(settings);
        locked.password.push(0x1E);
        locked.locked = true;
        let keys = [Event::key(0x1C), Event::key(0x32)];
        assert!(may_pair(&locked, keys[0], keys[1]));
        for kind in [kind::KEYBOARD_FRAME, kind::MOUSE_FRAME] {
            for value in noise_values() {
                let noise = Event::new(kind, value);
                assert!(may_pair(&locked, noise, noise), "{noise:?}");
                let without = |bits: u16| Event::new(kind, value ^ bits);
                let others = [without(0x002), without(0x200), without(0x400), without(1)];
                for other in others.into_iter().chain(keys) {
                    assert!(!may_pair(&locked, noise, other), "{noise:?} {other:?}");
                    assert!(!may_pair(&locked, other, noise), "{other:?} {noise:?}");
                }
            }
        }
    }

    /// Noise between the keys, the same in both lists, leaves two different
    /// codes comparable, where there are codes; other noise in one of them does
    /// not.
    fn noise_must_be_the_same_in_both_lists(settings: Settings) {
        let noisy = |code, keys, noise: u16| -> Vec<u8> {
            let mut list = list(code, keys);
            let last = list.split_off(list.len() - EVENT_SIZE);
            list.extend(Event::new(kind::KEYBOARD_FRAME, noise).to_bytes());
            list.extend(last);
            list
        };
        let [a, b] = [0x1E, 0x30].map(|code| keys::giving(settings, code));
        let opened = noisy([0x1E, 0x30], [a, b], 0x629);
        let same_noise = noisy([0x30, 0x1E], [b, a], 0x629);
        let comparable_codes = comparable(settings, &opened, &same_noise);
        assert_eq!(comparable_codes, locks(settings));
        for value in noise_values().filter(|&value| value != 0x629) {
            let other_noise = noisy([0x30, 0x1E], [b, a], value);
            assert!(!comparable(settings, &opened, &other_noise), "{value:03X}");
        }
        // Damage in its place has the first list's lock stay shut.
        let damaged = noisy([0x30, 0x1E], [b, a], 0x428);
        assert!(!comparable(settings, &opened, &damaged));
        let wrong = noisy([0x30, 0x1E], [b, b], 0x629);
        assert!(!comparable(settings, &opened, &wrong));
    }

    crate::under_every_setting!(
        secrets_may_differ_where_the_lock_opens_alike,
        nothing_else_may_differ,
        keys_may_differ_from_a_locked_state,
        mismatches_move_no_opening_from_a_locked_state,
        noise_may_not_differ_while_locked,
        noise_must_be_the_same_in_both_lists,
    );
}
