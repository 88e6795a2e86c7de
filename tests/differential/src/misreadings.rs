//! Readings of the lock's rule that are wrong in one way each. Where a misread
//! lock would be open and the real one is shut, or the other way round, the
//! events have told the two apart.

use crate::event::{Event, kind};
use crate::under_settings::locks;
use model::{Controller, Counted, Settings, Verdict, cell, judge};

/// What an event is to the lock.
#[derive(Clone, Copy, Debug, PartialEq, Eq)]
pub enum Happening {
    /// The lock was open and is shut.
    Shut,
    /// A key that counts.
    Key(u8),
    BreakCode(u8),
    /// The key of cell 16h, and that of cell 17h.
    FirstIgnored(u8),
    SecondIgnored(u8),
    /// A key that was swallowed by inhibit.
    Swallowed(u8),
    /// A key that a check refused.
    Refused(u8),
    Broken,
    WrongParity,
    Noise,
    /// Frames of the mouse, refused or not.
    MouseByte(u8),
    MouseDamage,
    MouseNoise,
    Other,
}

impl Happening {
    pub fn of(before: &Controller, event: Event, refusal: u8, after: &Controller) -> Happening {
        if !before.locked {
            return if after.locked {
                Happening::Shut
            } else {
                Happening::Other
            };
        }
        match event.kind {
            kind::KEYBOARD_FRAME if refusal == 0 => of_keyboard(before, event.value),
            kind::KEYBOARD_FRAME => of_refused(before, event.value),
            kind::MOUSE_FRAME => of_mouse(event.value),
            _ => Happening::Other,
        }
    }
}

fn of_keyboard(before: &Controller, frame: u16) -> Happening {
    match judge(frame) {
        Verdict::Broken => Happening::Broken,
        Verdict::WrongParity => Happening::WrongParity,
        Verdict::Noise => Happening::Noise,
        Verdict::Sound(byte) => match before.settings.table.translate(byte, before.break_flag) {
            (Some(code), _) => of_code(before, code),
            (None, _) => Happening::Other,
        },
    }
}

fn of_code(before: &Controller, code: u8) -> Happening {
    let [first, second] = cell::IGNORED.map(|number| before.ram[number]);
    if before.inhibited() {
        Happening::Swallowed(code)
    } else if code & 0x80 != 0 {
        Happening::BreakCode(code)
    } else if code == first {
        Happening::FirstIgnored(code)
    } else if code == second {
        Happening::SecondIgnored(code)
    } else {
        Happening::Key(code)
    }
}

/// By its low bits, since the value may have been too large for a frame.
fn of_refused(before: &Controller, value: u16) -> Happening {
    match judge(value & 0x7FF) {
        Verdict::Sound(byte) => Happening::Refused(before.settings.table.entry(byte)),
        _ => Happening::Other,
    }
}

fn of_mouse(value: u16) -> Happening {
    match judge(value) {
        Verdict::Sound(byte) => Happening::MouseByte(byte),
        Verdict::Noise => Happening::MouseNoise,
        Verdict::Broken | Verdict::WrongParity => Happening::MouseDamage,
    }
}

/// What comes of it for the keys counted.
#[derive(Clone, Copy)]
enum Effect {
    Nothing,
    Counts(u8),
    StartsAfresh,
}

use Effect::{Counts, Nothing, StartsAfresh};

fn by_the_rule(happening: Happening) -> Effect {
    match happening {
        Happening::Shut | Happening::Broken | Happening::WrongParity => StartsAfresh,
        Happening::Key(code) => Counts(code),
        _ => Nothing,
    }
}

/// The effect where it is misread.
type Misread = fn(Happening) -> Option<Effect>;

/// Where counting is misread.
const OF_COUNTING: [(&str, Misread); 18] = [
    ("locking goes on counting", |happening| {
        (happening == Happening::Shut).then_some(Nothing)
    }),
    ("a broken frame is passed over", |happening| {
        (happening == Happening::Broken).then_some(Nothing)
    }),
    ("a wrong parity is passed over", |happening| {
        (happening == Happening::WrongParity).then_some(Nothing)
    }),
    ("noise starts afresh", |happening| {
        (happening == Happening::Noise).then_some(StartsAfresh)
    }),
    ("noise of the mouse starts afresh", |happening| {
        (happening == Happening::MouseNoise).then_some(StartsAfresh)
    }),
    ("damage of the mouse starts afresh", |happening| {
        (happening == Happening::MouseDamage).then_some(StartsAfresh)
    }),
    ("bytes of the mouse start afresh", |happening| {
        matches!(happening, Happening::MouseByte(_)).then_some(StartsAfresh)
    }),
    ("bytes of the mouse count", |happening| match happening {
        Happening::MouseByte(byte) => Some(Counts(byte)),
        _ => None,
    }),
    ("break codes start afresh", |happening| {
        matches!(happening, Happening::BreakCode(_)).then_some(StartsAfresh)
    }),
    ("break codes count as keys", |happening| match happening {
        Happening::BreakCode(code) => Some(Counts(code & 0x7F)),
        _ => None,
    }),
    ("the key of cell 16h starts afresh", |happening| {
        matches!(happening, Happening::FirstIgnored(_)).then_some(StartsAfresh)
    }),
    ("the key of cell 16h counts", |happening| match happening {
        Happening::FirstIgnored(code) => Some(Counts(code)),
        _ => None,
    }),
    ("the key of cell 17h starts afresh", |happening| {
        matches!(happening, Happening::SecondIgnored(_)).then_some(StartsAfresh)
    }),
    ("the key of cell 17h counts", |happening| match happening {
        Happening::SecondIgnored(code) => Some(Counts(code)),
        _ => None,
    }),
    ("swallowed keys start afresh", |happening| {
        matches!(happening, Happening::Swallowed(_)).then_some(StartsAfresh)
    }),
    ("swallowed keys count", |happening| match happening {
        Happening::Swallowed(code) => Some(Counts(code)),
        _ => None,
    }),
    ("refused keys start afresh", |happening| {
        matches!(happening, Happening::Refused(_)).then_some(StartsAfresh)
    }),
    ("refused keys count", |happening| match happening {
        Happening::Refused(code) => Some(Counts(code)),
        _ => None,
    }),
];

/// The position after a key, by the code and the position before it; the length
/// of the code where that opens.
type Next = fn(&[u8], usize, u8) -> usize;

/// Where a wrong key is misread. None of these opens where the rule does not.
const OF_WRONG_KEYS: [(&str, Next); 3] = [
    ("a wrong key throws all away", all_thrown_away),
    (
        "a wrong key is a first key or nothing",
        |code, position, key| match all_thrown_away(code, position, key) {
            0 => all_thrown_away(code, 0, key),
            next => next,
        },
    ),
    (
        "only the longest part is tried",
        |code, position, key| match all_thrown_away(code, position, key) {
            0 => all_thrown_away(code, part(code, position), key),
            next => next,
        },
    ),
];

/// The rule as it once was.
pub fn all_thrown_away(code: &[u8], position: usize, key: u8) -> usize {
    if code.get(position) == Some(&key) {
        position + 1
    } else {
        0
    }
}

/// The longest shorter beginning of the code that one of its beginnings ends
/// with.
fn part(code: &[u8], position: usize) -> usize {
    let mut shorter = (0..position).rev();
    let longest = shorter.find(|&length| code[..position].ends_with(&code[..length]));
    longest.unwrap_or(0)
}

/// One lock for each misreading, and how often events told it apart.
#[derive(Clone, Debug, Default)]
pub struct Misreadings {
    lists: [Counted; OF_COUNTING.len()],
    positions: [usize; OF_WRONG_KEYS.len()],
    counting_told: [usize; OF_COUNTING.len()],
    wrong_keys_told: [usize; OF_WRONG_KEYS.len()],
}

impl Misreadings {
    /// Goes on from a state, whatever came before.
    pub fn start(&mut self, state: &Controller) {
        let position = state.position();
        let code = state.password.bytes();
        self.lists.fill(Counted::first_of(code, position));
        self.positions.fill(position);
    }

    /// Takes what happened at the real lock, and whether that opened it.
    pub fn note(&mut self, code: &[u8], happening: Happening, opened: bool) {
        self.note_counting(code, happening, opened);
        self.note_wrong_keys(code, happening, opened);
    }

    fn note_counting(&mut self, code: &[u8], happening: Happening, opened: bool) {
        let misread = OF_COUNTING.into_iter().zip(&mut self.lists);
        for (((_, effect), list), told) in misread.zip(&mut self.counting_told) {
            let effect = effect(happening).unwrap_or(by_the_rule(happening));
            *told += usize::from(takes(list, effect, code) != opened);
        }
    }

    fn note_wrong_keys(&mut self, code: &[u8], happening: Happening, opened: bool) {
        let misread = OF_WRONG_KEYS.into_iter().zip(&mut self.positions);
        for (((_, next), position), told) in misread.zip(&mut self.wrong_keys_told) {
            match by_the_rule(happening) {
                Counts(key) => *position = next(code, *position, key),
                StartsAfresh => *position = 0,
                Nothing => {}
            }
            *told += usize::from(opened && *position < code.len());
        }
    }

    /// The position that this state would have if wrong keys threw all away is
    /// another.
    pub fn owed_to_a_mismatch(&self, state: &Controller) -> bool {
        self.positions[0] != state.position()
    }

    /// How often each misreading was told apart that can be under some settings:
    /// one of them takes events that lock.
    pub fn told(&self, settings: Settings) -> Vec<(usize, &'static str)> {
        let counting = self.counting_told.into_iter().zip(OF_COUNTING);
        let by_locking = usize::from(!locks(settings));
        let wrong_keys = self.wrong_keys_told.into_iter().zip(OF_WRONG_KEYS);
        let mut all: Vec<_> = counting
            .map(|(told, (name, _))| (told, name))
            .skip(by_locking)
            .collect();
        all.extend(wrong_keys.map(|(told, (name, _))| (told, name)));
        all
    }
}

/// True where a misread lock would open now.
fn takes(list: &mut Counted, effect: Effect, code: &[u8]) -> bool {
    match effect {
        Nothing => false,
        StartsAfresh => {
            list.start_afresh();
            false
        }
        Counts(key) => {
            list.count(key);
            list.end_with(code)
        }
    }
}

#[cfg(test)]
mod tests {
    use super::*;
    use crate::counter_checks::step;
    use crate::few_keys;
    use crate::under_settings::{AT_MODE, ORDINARY};

    const A: u8 = 0x1C;
    const B: u8 = 0x32;
    const OTHER: u8 = 0x21;

    /// The names of the misreadings that the events tell apart from a state.
    fn told(state: Controller, events: &[Event]) -> Vec<&'static str> {
        let mut misreadings = Misreadings::default();
        misreadings.start(&state);
        let settings = state.settings;
        step(state, events, |before, event, refusal, after| {
            let happening = Happening::of(before, event, refusal, after);
            let opened = before.locked && !after.locked;
            misreadings.note(before.password.bytes(), happening, opened);
        });
        let told = misreadings.told(settings).into_iter();
        told.filter(|&(told, _)| told > 0)
            .map(|(_, name)| name)
            .collect()
    }

    fn locked(code: &[u8]) -> Controller {
        let mut state = few_keys::locked(ORDINARY, code, 0);
        state.ram[0x14] = 0;
        state.ram[0x16] = 0x2A;
        state.ram[0x17] = 0x36;
        state
    }

    fn keys(keys: &[u8]) -> Vec<Event> {
        keys.iter().map(|&key| Event::key(key)).collect()
    }

    /// 1Eh 30h 1Eh, with something between the first two keys.
    fn told_between(between: &[Event]) -> Vec<&'static str> {
        let events = [&keys(&[A])[..], between, &keys(&[B, A])].concat();
        told(locked(&[0x1E, 0x30, 0x1E]), &events)
    }

    #[test]
    fn the_code_at_once_tells_nothing() {
        assert!(told_between(&[]).is_empty());
        assert!(told_between(&[Event::status(), Event::read()]).is_empty());
        let shut = told(locked(&[0x1E, 0x30]), &keys(&[A, OTHER, B]));
        assert!(shut.is_empty());
    }

    #[test]
    fn what_stands_between_the_keys_tells_how_it_is_read() {
        let noise = |kind| Event::new(kind, 2047);
        let turned = [Event::pins(0x7F), Event::key(OTHER), Event::pins(0xFF)];
        for (between, told) in [
            (&[noise(4)][..], &["noise starts afresh"][..]),
            (&[noise(5)], &["noise of the mouse starts afresh"]),
            (
                &[Event::new(5, 1022)],
                &["damage of the mouse starts afresh"],
            ),
            (
                &[Event::mouse(0x14)],
                &[
                    "bytes of the mouse start afresh",
                    "bytes of the mouse count",
                ],
            ),
            (
                &keys(&[0xF0, A]),
                // Another 1Eh is a mismatch that keeps as much.
                &["break codes start afresh"],
            ),
            (
                &keys(&[0xF0, OTHER]),
                &["break codes start afresh", "break codes count as keys"],
            ),
            (
                &keys(&[0x12]),
                &[
                    "the key of cell 16h starts afresh",
                    "the key of cell 16h counts",
                ],
            ),
            (
                &keys(&[0x59]),
                &[
                    "the key of cell 17h starts afresh",
                    "the key of cell 17h counts",
                ],
            ),
            (
                &turned,
                &["swallowed keys start afresh", "swallowed keys count"],
            ),
            (
                &[Event::new(4, 0x800 | model::frame(OTHER))],
                &["refused keys start afresh", "refused keys count"],
            ),
        ] {
            assert_eq!(told_between(between), told, "{between:?}");
        }
    }

    /// The keys would open but for the damage between them.
    #[test]
    fn damage_is_told_where_the_lock_stays_shut() {
        for (frame, name) in [
            (1022, "a broken frame is passed over"),
            (0x428, "a wrong parity is passed over"),
        ] {
            assert_eq!(told_between(&[Event::new(4, frame)]), [name]);
        }
    }

    #[test]
    fn locking_anew_is_told_by_the_end_of_the_code() {
        let again = [&keys(&[A, B, A])[..], &[Event::command(0xA6)]].concat();
        let events = [&again[..], &keys(&[B, A])].concat();
        let name = "locking goes on counting";
        assert_eq!(told(locked(&[0x1E, 0x30, 0x1E]), &events), [name]);
        let mut unasked = Misreadings::default();
        unasked.start(&locked(&[0x1E]));
        assert!(unasked.told(AT_MODE).iter().all(|&(_, told)| told != name));
    }

    #[test]
    fn mismatches_tell_how_wrong_keys_are_read() {
        let names = OF_WRONG_KEYS.map(|(name, _)| name);
        let code = |letters: &str| -> Vec<u8> {
            let byte = |letter| if letter == 'a' { 0x1E } else { 0x30 };
            letters.chars().map(byte).collect()
        };
        let typed = |letters: &str| -> Vec<Event> {
            let key = |letter| Event::key(if letter == 'a' { A } else { B });
            letters.chars().map(key).collect()
        };
        for (letters, keys, told_apart) in [
            ("ab", "aab", &names[..1]),
            ("aab", "aaab", &names[..2]),
            ("ababb", "abababb", &names[..2]),
            // Only the second part goes on with this key.
            ("abaabaa", "abaababaabaa", &names[..3]),
            ("abaabaa", "abaabaa", &names[..0]),
        ] {
            let told = told(locked(&code(letters)), &typed(keys));
            assert_eq!(told, told_apart, "{letters} {keys}");
        }
    }
}
