//! Looks for mismatches in the two lists of a pair.

use crate::event::Event;
use crate::misreadings::{Happening, all_thrown_away};
use model::Controller;

/// What the mismatches of a pair have come to so far.
#[derive(Default)]
pub struct SeenMismatches {
    /// One list kept a part at a wrong key where the other lost all.
    pub kept_apart: bool,
    /// Both opened by mismatches that differ.
    pub opened: bool,
    /// They did so with different codes.
    pub opened_apart: bool,
    lists: [Mismatches; 2],
    place: usize,
}

/// The mismatches of one list since counting started.
#[derive(Default)]
struct Mismatches {
    /// The position if wrong keys threw all away.
    thrown_away: usize,
    /// The place of the last one that kept a part, and the positions around it.
    last: Option<(usize, usize, usize)>,
}

/// What a key was that came within a code.
#[derive(Clone, Copy, PartialEq, Eq)]
enum Within {
    KeptPart,
    LostAll,
    Else,
}

impl SeenMismatches {
    /// Nothing yet, from a state that may be within a code.
    pub fn from(state: &Controller) -> SeenMismatches {
        let mismatches = || Mismatches {
            thrown_away: state.position(),
            last: None,
        };
        SeenMismatches {
            lists: [mismatches(), mismatches()],
            ..SeenMismatches::default()
        }
    }

    /// Looks at a step by the states of both lists before and after it.
    pub fn note(&mut self, before: [&Controller; 2], events: [Event; 2], after: [&Controller; 2]) {
        let mut within = [Within::Else; 2];
        for list in 0..2 {
            let mismatches = &mut self.lists[list];
            within[list] = mismatches.note(self.place, before[list], events[list], after[list]);
        }
        self.place += 1;
        self.kept_apart |= within.contains(&Within::KeptPart) && within.contains(&Within::LostAll);
        if before[0].locked && !after[0].locked {
            self.note_opening(before);
        }
    }

    fn note_opening(&mut self, before: [&Controller; 2]) {
        let [one, other] = &self.lists;
        let length = before[0].password.len();
        let by_mismatches = one.thrown_away < length && other.thrown_away < length;
        let opened = by_mismatches && one.last != other.last;
        self.opened |= opened;
        self.opened_apart |= opened && before[0].password != before[1].password;
    }
}

impl Mismatches {
    fn note(
        &mut self,
        place: usize,
        before: &Controller,
        event: Event,
        after: &Controller,
    ) -> Within {
        let refusal = before.refusal(event.kind, event.value);
        match Happening::of(before, event, refusal, after) {
            Happening::Key(key) => self.note_key(place, before, key, after),
            Happening::Shut | Happening::Broken | Happening::WrongParity => {
                *self = Mismatches::default();
                Within::Else
            }
            _ => Within::Else,
        }
    }

    fn note_key(
        &mut self,
        place: usize,
        before: &Controller,
        key: u8,
        after: &Controller,
    ) -> Within {
        let (code, position) = (before.password.bytes(), before.position());
        self.thrown_away = all_thrown_away(code, self.thrown_away, key);
        if position == 0 || code[position] == key {
            return Within::Else;
        }
        match after.position() {
            0 => Within::LostAll,
            kept => {
                self.last = Some((place, position, kept));
                Within::KeptPart
            }
        }
    }
}

#[cfg(test)]
mod tests {
    use super::*;
    use crate::few_keys;
    use crate::under_settings::ORDINARY;

    /// What is seen of two lists of keys at locks with two codes, all in
    /// letters. Keys other than a and b are in neither code.
    fn seen(codes: [&str; 2], typed: [&str; 2]) -> SeenMismatches {
        let byte = |letter| if letter == 'a' { 0x1E } else { 0x30 };
        let key = |letter| match letter {
            'a' => Event::key(0x1C),
            'b' => Event::key(0x32),
            _ => Event::key(0x21),
        };
        let mut states = codes.map(|code| {
            let code: Vec<u8> = code.chars().map(byte).collect();
            few_keys::locked(ORDINARY, &code, 0)
        });
        let mut seen = SeenMismatches::from(&states[0]);
        for (one, other) in typed[0].chars().zip(typed[1].chars()) {
            let before = states.clone();
            let events = [key(one), key(other)];
            for (state, event) in states.iter_mut().zip(events) {
                state.event(event.kind, event.value);
            }
            seen.note(before.each_ref(), events, states.each_ref());
        }
        seen
    }

    #[test]
    fn one_that_keeps_a_part_beside_one_that_loses_all() {
        let apart = |one, other| seen(["aab", "aab"], [one, other]).kept_apart;
        assert!(apart("aaa", "aax"));
        assert!(apart("xab", "aaa"));
        // Nothing was to be lost, or both kept a part, or both lost all.
        assert!(!apart("aaa", "xxb"));
        assert!(!apart("aaaa", "aaaa"));
        assert!(!apart("ab", "ax"));
        assert!(!apart("aaaa", "axaa"));
    }

    #[test]
    fn different_mismatches_that_open_together() {
        let codes = ["abaabaa", "abaabaa"];
        let seen_apart = seen(codes, ["abaababaabaa", "xxxxaabaabaa"]);
        assert!(seen_apart.opened && !seen_apart.opened_apart);
        let other_code = seen(["aab", "aba"], ["aaaab", "xaaba"]);
        assert!(other_code.opened && other_code.opened_apart);
        // The same mismatches, one list that would have opened without, and none.
        assert!(!seen(["aab", "aab"], ["aaaab", "xaaab"]).opened);
        assert!(!seen(["aab", "aab"], ["aaaab", "axaab"]).opened);
        assert!(!seen(["aab", "aba"], ["xxaab", "bbaba"]).opened);
        assert!(!seen(["aab", "aba"], ["aaaa", "xaab"]).opened);
    }
}
