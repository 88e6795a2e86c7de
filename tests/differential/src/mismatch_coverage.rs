//! Counts what is typed at locks: what wrong keys keep of the position, what
//! opens, and what tells the rule from its misreadings.

use crate::event::Event;
use crate::misreadings::{Happening, Misreadings};
use crate::under_settings::locks;
use model::{Controller, PASSWORD_LIMIT, Settings};

#[derive(Clone, Debug, Default)]
pub struct MismatchCoverage {
    pub events: usize,
    /// Wrong keys within a code that kept a part of it.
    kept: usize,
    /// Of these such as kept all of the position.
    kept_all: usize,
    /// Wrong keys within a code that kept nothing.
    lost: usize,
    /// Opened locks by the length of the code.
    opened: [usize; PASSWORD_LIMIT + 1],
    /// Damaged keyboard frames within a code: broken, with wrong parity.
    damaged: [usize; 2],
    /// Locks shut anew with the code that had opened them.
    shut_anew: usize,
    /// States saved within a code that they owe to a mismatch.
    pub saved: usize,
    misreadings: Misreadings,
    opened_last: bool,
}

impl MismatchCoverage {
    /// Goes on from a state, whatever came before.
    pub fn start(&mut self, state: &Controller) {
        self.misreadings.start(state);
        self.opened_last = false;
    }

    /// Counts one event by its refusal and the states around it.
    pub fn note(&mut self, before: &Controller, event: Event, refusal: u8, after: &Controller) {
        self.events += 1;
        let happening = Happening::of(before, event, refusal, after);
        let opened = before.locked && !after.locked;
        let code = before.password.bytes();
        match happening {
            Happening::Key(key) => self.note_key(before, key, after),
            Happening::Broken => self.damaged[0] += usize::from(before.position() > 0),
            Happening::WrongParity => self.damaged[1] += usize::from(before.position() > 0),
            Happening::Shut => self.shut_anew += usize::from(self.opened_last),
            _ => {}
        }
        // Another code may be loaded before it is shut again.
        self.opened_last &= before.password == after.password;
        self.opened_last |= opened;
        self.opened[code.len()] += usize::from(opened);
        self.misreadings.note(code, happening, opened);
    }

    fn note_key(&mut self, before: &Controller, key: u8, after: &Controller) {
        let position = before.position();
        if before.password.bytes()[position] == key || position == 0 {
            return;
        }
        match after.position() {
            0 => self.lost += 1,
            kept => {
                self.kept += 1;
                self.kept_all += usize::from(kept == position);
            }
        }
    }

    /// Counts a state that is saved where it stands.
    pub fn note_save(&mut self, state: &Controller) {
        let mismatched = state.locked && self.misreadings.owed_to_a_mismatch(state);
        self.saved += usize::from(mismatched);
    }

    /// Fails unless all of it was reached, under the given settings, often
    /// enough for so many events.
    pub fn assert_reached(&self, settings: Settings) {
        println!("{} events", self.events);
        for (count, per_million, what) in self.reached(settings) {
            let wanted = per_million * self.events / 1_000_000;
            println!("{what}: {count}, above {wanted} wanted");
            assert!(count > wanted, "{what}: {count}, above {wanted} wanted");
        }
    }

    /// Each count with what is wanted in a million events.
    fn reached(&self, settings: Settings) -> Vec<(usize, usize, String)> {
        let mut all = vec![
            (self.kept, 15_000, "mismatches that keep a part"),
            (self.kept_all, 5_000, "mismatches that keep all"),
            (self.lost, 15_000, "wrong keys that keep nothing"),
            (self.damaged[0], 1_000, "broken frames within a code"),
            (self.damaged[1], 1_000, "wrong parity within a code"),
        ];
        if locks(settings) {
            all.push((self.shut_anew, 3_000, "locks shut anew"));
        }
        let misread = self.misreadings.told(settings).into_iter();
        all.extend(misread.map(|(told, misreading)| (told, 200, misreading)));
        let all = all.into_iter();
        let named = all.map(|(count, wanted, what)| (count, wanted, what.to_string()));
        named.chain(self.reached_lengths()).collect()
    }

    fn reached_lengths(&self) -> impl Iterator<Item = (usize, usize, String)> {
        let lengths = self.opened.into_iter().enumerate().skip(1);
        lengths.map(|(length, opened)| (opened, 300, format!("opened codes of {length}")))
    }
}

#[cfg(test)]
mod tests {
    use super::*;
    use crate::counter_checks::step;
    use crate::few_keys;
    use crate::under_settings::ORDINARY;

    const A: u8 = 0x1C;
    const B: u8 = 0x32;
    const OTHER: u8 = 0x21;

    /// What the events count from a lock that is shut with 1Eh 1Eh 30h.
    fn counted(events: &[Event]) -> MismatchCoverage {
        let state = few_keys::locked(ORDINARY, &[0x1E, 0x1E, 0x30], 0);
        let mut coverage = MismatchCoverage::default();
        coverage.start(&state);
        step(state, events, |before, event, refusal, after| {
            coverage.note(before, event, refusal, after);
            coverage.note_save(after);
        });
        coverage
    }

    fn keys(keys: &[u8]) -> Vec<Event> {
        keys.iter().map(|&key| Event::key(key)).collect()
    }

    #[test]
    fn wrong_keys_count_by_what_they_keep() {
        let coverage = counted(&keys(&[A, B, A, A, OTHER, OTHER, A, A, A, B]));
        assert_eq!((coverage.lost, coverage.kept, coverage.kept_all), (2, 1, 1));
        assert_eq!(coverage.opened[3], 1);
        // Between the third of the last keys and the opening.
        assert_eq!(coverage.saved, 1);
    }

    #[test]
    fn damage_counts_within_a_code_alone() {
        let [broken, wrong_parity] = [1022, 0x428].map(|value| Event::new(4, value));
        let events = [
            &[broken, wrong_parity][..],
            &keys(&[A]),
            &[broken, wrong_parity],
            &keys(&[A]),
            &[wrong_parity],
        ];
        assert_eq!(counted(&events.concat()).damaged, [1, 1]);
    }

    #[test]
    fn locks_count_that_are_shut_anew_with_the_same_code() {
        let opened = [&keys(&[A, A, B])[..], &[Event::read()]].concat();
        let lock = [Event::command(0xA6)];
        let load = [Event::command(0xA5), Event::data(0x1E), Event::data(0)];
        let anew = counted(&[&opened[..], &lock].concat());
        assert_eq!(anew.shut_anew, 1);
        let other = counted(&[&opened[..], &load, &lock].concat());
        assert_eq!(other.shut_anew, 0);
    }
}
