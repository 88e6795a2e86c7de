//! Counts what generated lists really reach, so that tests can ask for it.

use crate::at_mode_coverage::AtModeCoverage;
use crate::event::{Event, kind};
use crate::mouse_coverage::MouseCoverage;
use crate::noise_coverage::NoiseCoverage;
use crate::refusals::{self, Refusals};
use crate::second_set_coverage::SecondSetCoverage;
use crate::under_settings::locks;
use model::{Controller, PASSWORD_LIMIT, Pending, Settings, Verdict, judge};

#[derive(Clone, Debug)]
pub struct Coverage {
    pub events: usize,
    pub refusals: Refusals,
    pub accepted: [usize; 9],
    pub commands: [usize; 256],
    pub keyboard_bytes: [usize; 256],
    pub code_lengths: [usize; PASSWORD_LIMIT + 1],
    pub overlong_codes: usize,
    pub abandoned_loads: usize,
    /// Events that left a code, a load or a lock.
    pub codes: usize,
    pub locks: usize,
    pub opens: usize,
    /// The same by the length of the code.
    pub opened_lengths: [usize; PASSWORD_LIMIT + 1],
    /// Wrong keys within a code: those that kept nothing of it, and those that
    /// kept less than there was.
    pub wrong_tries: usize,
    pub mismatches: usize,
    pub resets_by_damage: usize,
    pub swallowed: usize,
    pub overridden: usize,
    pub overlays: usize,
    pub mouse: MouseCoverage,
    pub noise: NoiseCoverage,
    pub at_mode: AtModeCoverage,
    pub second_set: SecondSetCoverage,
}

fn least(counts: &[usize]) -> usize {
    counts.iter().copied().min().unwrap_or(0)
}

fn has_code(state: &Controller) -> bool {
    state.locked || state.pending == Pending::Password || !state.password.is_empty()
}

impl Coverage {
    pub fn new() -> Coverage {
        Coverage {
            events: 0,
            refusals: Refusals::default(),
            accepted: [0; 9],
            commands: [0; 256],
            keyboard_bytes: [0; 256],
            code_lengths: [0; PASSWORD_LIMIT + 1],
            overlong_codes: 0,
            abandoned_loads: 0,
            codes: 0,
            locks: 0,
            opens: 0,
            opened_lengths: [0; PASSWORD_LIMIT + 1],
            wrong_tries: 0,
            mismatches: 0,
            resets_by_damage: 0,
            swallowed: 0,
            overridden: 0,
            overlays: 0,
            mouse: MouseCoverage::default(),
            noise: NoiseCoverage::default(),
            at_mode: AtModeCoverage::default(),
            second_set: SecondSetCoverage::default(),
        }
    }

    /// Counts one event by its refusal and the states around it.
    pub fn note(&mut self, before: &Controller, event: Event, refusal: u8, after: &Controller) {
        self.events += 1;
        self.refusals.note(refusal);
        self.codes += usize::from(has_code(after));
        self.noise.note(before, event, refusal);
        self.at_mode.note(before, event, refusal, after);
        self.second_set.note(before, event, refusal, after);
        if refusal != 0 {
            return;
        }
        self.accepted[usize::from(event.kind)] += 1;
        match event.kind {
            kind::WRITE_DATA => self.note_data(before, event, after),
            kind::WRITE_COMMAND => self.note_command(before, event, after),
            kind::KEYBOARD_FRAME => self.note_keyboard(before, event, after),
            _ => self.mouse.note(before, event),
        }
    }

    /// Fails unless all of it was reached, under the given settings, often
    /// enough for so many events.
    pub fn assert_reached(&self, settings: Settings) {
        println!("{self:?}");
        let refusals = self.refusals.least(refusals::from_fresh(settings));
        self.often(refusals, 500, "refusals");
        self.often(least(&self.kinds(settings)), 500, "kinds");
        self.often(least(&self.commands), 17, "commands");
        self.often(least(&self.keyboard_bytes), 17, "keyboard bytes");
        self.often(self.overridden, 50, "inhibit overridden");
        if locks(settings) {
            self.assert_lock_reached();
        } else {
            assert_eq!(self.codes, 0, "codes, loads and locks");
        }
        // No events from fresh poll P1 in AT mode.
        if !settings.at_mode {
            self.often(self.overlays, 500, "overlays");
        }
        for (count, situation) in self.mouse.reached(settings) {
            self.often(count, 10, &situation);
        }
        for (count, situation) in self.noise.reached(settings) {
            self.often(count, 20, &situation);
        }
        for (count, situation) in self.at_mode.reached(settings) {
            self.often(count, 40, &situation);
        }
        for (count, situation) in self.second_set.reached(settings) {
            self.often(count, 60, &situation);
        }
    }

    fn often(&self, count: usize, per_million: usize, what: &str) {
        let wanted = per_million * self.events / 1_000_000;
        assert!(count > wanted, "{what}: {count}, above {wanted} wanted");
    }

    /// The counts of all kinds that are accepted at times.
    fn kinds(&self, settings: Settings) -> Vec<usize> {
        let at_times = |kind: &usize| !settings.at_mode || *kind != kind::MOUSE_FRAME.into();
        let kinds = (0..self.accepted.len()).filter(at_times);
        kinds.map(|kind| self.accepted[kind]).collect()
    }

    fn assert_lock_reached(&self) {
        let often = |count, per_million, what| self.often(count, per_million, what);
        often(least(&self.code_lengths), 17, "code lengths");
        often(self.overlong_codes, 50, "codes that are too long");
        often(self.abandoned_loads, 50, "loads ended by a command");
        often(self.locks, 500, "locks");
        often(self.opens, 334, "opened locks");
        often(
            least(&self.opened_lengths[1..]),
            17,
            "opened locks by length",
        );
        often(self.wrong_tries, 334, "wrong keys after right ones");
        often(self.mismatches, 334, "wrong keys that keep a part");
        often(self.resets_by_damage, 50, "damage after right keys");
        often(self.swallowed, 50, "keys swallowed while locked");
    }

    fn note_data(&mut self, before: &Controller, event: Event, after: &Controller) {
        if before.pending != Pending::Password || after.pending == Pending::Password {
            return;
        }
        if event.value == 0 {
            self.code_lengths[after.password.len()] += 1;
        } else {
            self.overlong_codes += 1;
        }
    }

    fn note_command(&mut self, before: &Controller, event: Event, after: &Controller) {
        self.commands[usize::from(event.value)] += 1;
        self.locks += usize::from(after.locked);
        self.overlays += usize::from(after.overlay.is_some());
        let had_some = before.pending == Pending::Password && !before.password.is_empty();
        self.abandoned_loads += usize::from(had_some);
    }

    fn note_keyboard(&mut self, before: &Controller, event: Event, after: &Controller) {
        let overridden = before.key_turned() && !before.inhibited();
        self.overridden += usize::from(overridden && after.full);
        match judge(event.value) {
            Verdict::Sound(byte) => self.note_key(before, byte, after),
            Verdict::WrongParity | Verdict::Broken => {
                self.resets_by_damage += usize::from(before.position() > 0);
            }
            Verdict::Noise => {}
        }
    }

    fn note_key(&mut self, before: &Controller, byte: u8, after: &Controller) {
        self.keyboard_bytes[usize::from(byte)] += 1;
        self.swallowed += usize::from(before.locked && before.inhibited());
        if before.locked && !after.locked {
            self.opens += 1;
            self.opened_lengths[after.password.len()] += 1;
        }
        if after.locked && before.position() > 0 {
            self.note_key_within(before, after);
        }
    }

    /// The key was within a code. Where it was counted and not the right one,
    /// the position is no more than it was.
    fn note_key_within(&mut self, before: &Controller, after: &Controller) {
        let (position, kept) = (before.position(), after.position());
        self.wrong_tries += usize::from(kept == 0);
        self.mismatches += usize::from(kept > 0 && kept < position);
    }
}

impl Default for Coverage {
    fn default() -> Coverage {
        Coverage::new()
    }
}
