//! What the walk has more of with the second command set: its own commands, what
//! shows what they did, and a byte after those that it switches off.

use super::Walker;
use crate::event::Event;
use crate::second_set_coverage::ADDED;
use model::{Controller, Pending};

impl Walker {
    /// An event for the second set, now and then, where that is the set.
    pub(super) fn of_second_set(&mut self, state: &Controller) -> Option<Event> {
        if !state.settings.second_set || state.sending.is_some() {
            return None;
        }
        if std::mem::take(&mut self.data_due) && self.random.chance(70) {
            return Some(Event::data(self.random.byte()));
        }
        // The command byte may change within a break sequence.
        if state.break_flag && self.random.chance(15) {
            return Some(Event::command(0x60));
        }
        let share = match (state.pending, state.overlay) {
            (Pending::None, None) => 30,
            (Pending::None, Some(_)) => 40,
            _ => 25,
        };
        let due = self.random.chance(share);
        due.then(|| self.draw_of_second_set(state))
    }

    fn draw_of_second_set(&mut self, state: &Controller) -> Event {
        if state.pending != Pending::None && self.random.chance(70) {
            return self.without_a_lock();
        }
        // The key is turned either way under an overlay.
        if state.overlay.is_some() && self.random.chance(40) {
            return Event::pins(self.random.byte());
        }
        match self.random.below(100) {
            0..=34 => Event::command(self.random.pick(&ADDED)),
            35..=46 => Event::command(self.random.pick(&[0xC0, 0xC1, 0xC2])),
            47..=54 => Event::pins(self.random.byte()),
            55..=62 => Event::command(self.random.pick(&[0xC8, 0xC9])),
            63..=74 => Event::command(0xD1),
            75..=86 => self.without_a_lock(),
            87..=93 => Event::command(self.random.pick(&[0xA1, 0xAF, 0xCA])),
            _ => Event::status(),
        }
    }

    /// The commands for the lock, which this set does not have.
    fn without_a_lock(&mut self) -> Event {
        self.data_due = true;
        Event::command(self.random.pick(&[0xA4, 0xA5, 0xA6]))
    }
}
