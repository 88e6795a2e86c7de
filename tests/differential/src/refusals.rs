//! Counts the checks that refuse events.

use crate::under_settings::locks;
use model::Settings;

const LAST: usize = 12;

/// How often each number was answered, 0 being that of an accepted event.
#[derive(Clone, Debug, Default)]
pub struct Refusals([usize; LAST + 1]);

/// The numbers that an event can be answered with in some state.
pub fn in_any_state(settings: Settings) -> &'static [u8] {
    if settings.at_mode {
        &[0, 1, 2, 3, 4, 5, 6, 12]
    } else {
        &[0, 1, 2, 3, 4, 5, 6]
    }
}

/// The same where the state was reached from fresh. In AT mode and with the
/// second set no events close the lock, which check 4 asks for.
pub fn from_fresh(settings: Settings) -> &'static [u8] {
    match (locks(settings), settings.at_mode) {
        (true, _) => in_any_state(settings),
        (false, false) => &[0, 1, 2, 3, 5, 6],
        (false, true) => &[0, 1, 2, 3, 5, 6, 12],
    }
}

impl Refusals {
    pub fn note(&mut self, refusal: u8) {
        self.0[usize::from(refusal)] += 1;
    }

    pub fn count(&self, refusal: u8) -> usize {
        self.0[usize::from(refusal)]
    }

    /// How often the rarest of the given numbers came. No other may have come.
    pub fn least(&self, numbers: &[u8]) -> usize {
        let wanted: usize = numbers.iter().map(|&number| self.count(number)).sum();
        assert_eq!(wanted, self.0.iter().sum(), "only {numbers:?} of {self:?}");
        let counts = numbers.iter().map(|&number| self.count(number));
        counts.min().unwrap_or(0)
    }
}

#[cfg(test)]
mod tests {
    use super::*;

    #[test]
    fn the_rarest_counts() {
        let mut refusals = Refusals::default();
        for refusal in [0, 0, 0, 12, 5, 12] {
            refusals.note(refusal);
        }
        assert_eq!(refusals.least(&[0, 5, 12]), 1);
        assert_eq!(refusals.least(&[0, 5, 12, 4]), 0);
    }

    #[test]
    #[should_panic(expected = "only [0, 5]")]
    fn a_number_that_was_not_asked_for_is_seen() {
        let mut refusals = Refusals::default();
        refusals.note(12);
        refusals.least(&[0, 5]);
    }
}
