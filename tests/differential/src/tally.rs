//! Counts by situation.

use std::collections::BTreeMap;
use std::fmt::Debug;

#[derive(Clone, Debug)]
pub struct Tally<Situation>(BTreeMap<Situation, usize>);

impl<Situation: Ord + Debug> Tally<Situation> {
    pub fn count(&mut self, situation: Situation) {
        *self.0.entry(situation).or_default() += 1;
    }

    /// How often a situation came.
    pub fn of(&self, situation: &Situation) -> usize {
        self.0.get(situation).copied().unwrap_or(0)
    }

    pub fn is_empty(&self) -> bool {
        self.0.is_empty()
    }

    /// How often each of the situations came, with its name.
    pub fn reached(&self, situations: &[Situation]) -> Vec<(usize, String)> {
        let named = situations.iter();
        named
            .map(|situation| (self.of(situation), format!("{situation:?}")))
            .collect()
    }
}

impl<Situation> Default for Tally<Situation> {
    fn default() -> Tally<Situation> {
        Tally(BTreeMap::new())
    }
}
