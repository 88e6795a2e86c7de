//! Walks of both controllers, one event at a time.

use crate::both::Both;
use crate::coverage::Coverage;
use crate::lists;
use crate::random::Random;
use crate::unguided;
use crate::walker::Walker;
use model::keeps_state_rules;

/// At most `length` events that follow the machine. Before each one both are
/// asked about it and about another, and after it the lines are looked at and the
/// rules for a state are kept.
pub fn walk(both: &mut Both, seed: u64, length: usize, coverage: &mut Coverage) {
    let mut walker = Walker::new(seed);
    let mut random = Random::new(!seed);
    for _ in 0..length {
        let event = walker.next(&both.model);
        let before = both.model.clone();
        both.refusal(unguided::any(&mut random));
        let refusal = both.refusal(event);
        let answer = both.event(&mut random, event);
        assert_eq!(answer[0], refusal, "foretold refusal of {event:?}");
        both.look(&mut random);
        assert!(keeps_state_rules(&both.model), "{event:?} on {before:?}");
        coverage.note(&before, event, refusal, &both.model);
        if lists::stuck(&both.model) && random.chance(3) {
            break;
        }
    }
}
