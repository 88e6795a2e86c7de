//! What the tests of the counters share.

use crate::event::Event;
use model::Controller;

/// Carries events out one by one. Each is noted with the state before it, its
/// refusal and the state after it.
pub fn step(
    mut state: Controller,
    events: &[Event],
    mut note: impl FnMut(&Controller, Event, u8, &Controller),
) {
    for &event in events {
        let before = state.clone();
        let refusal = state.event(event.kind, event.value)[0];
        note(&before, event, refusal, &state);
    }
}

/// There are so many, each once.
pub fn assert_each_once<T: Ord>(mut all: Vec<T>, expected: usize) {
    assert_eq!(all.len(), expected);
    all.sort();
    all.dedup();
    assert_eq!(all.len(), expected);
}
