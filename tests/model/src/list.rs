//! A list of events, run from fresh or from a given state.

use crate::controller::Controller;
use crate::settings::Settings;

pub const EVENT_SIZE: usize = 3;
pub const ANSWER_SIZE: usize = 9;
/// The longest list, in bytes.
pub const LIST_LIMIT: usize = 21_000;

/// The refusal number of a whole list, 0 when it can be run.
pub fn list_refusal(list_size: usize, answers_size: usize) -> u8 {
    if !list_size.is_multiple_of(EVENT_SIZE) || list_size > LIST_LIMIT {
        return 7;
    }
    if answers_size / ANSWER_SIZE < list_size / EVENT_SIZE {
        return 8;
    }
    0
}

impl Controller {
    /// Runs a list from this state. A refused list changes and writes nothing.
    pub fn run(&mut self, list: &[u8], answers: &mut [u8]) -> u8 {
        let refusal = list_refusal(list.len(), answers.len());
        if refusal == 0 {
            self.run_checked(list, answers);
        }
        refusal
    }

    /// Runs a list that has passed its checks.
    pub(crate) fn run_checked(&mut self, list: &[u8], answers: &mut [u8]) {
        let events = list.chunks_exact(EVENT_SIZE);
        for (event, answer) in events.zip(answers.chunks_exact_mut(ANSWER_SIZE)) {
            let value = u16::from_le_bytes([event[1], event[2]]);
            answer.copy_from_slice(&self.event(event[0], value));
        }
    }
}

/// Runs a list from fresh. A refused list writes nothing.
///
/// It stays a call of its own, so that its cost can be told apart.
#[inline(never)]
pub fn run(settings: Settings, list: &[u8], answers: &mut [u8]) -> u8 {
    Controller::fresh(settings).run(list, answers)
}
