//! Counts what comes from the mouse by all that the mouse lock depends on.

use crate::event::{Event, kind};
use crate::tally::Tally;
use crate::under_settings::locks;
use model::{Controller, Device, Settings, Verdict, judge, mode};

#[derive(Clone, Copy, Debug, PartialEq, Eq, PartialOrd, Ord)]
enum Arrival {
    SoundFrame,
    WrongParity,
    BrokenFrame,
    Noise,
    /// A byte sent to the mouse was not taken.
    TimeOut,
}

const FRAMES: [Arrival; 4] = [
    Arrival::SoundFrame,
    Arrival::WrongParity,
    Arrival::BrokenFrame,
    Arrival::Noise,
];

#[derive(Clone, Copy, Debug, PartialEq, Eq, PartialOrd, Ord)]
struct Situation {
    arrival: Arrival,
    mouse_lock: bool,
    key_turned: bool,
    override_on: bool,
    locked: bool,
}

#[derive(Clone, Debug, Default)]
pub struct MouseCoverage {
    counts: Tally<Situation>,
}

/// What an accepted event is, where it comes from the mouse.
fn arrival(before: &Controller, event: Event) -> Option<Arrival> {
    match event.kind {
        kind::MOUSE_FRAME => Some(match judge(event.value) {
            Verdict::Sound(_) => Arrival::SoundFrame,
            Verdict::WrongParity => Arrival::WrongParity,
            Verdict::Broken => Arrival::BrokenFrame,
            Verdict::Noise => Arrival::Noise,
        }),
        kind::BYTE_TIMED_OUT => match before.sending {
            Some((Device::Mouse, _)) => Some(Arrival::TimeOut),
            _ => None,
        },
        _ => None,
    }
}

/// All that can come under some settings: in AT mode there is no mouse, and with
/// the second set no lock. Nothing is being sent while locked, so no time-out
/// comes then.
fn situations(settings: Settings) -> Vec<Situation> {
    let mut all = Vec::new();
    if settings.at_mode {
        return all;
    }
    let bits = if locks(settings) { 0..8 } else { 0..4 };
    for bits in bits {
        let situation = |arrival| Situation {
            arrival,
            mouse_lock: settings.mouse_lock,
            key_turned: bits & 1 != 0,
            override_on: bits & 2 != 0,
            locked: bits & 4 != 0,
        };
        all.extend(FRAMES.map(situation));
        if bits & 4 == 0 {
            all.push(situation(Arrival::TimeOut));
        }
    }
    all
}

impl MouseCoverage {
    /// Counts an accepted event by the state before it.
    pub fn note(&mut self, before: &Controller, event: Event) {
        let Some(arrival) = arrival(before, event) else {
            return;
        };
        let situation = Situation {
            arrival,
            mouse_lock: before.settings.mouse_lock,
            key_turned: before.key_turned(),
            override_on: before.mode(mode::INHIBIT_OVERRIDE),
            locked: before.locked,
        };
        self.counts.count(situation);
    }

    /// How often each situation came that can come under some settings, with
    /// its name.
    pub fn reached(&self, settings: Settings) -> Vec<(usize, String)> {
        self.counts.reached(&situations(settings))
    }
}

#[cfg(test)]
mod tests {
    use super::*;
    use crate::counter_checks::assert_each_once;
    use crate::under_settings::MOUSE_LOCK;

    fn reached_once(coverage: &MouseCoverage, settings: Settings) -> Vec<String> {
        let counts = coverage.reached(settings).into_iter();
        let once = counts.filter(|&(count, _)| count == 1);
        once.map(|(_, name)| name).collect()
    }

    #[test]
    fn each_situation_is_asked_for_once() {
        for settings in Settings::ALL {
            let expected = match (settings.at_mode, settings.second_set) {
                (true, _) => 0,
                (false, false) => 8 * 4 + 4,
                (false, true) => 4 * 4 + 4,
            };
            assert_each_once(situations(settings), expected);
        }
    }

    #[test]
    fn a_frame_counts_where_it_came_and_nowhere_else() {
        let mut state = Controller::fresh(MOUSE_LOCK);
        state.pins = 0x7F;
        let mut coverage = MouseCoverage::default();
        coverage.note(&state, Event::mouse(0x14));
        coverage.note(&state, Event::key(0x14));
        coverage.note(&state, Event::new(kind::BYTE_TIMED_OUT, 0));
        let reached = reached_once(&coverage, MOUSE_LOCK);
        assert_eq!(reached.len(), 1);
        assert!(reached[0].contains("SoundFrame") && reached[0].contains("key_turned: true"));
        assert!(reached_once(&coverage, Settings::ORDINARY).is_empty());
    }
}
