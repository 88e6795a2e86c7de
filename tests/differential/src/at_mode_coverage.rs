//! Counts what AT mode does otherwise than PS/2 mode, by what it depends on.

use crate::event::{Event, kind};
use crate::pending_code::code;
use crate::tally::Tally;
use model::{Controller, Pending, Settings, Verdict, judge, mode};

/// The commands that act like unknown ones in AT mode.
pub const SWITCHED_OFF: [u8; 11] = [
    0xA4, 0xA5, 0xA6, 0xA7, 0xA8, 0xA9, 0xC1, 0xC2, 0xD2, 0xD3, 0xD4,
];

/// The pending codes that commands leave in AT mode.
const CODES: [u8; 4] = [0, 1, 2, 4];

/// One event and the states around it.
struct Step<'a> {
    before: &'a Controller,
    event: Event,
    refusal: u8,
    after: &'a Controller,
}

impl Step<'_> {
    fn accepted(&self, kind: u8) -> bool {
        self.event.kind == kind && self.refusal == 0
    }

    fn command(&self, command: u8) -> bool {
        self.accepted(kind::WRITE_COMMAND) && self.event.value == command.into()
    }

    /// A command that pulses some of the lines P20-P23.
    fn pulses(&self, line: u8) -> Option<bool> {
        let pulse = self.accepted(kind::WRITE_COMMAND) && self.event.value >= 0xF0;
        pulse.then(|| self.event.value >> line & 1 == 0)
    }
}

type Holds = fn(&Step) -> bool;

const SITUATIONS: [(&str, Holds); 16] = [
    ("mouse frame refused", |step| only(step, [false; 3])),
    ("mouse frame refused, mouse off", |step| {
        only(step, [true, false, false])
    }),
    ("mouse frame refused, OBF", |step| {
        only(step, [false, true, false])
    }),
    ("mouse frame refused, IBF", |step| {
        only(step, [false, false, true])
    }),
    ("mouse frame with a value above 2047", |step| {
        step.event.kind == kind::MOUSE_FRAME && step.refusal == 2
    }),
    ("E0h, keyboard on", |step| {
        step.command(0xE0) && !step.before.mode(mode::KEYBOARD_OFF)
    }),
    ("E0h, keyboard off", |step| {
        step.command(0xE0) && step.before.mode(mode::KEYBOARD_OFF)
    }),
    ("D0h with OBF and EKI", |step| {
        step.command(0xD0) && step.before.full && step.before.mode(mode::EKI)
    }),
    ("D0h with P25 high", |step| {
        step.command(0xD0) && step.before.latch_25
    }),
    ("P22 pulsed", |step| step.pulses(2) == Some(true)),
    ("P22 not pulsed", |step| step.pulses(2) == Some(false)),
    ("P23 pulsed", |step| step.pulses(3) == Some(true)),
    ("P23 not pulsed", |step| step.pulses(3) == Some(false)),
    ("interrupt with EMI off", |step| {
        step.after.full && step.after.mode(mode::EKI) && !step.after.mode(mode::EMI)
    }),
    ("no interrupt with EMI on", |step| {
        step.after.full && !step.after.mode(mode::EKI) && step.after.mode(mode::EMI)
    }),
    ("OBF with a transmit time-out of before", |step| {
        step.before.transmit_timeout && !step.before.full && step.after.full
    }),
];

/// A mouse frame is refused by 12, with just these causes for refusal 5: mouse
/// off, OBF, IBF.
fn only(step: &Step, causes: [bool; 3]) -> bool {
    let state = step.before;
    step.refusal == 12
        && causes
            == [
                state.mode(mode::MOUSE_OFF),
                state.full,
                state.sending.is_some(),
            ]
}

/// What changes or leaves the error flags.
const CAUSES: [(&str, Holds); 5] = [
    ("sound frame", |step| {
        step.accepted(kind::KEYBOARD_FRAME) && matches!(verdict(step), Verdict::Sound(_))
    }),
    ("broken frame", |step| {
        step.accepted(kind::KEYBOARD_FRAME) && verdict(step) == Verdict::Broken
    }),
    ("wrong parity", |step| {
        step.accepted(kind::KEYBOARD_FRAME) && verdict(step) == Verdict::WrongParity
    }),
    ("byte taken", |step| step.accepted(kind::BYTE_TAKEN)),
    ("byte timed out", |step| step.accepted(kind::BYTE_TIMED_OUT)),
];

fn verdict(step: &Step) -> Verdict {
    judge(step.event.value)
}

/// The flag that is set before such an event.
const FLAGS: [(&str, Holds); 4] = [
    ("no error", |step| errors(step.before) == [false; 3]),
    ("transmit time-out", |step| step.before.transmit_timeout),
    ("receive time-out", |step| step.before.timeout_error),
    ("parity error", |step| step.before.parity_error),
];

fn errors(state: &Controller) -> [bool; 3] {
    [
        state.transmit_timeout,
        state.timeout_error,
        state.parity_error,
    ]
}

type Latch = fn(&Controller) -> bool;

const LATCHES: [(&str, Latch); 5] = [
    ("P20", |state| state.latch_20),
    ("P21", |state| state.latch_21),
    ("P22", |state| state.latch_22),
    ("P23", |state| state.latch_23),
    ("P25", |state| state.latch_25),
];

/// A switched-off command and the code that was pending before it.
type SwitchedOff = (u8, u8);

#[derive(Clone, Debug, Default)]
pub struct AtModeCoverage {
    situations: [usize; SITUATIONS.len()],
    /// By what happened and by the flag set before it.
    errors: [[usize; FLAGS.len()]; CAUSES.len()],
    /// By the latch as it was and as D1h wrote it.
    latches: [[[usize; 2]; 2]; LATCHES.len()],
    /// Straight after the command came a data byte.
    switched_off: Tally<SwitchedOff>,
    last: Option<SwitchedOff>,
}

impl AtModeCoverage {
    /// Counts one event in AT mode by its refusal and the states around it.
    pub fn note(&mut self, before: &Controller, event: Event, refusal: u8, after: &Controller) {
        if !before.settings.at_mode {
            return;
        }
        let step = Step {
            before,
            event,
            refusal,
            after,
        };
        for (count, (_, holds)) in self.situations.iter_mut().zip(SITUATIONS) {
            *count += usize::from(holds(&step));
        }
        for (counts, (_, happens)) in self.errors.iter_mut().zip(CAUSES) {
            for (count, (_, set)) in counts.iter_mut().zip(FLAGS) {
                *count += usize::from(happens(&step) && set(&step));
            }
        }
        self.note_latches(&step);
        self.note_switched_off(&step);
    }

    fn note_latches(&mut self, step: &Step) {
        if !step.accepted(kind::WRITE_DATA) || step.before.pending != Pending::OutputPort {
            return;
        }
        for (counts, (_, latch)) in self.latches.iter_mut().zip(LATCHES) {
            counts[usize::from(latch(step.before))][usize::from(latch(step.after))] += 1;
        }
    }

    /// The command flag tells the first event of the next list from a byte
    /// after the last command of this one.
    fn note_switched_off(&mut self, step: &Step) {
        let last = self.last.take();
        let byte_after_command = step.accepted(kind::WRITE_DATA) && step.before.command_flag;
        if let Some(last) = last.filter(|_| byte_after_command) {
            self.switched_off.count(last);
        }
        let command = SWITCHED_OFF.into_iter().find(|&off| step.command(off));
        self.last = command.map(|command| (command, code(step.before.pending)));
    }

    /// How often each situation came that can come under some settings, with
    /// its name.
    pub fn reached(&self, settings: Settings) -> Vec<(usize, String)> {
        if !settings.at_mode {
            return Vec::new();
        }
        let situations = self.situations.iter().zip(SITUATIONS);
        let mut all: Vec<_> = situations
            .map(|(&count, (name, _))| (count, name.to_string()))
            .collect();
        all.extend(self.reached_errors());
        all.extend(self.reached_latches());
        all.extend(self.reached_switched_off());
        all
    }

    fn reached_errors(&self) -> Vec<(usize, String)> {
        let mut all = Vec::new();
        for (counts, (cause, _)) in self.errors.iter().zip(CAUSES) {
            for (&count, (flag, _)) in counts.iter().zip(FLAGS) {
                all.push((count, format!("{cause}, {flag}")));
            }
        }
        all
    }

    fn reached_latches(&self) -> Vec<(usize, String)> {
        let mut all = Vec::new();
        for (counts, (name, _)) in self.latches.iter().zip(LATCHES) {
            for (before, after) in [(0, 0), (0, 1), (1, 0), (1, 1)] {
                let what = format!("{name} written from {before} to {after}");
                all.push((counts[before][after], what));
            }
        }
        all
    }

    fn reached_switched_off(&self) -> Vec<(usize, String)> {
        let mut all = Vec::new();
        for command in SWITCHED_OFF {
            for code in CODES {
                let count = self.switched_off.of(&(command, code));
                let what = format!("{command:02X}h over code {code}, then a byte");
                all.push((count, what));
            }
        }
        all
    }
}

#[cfg(test)]
mod tests {
    use super::*;
    use crate::counter_checks::{assert_each_once, step};
    use crate::under_settings::{AT_MODE, ORDINARY};

    /// The names of what the events reach from fresh, each as often as it came.
    fn reached(settings: Settings, events: &[Event]) -> Vec<String> {
        let fresh = Controller::fresh(settings);
        let mut coverage = AtModeCoverage::default();
        step(fresh, events, |before, event, refusal, after| {
            coverage.note(before, event, refusal, after);
        });
        let counts = coverage.reached(settings).into_iter();
        counts.flat_map(|(count, name)| vec![name; count]).collect()
    }

    #[test]
    fn each_situation_has_a_name_of_its_own() {
        let all = AtModeCoverage::default().reached(AT_MODE);
        assert_each_once(all, 16 + 5 * 4 + 5 * 4 + 11 * 4);
        assert!(AtModeCoverage::default().reached(ORDINARY).is_empty());
    }

    #[test]
    fn a_switched_off_command_counts_with_a_byte_straight_after_it() {
        let name = "A5h over code 4, then a byte";
        let commands = [Event::command(0xD1), Event::command(0xA5)];
        let with = |events: &[Event]| {
            let names = reached(AT_MODE, &[&commands[..], events].concat());
            names.iter().any(|reached| reached == name)
        };
        assert!(with(&[Event::data(1)]));
        assert!(!with(&[Event::status(), Event::data(1)]));
        assert!(!with(&[]));
    }

    #[test]
    fn a_list_that_ends_in_such_a_command_counts_nothing() {
        let mut coverage = AtModeCoverage::default();
        for event in [Event::command(0xA5), Event::data(1)] {
            let fresh = Controller::fresh(AT_MODE);
            coverage.note(&fresh, event, 0, &fresh);
        }
        assert!(coverage.switched_off.is_empty());
    }

    #[test]
    fn errors_count_by_what_was_set() {
        let events = [
            Event::data(0xED),
            Event::new(kind::BYTE_TIMED_OUT, 0),
            Event::read(),
            Event::new(kind::KEYBOARD_FRAME, 1022),
            Event::read(),
            Event::new(kind::KEYBOARD_FRAME, 0x629),
            Event::key(0x1C),
        ];
        let names = reached(AT_MODE, &events);
        let expected = [
            "OBF with a transmit time-out of before",
            "sound frame, receive time-out",
            "broken frame, transmit time-out",
            "byte timed out, no error",
        ];
        assert_eq!(names, expected);
        assert!(reached(ORDINARY, &events).is_empty());
    }

    #[test]
    fn mouse_frames_count_by_what_else_is_in_their_way() {
        let mouse = Event::mouse(0x14);
        let off = "mouse frame refused, mouse off";
        assert_eq!(reached(AT_MODE, &[mouse]), [off]);
        let on = [Event::command(0xAA), Event::read(), mouse];
        assert_eq!(reached(AT_MODE, &on), ["mouse frame refused"]);
        let full = [Event::command(0xAA), mouse];
        assert_eq!(reached(AT_MODE, &full), ["mouse frame refused, OBF"]);
        let sending = [Event::command(0xAA), Event::read(), Event::data(1), mouse];
        assert_eq!(reached(AT_MODE, &sending), ["mouse frame refused, IBF"]);
    }
}
