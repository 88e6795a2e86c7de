//! Counts what the second command set does otherwise than the first, by what it
//! depends on.

use crate::event::{Event, kind};
use crate::latch_writers::{Latch, WRITERS, Writer};
use crate::pending_code::code;
use crate::tally::Tally;
use model::{Controller, Pending, Settings};
use std::ops::Range;

/// The commands that the second set adds.
pub const ADDED: [u8; 52] = [
    0x90, 0x91, 0x92, 0x93, 0x94, 0x95, 0x96, 0x97, 0x98, 0x99, 0x9A, 0x9B, 0x9C, 0x9D, 0x9E, 0x9F,
    0xA1, 0xAF, 0xB0, 0xB1, 0xB2, 0xB3, 0xB4, 0xB5, 0xB6, 0xB7, 0xB8, 0xB9, 0xBA, 0xBB, 0xBC, 0xBD,
    0xBE, 0xBF, 0xC8, 0xC9, 0xCA, 0xE1, 0xE2, 0xE3, 0xE4, 0xE5, 0xE6, 0xE7, 0xE8, 0xE9, 0xEA, 0xEB,
    0xEC, 0xED, 0xEE, 0xEF,
];

const SIDES: [bool; 2] = [false, true];

#[derive(Clone, Copy, Debug, PartialEq, Eq, PartialOrd, Ord)]
enum Situation {
    /// One of the commands that are added, and whether D1h was allowed.
    Added { command: u8, allowed: bool },
    /// A latch as it was and as a command wrote it.
    Written {
        by: Writer,
        latch: Latch,
        from: bool,
        to: bool,
    },
    /// A line of P1 at a command that reads it. Without a latch it counts as 1.
    Line {
        command: u8,
        line: u8,
        latch: bool,
        pin: bool,
    },
    /// P23 and P22 as they were and as the byte after D1h has them.
    OutputPort { allowed: bool, from: u8, to: u8 },
    /// The key switch under an overlay, before and after the pins came.
    KeyMoved { from: bool, to: bool },
    /// The status read under an overlay.
    StatusRead { turned: bool },
    /// A command and a read straight after it.
    ThenRead { command: u8 },
    /// A command over a pending code, and a byte straight after it.
    ThenByte { command: u8, code: u8 },
}

/// The lines of P1 that a command goes by.
fn lines_of(command: u8) -> Range<u8> {
    match command {
        0xC0 => 0..8,
        0xC1 => 0..4,
        _ => 4..8,
    }
}

#[derive(Clone, Debug, Default)]
pub struct SecondSetCoverage {
    counts: Tally<Situation>,
    /// The command that came last, and the code that was pending before it.
    last: Option<(u8, u8)>,
}

impl SecondSetCoverage {
    /// Counts one event with the second set by its refusal and the states around
    /// it.
    pub fn note(&mut self, before: &Controller, event: Event, refusal: u8, after: &Controller) {
        if !before.settings.second_set || refusal != 0 {
            return;
        }
        self.note_after_command(before, event);
        match event.kind {
            kind::WRITE_COMMAND => self.note_command(before, event.value as u8, after),
            kind::WRITE_DATA => self.note_output_port(before, event.value as u8),
            _ => self.note_overlay(before, event, after),
        }
    }

    fn count(&mut self, situation: Situation) {
        self.counts.count(situation);
    }

    fn note_command(&mut self, before: &Controller, command: u8, after: &Controller) {
        self.last = Some((command, code(before.pending)));
        if ADDED.contains(&command) {
            let allowed = before.output_port_allowed;
            self.count(Situation::Added { command, allowed });
        }
        if let Some(by) = Writer::of(command) {
            for &latch in by.written(command) {
                let (from, to) = (latch.of(before), latch.of(after));
                self.count(Situation::Written {
                    by,
                    latch,
                    from,
                    to,
                });
            }
        }
        if matches!(command, 0xC0..=0xC2) {
            self.note_lines(before, command);
        }
    }

    fn note_lines(&mut self, state: &Controller, command: u8) {
        for line in lines_of(command) {
            let pin = state.pins >> line & 1 != 0;
            let latch = line > 5 || state.latches_1 >> line & 1 != 0;
            self.count(Situation::Line {
                command,
                line,
                latch,
                pin,
            });
        }
    }

    fn note_output_port(&mut self, before: &Controller, byte: u8) {
        if before.pending == Pending::OutputPort {
            let from = u8::from(before.latch_23) << 1 | u8::from(before.latch_22);
            self.count(Situation::OutputPort {
                allowed: before.output_port_allowed,
                from,
                to: byte >> 2 & 3,
            });
        }
    }

    fn note_overlay(&mut self, before: &Controller, event: Event, after: &Controller) {
        if before.overlay.is_none() {
            return;
        }
        let (from, to) = (before.key_turned(), after.key_turned());
        match event.kind {
            kind::PINS => self.count(Situation::KeyMoved { from, to }),
            kind::READ_STATUS => self.count(Situation::StatusRead { turned: from }),
            _ => {}
        }
    }

    /// The command flag tells the first event of the next list from what follows
    /// the last command of this one.
    fn note_after_command(&mut self, before: &Controller, event: Event) {
        let last = self.last.take().filter(|_| before.command_flag);
        let Some((command, code)) = last else {
            return;
        };
        match event.kind {
            kind::READ_DATA => self.count(Situation::ThenRead { command }),
            kind::WRITE_DATA => self.count(Situation::ThenByte { command, code }),
            _ => {}
        }
    }

    /// How often each situation came that can come under some settings, with
    /// its name.
    pub fn reached(&self, settings: Settings) -> Vec<(usize, String)> {
        self.counts.reached(&situations(settings))
    }
}

/// All that can come under some settings.
fn situations(settings: Settings) -> Vec<Situation> {
    if !settings.second_set {
        return Vec::new();
    }
    let mut all = written();
    for allowed in SIDES {
        all.extend(ADDED.map(|command| Situation::Added { command, allowed }));
        for from in 0..4 {
            all.extend((0..4).map(|to| Situation::OutputPort { allowed, from, to }));
        }
    }
    all.extend(lines(settings));
    if !settings.at_mode {
        all.extend(overlays());
    }
    all.extend(followed(settings));
    all
}

fn written() -> Vec<Situation> {
    let mut all = Vec::new();
    for by in WRITERS {
        for &latch in by.latches() {
            for from in SIDES {
                all.extend(SIDES.map(|to| Situation::Written {
                    by,
                    latch,
                    from,
                    to,
                }));
            }
        }
    }
    all
}

/// P16 and P17 have no latch, and AT mode has no polls.
fn lines(settings: Settings) -> Vec<Situation> {
    let commands = if settings.at_mode {
        0xC0..=0xC0
    } else {
        0xC0..=0xC2
    };
    let mut all = Vec::new();
    for command in commands {
        for line in lines_of(command) {
            for latch in SIDES.into_iter().filter(|&latch| latch || line < 6) {
                all.extend(SIDES.map(|pin| Situation::Line {
                    command,
                    line,
                    latch,
                    pin,
                }));
            }
        }
    }
    all
}

fn overlays() -> Vec<Situation> {
    let mut all = Vec::new();
    for from in SIDES {
        all.push(Situation::StatusRead { turned: from });
        all.extend(SIDES.map(|to| Situation::KeyMoved { from, to }));
    }
    all
}

/// In AT mode A4h is switched off as A5h and A6h are with this set, and fewer
/// codes are pending.
fn followed(settings: Settings) -> Vec<Situation> {
    let (put, off, codes): (&[u8], &[u8], &[u8]) = if settings.at_mode {
        (&[0xA1, 0xAF, 0xCA], &[0xA4, 0xA5, 0xA6], &[0, 1, 2, 4])
    } else {
        let codes = &[0, 1, 2, 4, 5, 6, 7];
        (&[0xA1, 0xA4, 0xAF, 0xCA], &[0xA5, 0xA6], codes)
    };
    let puts = put.iter().map(|&command| Situation::ThenRead { command });
    let mut all: Vec<_> = puts.collect();
    for &command in off {
        let over = codes.iter();
        all.extend(over.map(|&code| Situation::ThenByte { command, code }));
    }
    all
}

#[cfg(test)]
mod tests {
    use super::*;
    use crate::counter_checks::{assert_each_once, step};
    use crate::under_settings::{ORDINARY, SECOND_SET, SECOND_SET_IN_AT_MODE, all};

    /// The situations that the events reach from fresh, each as often as it came.
    fn reached(settings: Settings, events: &[Event]) -> Vec<Situation> {
        let fresh = Controller::fresh(settings);
        let mut coverage = SecondSetCoverage::default();
        step(fresh, events, |before, event, refusal, after| {
            coverage.note(before, event, refusal, after);
        });
        let asked = situations(settings).into_iter();
        asked
            .flat_map(|situation| vec![situation; coverage.counts.of(&situation)])
            .collect()
    }

    #[test]
    fn each_situation_is_asked_for_once() {
        for settings in all() {
            let expected = match (settings.second_set, settings.at_mode) {
                (false, _) => 0,
                (true, false) => 15 * 4 + 2 * 52 + 2 * 16 + 28 + 16 + 12 + 6 + 4 + 2 * 7,
                (true, true) => 15 * 4 + 2 * 52 + 2 * 16 + 28 + 3 + 3 * 4,
            };
            assert_each_once(situations(settings), expected);
        }
    }

    #[test]
    fn a_latch_counts_as_it_was_and_as_it_is() {
        let events = [Event::command(0xB6), Event::command(0xB6)];
        let written = |from| Situation::Written {
            by: Writer::One,
            latch: Latch::P1(4),
            from,
            to: false,
        };
        let added = Situation::Added {
            command: 0xB6,
            allowed: false,
        };
        for settings in [SECOND_SET, SECOND_SET_IN_AT_MODE] {
            let expected = [written(false), written(true), added, added];
            assert_eq!(reached(settings, &events), expected);
        }
        assert!(reached(ORDINARY, &events).is_empty());
    }

    #[test]
    fn d1h_counts_by_its_leave_and_both_patterns() {
        let events = [
            Event::command(0xC8),
            Event::command(0xD1),
            Event::data(0xF6),
            Event::command(0xC9),
            Event::command(0xD1),
            Event::data(0x08),
        ];
        let ports: Vec<Situation> = reached(SECOND_SET, &events)
            .into_iter()
            .filter(|situation| matches!(situation, Situation::OutputPort { .. }))
            .collect();
        let port = |allowed, from, to| Situation::OutputPort { allowed, from, to };
        assert_eq!(ports, [port(false, 1, 2), port(true, 3, 1)]);
    }

    #[test]
    fn the_key_switch_counts_under_an_overlay_alone() {
        let turned = [Event::pins(0x7F), Event::status()];
        assert!(reached(SECOND_SET, &turned).is_empty());
        let polled = [&[Event::command(0xC2)], &turned[..]].concat();
        let all = reached(SECOND_SET, &polled);
        let moved = Situation::KeyMoved {
            from: false,
            to: true,
        };
        let read = Situation::StatusRead { turned: true };
        assert!(all.contains(&moved) && all.contains(&read));
        assert_eq!(all.len(), 4 + 2, "{all:?}");
    }

    #[test]
    fn what_follows_counts_straight_after_the_command() {
        let read = Situation::ThenRead { command: 0xAF };
        let all = reached(SECOND_SET, &[Event::command(0xAF), Event::read()]);
        assert!(all.contains(&read));
        let late = [Event::command(0xAF), Event::status(), Event::read()];
        assert!(!reached(SECOND_SET, &late).contains(&read));
        let byte = Situation::ThenByte {
            command: 0xA5,
            code: 5,
        };
        let over = [Event::command(0xD2), Event::command(0xA5), Event::data(1)];
        assert!(reached(SECOND_SET, &over).contains(&byte));
    }

    #[test]
    fn refused_events_count_nothing() {
        let events = [Event::data(0xED), Event::command(0xB0)];
        assert!(reached(SECOND_SET, &events).is_empty());
    }
}
