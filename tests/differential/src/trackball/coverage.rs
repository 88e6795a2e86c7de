//! Counts what drawn acts reach, so that a test can ask for it.

use crate::tally::Tally;
use crate::trackball::act::{Act, request};
use crate::trackball::draws::WITH_ARGUMENT;
use crate::trackball::situations::{
    self, AXES, Axis, Bits, Byte, Cause, Held, Landing, Situation, end,
};
use model::{Movement, Trackball};

#[derive(Clone, Debug, Default)]
pub struct Coverage {
    pub acts: usize,
    counts: Tally<Situation>,
    /// The act before with the trackball that it found, on the same trackball.
    last: Option<(Trackball, Act)>,
    /// There is movement from while reporting was disabled.
    moved_disabled: bool,
}

impl Coverage {
    /// Counts the acts on a fresh trackball, each by what it found.
    pub fn note_session(&mut self, acts: &[(Trackball, Act)]) {
        self.last = None;
        self.moved_disabled = false;
        for (before, act) in acts {
            self.note(before, *act);
        }
    }

    fn note(&mut self, before: &Trackball, act: Act) {
        self.acts += 1;
        match act {
            Act::Move { buttons, x, y } => self.note_move(before, buttons, [x, y]),
            Act::Send(byte) => self.note_byte(before, byte),
            Act::Report if before.reporting => self.note_packet(before, Cause::Report),
            Act::Report => self.counts.count(Situation::Silence(Held::of(before))),
        }
        self.last = Some((*before, act));
    }

    fn note_move(&mut self, before: &Trackball, buttons: u8, steps: [i16; 2]) {
        self.counts.count(Situation::Buttons {
            buttons: buttons % 8,
            others: buttons > 7,
        });
        let movements = AXES.into_iter().zip([before.x, before.y]);
        for ((axis, movement), step) in movements.zip(steps) {
            self.note_step(axis, movement, step, before.reporting);
        }
        self.moved_disabled |= !before.reporting && steps != [0, 0];
    }

    fn note_step(&mut self, axis: Axis, before: Movement, step: i16, reporting: bool) {
        let Movement { sum, overflow } = before;
        let landing = Landing::of(sum, step);
        self.counts.count(Situation::Step {
            axis,
            landing,
            overflow,
            reporting,
        });
        let Some(end) = end(sum) else { return };
        if overflow && landing == Landing::Inside {
            self.counts.count(Situation::Back { axis, end });
        }
        if step == i16::MIN || step == i16::MAX {
            self.counts.count(Situation::LongStep { axis, end, step });
        }
    }

    fn note_byte(&mut self, before: &Trackball, byte: u8) {
        let reporting = before.reporting;
        let sent = Byte::of(byte);
        self.counts.count(Situation::Sent {
            byte: sent,
            reporting,
        });
        if let Some((_, Act::Send(last))) = self.last
            && WITH_ARGUMENT.contains(&last)
        {
            self.counts.count(Situation::AfterArgument(sent));
        }
        match byte {
            request::PACKET if reporting => self.note_packet(before, Cause::AskedEnabled),
            request::PACKET => self.note_packet(before, Cause::AskedDisabled),
            request::RESET => {
                self.counts.count(Situation::Reset(Held::of(before)));
                self.moved_disabled = false;
            }
            _ => {}
        }
    }

    fn note_packet(&mut self, before: &Trackball, cause: Cause) {
        let [x, y] = [before.x, before.y].map(Bits::of);
        self.counts.count(Situation::Packet { cause, x, y });
        self.counts.count(Situation::PacketButtons(before.buttons));
        for (axis, movement) in AXES.into_iter().zip([before.x, before.y]) {
            self.counts.count(Situation::PacketAt {
                axis,
                end: end(movement.sum),
                overflow: movement.overflow,
            });
        }
        if let Some((found, last)) = self.last
            && last.gives_packet(&found)
        {
            self.counts.count(Situation::PacketAgain(cause));
        }
        if self.moved_disabled {
            self.counts.count(Situation::PacketLater(cause));
        }
        self.moved_disabled = false;
    }

    /// Fails unless each situation came at least once in so many acts.
    pub fn assert_reached(&self, once_in: usize) {
        let reached = self.counts.reached(&situations::all());
        for (count, situation) in &reached {
            println!("{count:8} {situation}");
        }
        for (count, situation) in reached {
            assert!(count * once_in >= self.acts, "{count} of {situation}");
        }
    }
}

#[cfg(test)]
mod tests {
    use super::*;
    use crate::counter_checks::assert_each_once;
    use crate::trackball::act::from_fresh;

    /// What acts from fresh reach, and how often.
    fn reached(acts: &[Act]) -> Vec<(usize, String)> {
        let mut coverage = Coverage::default();
        coverage.note_session(&from_fresh(acts));
        assert_eq!(coverage.acts, acts.len());
        let counts = coverage.counts.reached(&situations::all());
        counts.into_iter().filter(|&(count, _)| count > 0).collect()
    }

    fn named(reached: &[(usize, String)], start: &str) -> usize {
        let named = reached.iter().filter(|(_, name)| name.starts_with(start));
        named.map(|(count, _)| count).sum()
    }

    fn moved(x: i16, y: i16) -> Act {
        Act::Move { buttons: 0, x, y }
    }

    #[test]
    fn each_situation_is_asked_for_once() {
        let moves = 2 * (5 * 4 + 2 * 3) + 16;
        let bytes = 6 * 3 + 16 + 8;
        let packets = 8 + 3 * 18 + 2 * 6;
        assert_each_once(situations::all(), moves + bytes + packets);
    }

    #[test]
    fn a_step_counts_by_where_it_leads() {
        for (sum, step, landing) in [
            (-256, -1, Landing::BelowTheEnd),
            (-256, 0, Landing::LowerEnd),
            (-256, 1, Landing::Inside),
            (255, -1, Landing::Inside),
            (255, 0, Landing::UpperEnd),
            (255, i16::MAX, Landing::AboveTheEnd),
            (-256, i16::MIN, Landing::BelowTheEnd),
        ] {
            assert_eq!(Landing::of(sum, step), landing, "{sum} and {step}");
        }
    }

    #[test]
    fn a_sum_is_back_only_after_an_overflow() {
        let back = |acts: &[Act]| named(&reached(acts), "Back");
        assert_eq!(back(&[moved(255, 0), moved(-1, 0)]), 0);
        assert_eq!(back(&[moved(256, 0), moved(-1, 0)]), 1);
        assert_eq!(back(&[moved(256, -257), moved(-1, 1)]), 2);
        assert_eq!(back(&[moved(256, 0), moved(-1, 0), moved(-1, 0)]), 1);
    }

    #[test]
    fn packets_count_by_what_came_before() {
        let asked = Act::Send(request::PACKET);
        let both = reached(&[moved(1, 0), asked, asked, Act::Report]);
        assert_eq!(named(&both, "Packet {"), 2);
        assert_eq!(named(&both, "PacketAgain"), 1);
        assert_eq!(named(&both, "PacketLater"), 1);
        assert_eq!(named(&both, "Silence"), 1);
        let enabled = reached(&[Act::Send(request::ENABLE), moved(1, 0), Act::Report]);
        assert_eq!(named(&enabled, "PacketLater"), 0);
        assert_eq!(named(&enabled, "Packet {"), 1);
        let reset = reached(&[moved(1, 0), Act::Send(request::RESET), asked]);
        assert_eq!(named(&reset, "PacketLater"), 0);
    }

    #[test]
    fn only_a_byte_straight_after_is_like_an_argument() {
        let [argument, enable] = [0xF3, request::ENABLE].map(Act::Send);
        let after = |acts: &[Act]| named(&reached(acts), "AfterArgument");
        assert_eq!(after(&[argument, enable, enable]), 1);
        assert_eq!(after(&[argument, Act::Report, enable]), 0);
        assert_eq!(after(&[Act::Send(0x00), enable]), 0);
    }
}
