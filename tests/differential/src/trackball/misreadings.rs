//! Readings of the trackball's rules that are wrong in one way each, and how
//! often acts tell them from the rules.

use crate::trackball::act::{Act, request};
use model::{Movement, Reply, Trackball};

/// An act, what it found, and the act before it.
struct Asked {
    before: Trackball,
    act: Act,
    last: Option<Act>,
}

/// What comes of it.
#[derive(Clone, Copy, PartialEq)]
struct Outcome {
    after: Trackball,
    reply: Reply,
}

impl Asked {
    fn by_the_rules(&self) -> Outcome {
        let mut after = self.before;
        let reply = self.act.on(&mut after);
        Outcome { after, reply }
    }

    fn sends(&self, byte: u8) -> bool {
        self.act == Act::Send(byte)
    }

    fn gives_packet(&self) -> bool {
        self.act.gives_packet(&self.before)
    }
}

/// Changes what comes of an act by the rules.
type Misreading = fn(&Asked, &mut Outcome);

/// Where a move is misread.
const OF_MOVES: [(&str, Misreading); 15] = [
    ("the lower end is -255", |asked, came| {
        step_by(asked, came, |before, step| stopped(before, step, -255, 255));
    }),
    ("the lower end is -257", |asked, came| {
        step_by(asked, came, |before, step| stopped(before, step, -257, 255));
    }),
    ("the upper end is 254", |asked, came| {
        step_by(asked, came, |before, step| stopped(before, step, -256, 254));
    }),
    ("the upper end is 256", |asked, came| {
        step_by(asked, came, |before, step| stopped(before, step, -256, 256));
    }),
    ("-256 is an overflow", |asked, came| {
        step_by(asked, came, |before, step| overflows_at(before, step, -256));
    }),
    ("255 is an overflow", |asked, came| {
        step_by(asked, came, |before, step| overflows_at(before, step, 255));
    }),
    ("a sum runs on past its ends", |asked, came| {
        step_by(asked, came, |before, step| Movement {
            sum: before.sum.saturating_add(step),
            ..right(before, step)
        });
    }),
    ("a sum wraps round in nine bits", |asked, came| {
        step_by(asked, came, |before, step| Movement {
            sum: (before.sum.wrapping_add(step) << 7) >> 7,
            ..right(before, step)
        });
    }),
    ("a sum wraps round in sixteen bits", |asked, came| {
        step_by(asked, came, |before, step| {
            let sum = before.sum.wrapping_add(step);
            right(Movement { sum, ..before }, 0)
        });
    }),
    ("an overflow ends when the sum comes back", |asked, came| {
        step_by(asked, came, |before, step| {
            let mut again = before;
            again.overflow = false;
            right(again, step)
        });
    }),
    ("a sum stays once there is an overflow", |asked, came| {
        step_by(asked, came, |before, step| {
            if before.overflow {
                before
            } else {
                right(before, step)
            }
        });
    }),
    ("a step of y is along x", |asked, came| {
        if let Act::Move { x, y, .. } = asked.act {
            came.after.x = right(asked.before.x, y);
            came.after.y = right(asked.before.y, x);
        }
    }),
    ("moves do not count while disabled", |asked, came| {
        if matches!(asked.act, Act::Move { .. }) && !asked.before.reporting {
            came.after.x = asked.before.x;
            came.after.y = asked.before.y;
        }
    }),
    ("a fourth button is read", |asked, came| {
        if let Act::Move { buttons, .. } = asked.act {
            came.after.buttons = buttons & 0x0F;
        }
    }),
    ("a button once down stays down", |asked, came| {
        came.after.buttons |= asked.before.buttons;
    }),
];

/// Where a packet is misread, or what it leaves.
const OF_PACKETS: [(&str, Misreading); 11] = [
    ("y comes before x", |asked, came| {
        change_packet(asked, came, |[first, x, y]| [first, y, x]);
    }),
    ("the signs are exchanged", |asked, came| {
        change_packet(asked, came, |[first, x, y]| [exchanged(first, 4, 5), x, y]);
    }),
    ("the overflows are exchanged", |asked, came| {
        change_packet(asked, came, |[first, x, y]| [exchanged(first, 6, 7), x, y]);
    }),
    ("overflows stand before signs", |asked, came| {
        change_packet(asked, came, |[first, x, y]| {
            [exchanged(exchanged(first, 4, 6), 5, 7), x, y]
        });
    }),
    ("an overflow has no sign", |asked, came| {
        change_packet(asked, came, |[first, x, y]| {
            [first & !(first >> 2 & 0x30), x, y]
        });
    }),
    ("a packet leaves the overflows", |asked, came| {
        if asked.gives_packet() {
            came.after.x.overflow = asked.before.x.overflow;
            came.after.y.overflow = asked.before.y.overflow;
        }
    }),
    ("a packet leaves the sums", |asked, came| {
        if asked.gives_packet() {
            came.after.x.sum = asked.before.x.sum;
            came.after.y.sum = asked.before.y.sum;
        }
    }),
    ("a packet lifts the buttons", |asked, came| {
        if asked.gives_packet() {
            came.after.buttons = 0;
        }
    }),
    ("without movement there is no report", |asked, came| {
        if asked.act == Act::Report && is_still(&asked.before) {
            came.reply = Reply::NOTHING;
        }
    }),
    ("a report is given while disabled", |asked, came| {
        if asked.act == Act::Report {
            let mut enabled = asked.before;
            enabled.reporting = true;
            came.reply = enabled.report();
        }
    }),
    ("a report while disabled forgets", |asked, came| {
        if asked.act == Act::Report {
            forget(&mut came.after);
        }
    }),
];

/// Where a byte from the host is misread.
const OF_BYTES: [(&str, Misreading); 14] = [
    ("EBh gives no packet while disabled", |asked, came| {
        if asked.sends(request::PACKET) && !asked.before.reporting {
            *came = Outcome {
                after: asked.before,
                reply: Reply::of(&[0xFA]),
            };
        }
    }),
    ("EBh enables", |asked, came| {
        came.after.reporting |= asked.sends(request::PACKET);
    }),
    ("EBh disables", |asked, came| {
        came.after.reporting &= !asked.sends(request::PACKET);
    }),
    ("EBh gives no FAh", |asked, came| {
        if asked.sends(request::PACKET) {
            came.reply = Reply::of(&came.reply.bytes()[1..]);
        }
    }),
    ("F4h forgets movement", |asked, came| {
        forget_at(request::ENABLE, asked, came);
    }),
    ("F5h forgets movement", |asked, came| {
        forget_at(request::DISABLE, asked, came);
    }),
    ("F2h forgets movement", |asked, came| {
        forget_at(request::IDENTITY, asked, came);
    }),
    ("unknown bytes forget movement", |_, came| {
        if came.reply.bytes() == [0xFE] {
            forget(&mut came.after);
        }
    }),
    ("F6h is known", |asked, came| {
        if asked.sends(0xF6) {
            came.reply = Reply::of(&[0xFA]);
        }
    }),
    ("F3h takes an argument", |asked, came| {
        if asked.last == Some(Act::Send(0xF3)) && matches!(asked.act, Act::Send(_)) {
            *came = Outcome {
                after: asked.before,
                reply: Reply::of(&[0xFA]),
            };
        }
    }),
    ("FFh lifts the buttons", |asked, came| {
        if asked.sends(request::RESET) {
            came.after.buttons = 0;
        }
    }),
    ("FFh leaves the sums", |asked, came| {
        if asked.sends(request::RESET) {
            came.after.x.sum = asked.before.x.sum;
            came.after.y.sum = asked.before.y.sum;
        }
    }),
    ("FFh leaves the overflows", |asked, came| {
        if asked.sends(request::RESET) {
            came.after.x.overflow = asked.before.x.overflow;
            came.after.y.overflow = asked.before.y.overflow;
        }
    }),
    ("FFh leaves reporting", |asked, came| {
        if asked.sends(request::RESET) {
            came.after.reporting = asked.before.reporting;
        }
    }),
];

fn all() -> impl Iterator<Item = (&'static str, Misreading)> {
    OF_MOVES.into_iter().chain(OF_PACKETS).chain(OF_BYTES)
}

const COUNT: usize = OF_MOVES.len() + OF_PACKETS.len() + OF_BYTES.len();

fn right(mut before: Movement, step: i16) -> Movement {
    before.add(step);
    before
}

/// The step of a move along each axis by another rule.
fn step_by(asked: &Asked, came: &mut Outcome, rule: fn(Movement, i16) -> Movement) {
    if let Act::Move { x, y, .. } = asked.act {
        came.after.x = rule(asked.before.x, x);
        came.after.y = rule(asked.before.y, y);
    }
}

/// The rule with other ends.
fn stopped(before: Movement, step: i16, least: i32, most: i32) -> Movement {
    let sum = i32::from(before.sum) + i32::from(step);
    let stopped = sum.clamp(least, most);
    Movement {
        sum: stopped as i16,
        overflow: before.overflow || stopped != sum,
    }
}

/// The rule with an end that is an overflow itself.
fn overflows_at(before: Movement, step: i16, end: i16) -> Movement {
    let after = right(before, step);
    Movement {
        overflow: after.overflow || after.sum == end,
        ..after
    }
}

fn is_still(trackball: &Trackball) -> bool {
    [trackball.x, trackball.y] == [Movement::NONE; 2]
}

fn forget(trackball: &mut Trackball) {
    trackball.x = Movement::NONE;
    trackball.y = Movement::NONE;
}

fn forget_at(byte: u8, asked: &Asked, came: &mut Outcome) {
    if asked.sends(byte) {
        forget(&mut came.after);
    }
}

/// A packet with other bytes, behind FAh where it was asked for.
fn change_packet(asked: &Asked, came: &mut Outcome, change: fn([u8; 3]) -> [u8; 3]) {
    if !asked.gives_packet() {
        return;
    }
    let (before, packet) = came.reply.bytes().split_at(came.reply.bytes().len() - 3);
    let changed = change([packet[0], packet[1], packet[2]]);
    came.reply = Reply::of(&[before, &changed].concat());
}

/// A byte with two of its bits exchanged.
fn exchanged(byte: u8, one: u32, other: u32) -> u8 {
    let differ = (byte >> one ^ byte >> other) & 1;
    byte ^ (differ << one | differ << other)
}

/// How often acts told each misreading from the rules.
pub struct Misreadings {
    told: [usize; COUNT],
}

impl Default for Misreadings {
    fn default() -> Misreadings {
        Misreadings { told: [0; COUNT] }
    }
}

impl Misreadings {
    /// Takes the acts on a trackball and what each found.
    pub fn note_session(&mut self, acts: &[(Trackball, Act)]) {
        let mut last = None;
        for &(before, act) in acts {
            self.note(&Asked { before, act, last });
            last = Some(act);
        }
    }

    fn note(&mut self, asked: &Asked) {
        let right = asked.by_the_rules();
        for (told, (_, misread)) in self.told.iter_mut().zip(all()) {
            let mut came = right;
            misread(asked, &mut came);
            *told += usize::from(came != right);
        }
    }

    /// Fails unless each misreading was told from the rules so often.
    pub fn assert_told(&self, least: usize) {
        for (told, (name, _)) in self.told.into_iter().zip(all()) {
            println!("{told:8} {name}");
            assert!(told >= least, "{name}: told {told} times");
        }
    }
}

#[cfg(test)]
mod tests {
    use super::*;
    use crate::trackball::act::from_fresh;

    /// The names of the misreadings that acts from fresh tell from the rules.
    fn told(acts: &[Act]) -> Vec<&'static str> {
        let mut misreadings = Misreadings::default();
        misreadings.note_session(&from_fresh(acts));
        let told = misreadings.told.into_iter().zip(all());
        told.filter(|&(told, _)| told > 0)
            .map(|(_, (name, _))| name)
            .collect()
    }

    fn moved(x: i16, y: i16) -> Act {
        Act::Move { buttons: 0, x, y }
    }

    #[test]
    fn names_differ() {
        let mut names: Vec<_> = all().map(|(name, _)| name).collect();
        names.sort();
        names.dedup();
        assert_eq!(names.len(), COUNT);
    }

    #[test]
    fn what_is_read_alike_tells_nothing() {
        let [enable, unknown] = [request::ENABLE, 0x00].map(Act::Send);
        assert!(told(&[enable, unknown, moved(0, 0)]).is_empty());
    }

    #[test]
    fn the_ends_tell_how_they_are_read() {
        let enable = Act::Send(request::ENABLE);
        for (step, names) in [
            (254, &[][..]),
            (255, &["the upper end is 254", "255 is an overflow"]),
            (-255, &[]),
            (-256, &["the lower end is -255", "-256 is an overflow"]),
        ] {
            assert_eq!(told(&[enable, moved(step, step)]), names, "{step}");
        }
    }

    #[test]
    fn a_byte_after_f3h_tells_whether_it_is_an_argument() {
        let [argument, enable] = [0xF3, request::ENABLE].map(Act::Send);
        assert_eq!(told(&[argument, enable]), ["F3h takes an argument"]);
        let between = told(&[argument, Act::Report, enable]);
        assert_eq!(between, ["a report is given while disabled"]);
    }

    #[test]
    fn a_reset_tells_what_it_is_thought_to_leave() {
        let acts = [
            Act::Send(request::ENABLE),
            Act::Move {
                buttons: 1,
                x: 3,
                y: 3,
            },
            Act::Send(request::RESET),
        ];
        let names = [
            "FFh lifts the buttons",
            "FFh leaves the sums",
            "FFh leaves reporting",
        ];
        assert_eq!(told(&acts), names);
    }
}
