//! What may come of acts on a trackball, for the counters.

use crate::trackball::act::request;
use model::{Movement, Trackball};

#[derive(Clone, Copy, Debug, PartialEq, Eq, PartialOrd, Ord)]
pub enum Axis {
    X,
    Y,
}

pub const AXES: [Axis; 2] = [Axis::X, Axis::Y];

/// Where a step leads.
#[derive(Clone, Copy, Debug, PartialEq, Eq, PartialOrd, Ord)]
pub enum Landing {
    BelowTheEnd,
    LowerEnd,
    Inside,
    UpperEnd,
    AboveTheEnd,
}

const LANDINGS: [Landing; 5] = [
    Landing::BelowTheEnd,
    Landing::LowerEnd,
    Landing::Inside,
    Landing::UpperEnd,
    Landing::AboveTheEnd,
];

impl Landing {
    pub fn of(sum: i16, step: i16) -> Landing {
        match i32::from(sum) + i32::from(step) {
            ..-256 => Landing::BelowTheEnd,
            -256 => Landing::LowerEnd,
            -255..255 => Landing::Inside,
            255 => Landing::UpperEnd,
            256.. => Landing::AboveTheEnd,
        }
    }
}

/// A byte from the host.
#[derive(Clone, Copy, Debug, PartialEq, Eq, PartialOrd, Ord)]
pub enum Byte {
    Known(u8),
    Unknown,
}

impl Byte {
    pub fn of(byte: u8) -> Byte {
        if request::ALL.contains(&byte) {
            Byte::Known(byte)
        } else {
            Byte::Unknown
        }
    }
}

fn bytes() -> Vec<Byte> {
    let known = request::ALL.map(Byte::Known);
    known.into_iter().chain([Byte::Unknown]).collect()
}

/// What gives a packet.
#[derive(Clone, Copy, Debug, PartialEq, Eq, PartialOrd, Ord)]
pub enum Cause {
    Report,
    AskedEnabled,
    AskedDisabled,
}

const CAUSES: [Cause; 3] = [Cause::Report, Cause::AskedEnabled, Cause::AskedDisabled];

/// What a trackball holds, in brief.
#[derive(Clone, Copy, Debug, PartialEq, Eq, PartialOrd, Ord)]
pub struct Held {
    pub reporting: bool,
    pub moved: bool,
    pub overflow: bool,
    pub buttons: bool,
}

impl Held {
    pub fn of(trackball: &Trackball) -> Held {
        let [x, y] = [trackball.x, trackball.y];
        Held {
            reporting: trackball.reporting,
            moved: x.sum != 0 || y.sum != 0,
            overflow: x.overflow || y.overflow,
            buttons: trackball.buttons != 0,
        }
    }
}

/// Sign and overflow of one axis.
#[derive(Clone, Copy, Debug, PartialEq, Eq, PartialOrd, Ord)]
pub struct Bits {
    negative: bool,
    overflow: bool,
}

impl Bits {
    pub fn of(movement: Movement) -> Bits {
        Bits {
            negative: movement.sum < 0,
            overflow: movement.overflow,
        }
    }
}

#[derive(Clone, Copy, Debug, PartialEq, Eq, PartialOrd, Ord)]
pub enum Situation {
    /// A step, by where it leads and what was there before.
    Step {
        axis: Axis,
        landing: Landing,
        overflow: bool,
        reporting: bool,
    },
    /// From an end, after an overflow, back inside.
    Back {
        axis: Axis,
        end: i16,
    },
    /// The longest steps from the ends.
    LongStep {
        axis: Axis,
        end: i16,
        step: i16,
    },
    /// A move's buttons, with other bits of the byte set or not.
    Buttons {
        buttons: u8,
        others: bool,
    },
    Sent {
        byte: Byte,
        reporting: bool,
    },
    /// Straight after a byte that has an argument in other mice.
    AfterArgument(Byte),
    Reset(Held),
    /// A report while disabled.
    Silence(Held),
    Packet {
        cause: Cause,
        x: Bits,
        y: Bits,
    },
    /// By the end that a sum is at, none where it is inside.
    PacketAt {
        axis: Axis,
        end: Option<i16>,
        overflow: bool,
    },
    PacketButtons(u8),
    /// Straight after another packet.
    PacketAgain(Cause),
    /// After moves that were made while reporting was disabled.
    PacketLater(Cause),
}

const ENDS: [i16; 2] = [-256, 255];

fn truths(number: u8) -> [bool; 4] {
    [1, 2, 4, 8].map(|bit| number & bit != 0)
}

fn of_moves() -> Vec<Situation> {
    let mut all = Vec::new();
    for axis in AXES {
        for landing in LANDINGS {
            let step = |[overflow, reporting, ..]: [bool; 4]| Situation::Step {
                axis,
                landing,
                overflow,
                reporting,
            };
            all.extend((0..4).map(truths).map(step));
        }
        for end in ENDS {
            all.push(Situation::Back { axis, end });
            let steps = [i16::MIN, i16::MAX];
            all.extend(steps.map(|step| Situation::LongStep { axis, end, step }));
        }
    }
    for buttons in 0..8 {
        all.extend([false, true].map(|others| Situation::Buttons { buttons, others }));
    }
    all
}

fn of_bytes() -> Vec<Situation> {
    let mut all = Vec::new();
    for byte in bytes() {
        all.extend([false, true].map(|reporting| Situation::Sent { byte, reporting }));
        all.push(Situation::AfterArgument(byte));
    }
    for [reporting, moved, overflow, buttons] in (0..16).map(truths) {
        let held = Held {
            reporting,
            moved,
            overflow,
            buttons,
        };
        all.push(Situation::Reset(held));
        if !reporting {
            all.push(Situation::Silence(held));
        }
    }
    all
}

fn of_packets() -> Vec<Situation> {
    let mut all: Vec<_> = (0..8).map(Situation::PacketButtons).collect();
    for cause in CAUSES {
        all.extend((0..16).map(truths).map(|bits| Situation::Packet {
            cause,
            x: Bits {
                negative: bits[0],
                overflow: bits[1],
            },
            y: Bits {
                negative: bits[2],
                overflow: bits[3],
            },
        }));
        all.push(Situation::PacketAgain(cause));
        all.push(Situation::PacketLater(cause));
    }
    for axis in AXES {
        for end in ENDS.map(Some).into_iter().chain([None]) {
            all.extend([false, true].map(|overflow| Situation::PacketAt {
                axis,
                end,
                overflow,
            }));
        }
    }
    all
}

/// Everything that drawn acts have to reach.
pub fn all() -> Vec<Situation> {
    [of_moves(), of_bytes(), of_packets()].concat()
}

/// The end that a sum is at.
pub fn end(sum: i16) -> Option<i16> {
    ENDS.into_iter().find(|&end| end == sum)
}
