//! The trackball: drawn sessions, and calls on every state that calls can make.

use calugnid::FRAMES;
use differential::random::Random;
use differential::rounds::rounds;
use differential::trackball::act::{Act, request};
use differential::trackball::coverage::Coverage;
use differential::trackball::draws::{self, STEPS, SUMS};
use differential::trackball::misreadings::Misreadings;
use differential::trackball::trackballs::Trackballs;
use model::{Movement, Reply, Trackball};
use std::ops::RangeInclusive;

const ACTS: usize = 3_000_000;
const DRAWN: usize = 4_000;

/// All the sums that there are.
const RANGE: RangeInclusive<i16> = -256..=255;

#[test]
fn a_start_over_any_bytes() {
    let mut random = Random::new(201);
    for _ in 0..10_000 {
        let mut both = Trackballs::started(&mut random);
        assert!(both.act(Act::Report).bytes().is_empty());
        both.start();
    }
    assert_eq!(calugnid::Trackball::fresh().bytes(), [0; 6]);
}

/// Steps along one axis, and the first byte and the low byte of the packet.
const WORKED: [(&[i16], u8, u8); 9] = [
    (&[255], 0x08, 0xFF),
    (&[256], 0x48, 0xFF),
    (&[-256], 0x18, 0x00),
    (&[-257], 0x58, 0x00),
    (&[255, 1], 0x48, 0xFF),
    (&[256, -10], 0x48, 0xF5),
    (&[-257, 256], 0x48, 0x00),
    (&[-256, i16::MIN], 0x58, 0x00),
    (&[255, i16::MAX], 0x48, 0xFF),
];

/// What a packet asked for gives after steps, by the library alone.
fn asked_after(steps: &[[i16; 2]]) -> [u16; FRAMES] {
    let mut trackball = calugnid::Trackball::fresh();
    for &[x, y] in steps {
        trackball.move_by(0, x, y);
    }
    let mut frames = [0; FRAMES];
    assert_eq!(trackball.send(request::PACKET, &mut frames), 4);
    frames.map(calugnid::judge)
}

#[test]
fn worked_packets() {
    for (steps, first, low) in WORKED {
        let [first, low] = [first, low].map(u16::from);
        let along_x: Vec<_> = steps.iter().map(|&step| [step, 0]).collect();
        assert_eq!(asked_after(&along_x), [0xFA, first, low, 0], "{steps:?}");
        let along_y: Vec<_> = steps.iter().map(|&step| [0, step]).collect();
        let first = 0x08 | (first & 0x50) << 1;
        assert_eq!(asked_after(&along_y), [0xFA, first, 0, low], "{steps:?}");
    }
}

/// Acts on a fresh trackball; hands them back with what each found.
fn session(random: &mut Random) -> Vec<(Trackball, Act)> {
    let mut both = Trackballs::started(random);
    let moves = random.pick(&[30, 50, 80]);
    let length = random.below(400);
    let next = |_| {
        let before = both.model;
        let act = draws::act(random, moves, &before);
        both.act(act);
        (before, act)
    };
    (0..length).map(next).collect()
}

/// In every tenth session the acts are looked at for what they tell.
#[test]
fn drawn_sessions() {
    let mut random = Random::new(202);
    let mut coverage = Coverage::default();
    let mut misreadings = Misreadings::default();
    let mut number = 0;
    while coverage.acts < ACTS * rounds() {
        let acts = session(&mut random);
        coverage.note_session(&acts);
        if number % 10 == 0 {
            misreadings.note_session(&acts);
        }
        number += 1;
    }
    coverage.assert_reached(10_000);
    misreadings.assert_told(500);
}

/// Buttons, reporting and overflows of all kinds, with no movement.
fn standing() -> Vec<Trackball> {
    let trackball = |bits: u8| {
        let mut trackball = Trackball {
            buttons: bits % 8,
            reporting: bits & 8 != 0,
            ..Trackball::FRESH
        };
        trackball.x.overflow = bits & 16 != 0;
        trackball.y.overflow = bits & 32 != 0;
        trackball
    };
    (0..64).map(trackball).collect()
}

fn with_sums(standing: Trackball, x: i16, y: i16) -> Trackball {
    let mut trackball = standing;
    trackball.x.sum = x;
    trackball.y.sum = y;
    trackball
}

/// Every sum along one axis with each of the sums at the ends along the other.
fn crossed() -> Vec<[i16; 2]> {
    let mut all = Vec::new();
    for end in SUMS {
        all.extend(RANGE.map(|sum| [sum, end]));
        all.extend(RANGE.map(|sum| [end, sum]));
    }
    all
}

/// The sums by nine bits in two's complement.
fn sums_in(packet: &[u8]) -> [i16; 2] {
    let sum = |low: u8, sign: u8| {
        let sign = if packet[0] & sign == 0 { 0 } else { 256 };
        i16::from(low) - sign
    };
    [sum(packet[1], 0x10), sum(packet[2], 0x20)]
}

/// The rest of a packet: buttons, bit 3 and overflows.
fn rest_of(trackball: &Trackball) -> u8 {
    let overflows = u8::from(trackball.x.overflow) << 6 | u8::from(trackball.y.overflow) << 7;
    0x08 | trackball.buttons | overflows
}

#[test]
fn a_report_from_every_state() {
    let mut both = Trackballs::new(&mut Random::new(203));
    let standing = standing();
    let mut packets = 0;
    for x in RANGE {
        for y in RANGE {
            for &standing in &standing {
                let before = with_sums(standing, x, y);
                both.set(before.bytes());
                let reply = both.act(Act::Report);
                let packet = reply.bytes();
                assert_eq!(packet.is_empty(), !before.reporting);
                if before.reporting {
                    assert_eq!(sums_in(packet), [x, y]);
                    assert_eq!(packet[0] & 0xCF, rest_of(&before));
                    packets += 1;
                }
            }
        }
    }
    assert_eq!(packets, 512 * 512 * 32);
}

/// Every byte that does something, and two that are unknown.
#[test]
fn bytes_from_states_at_the_ends() {
    let mut both = Trackballs::new(&mut Random::new(204));
    let unknown = [0xE8, 0x00];
    for [x, y] in crossed() {
        for standing in standing() {
            let before = with_sums(standing, x, y);
            for byte in request::ALL.into_iter().chain(unknown) {
                both.set(before.bytes());
                let reply = both.act(Act::Send(byte));
                let packet = byte == request::PACKET;
                assert_eq!(reply.bytes().len() == 4, packet);
                if packet {
                    assert_eq!(sums_in(&reply.bytes()[1..]), [x, y]);
                }
                assert_eq!(both.model.buttons, before.buttons);
            }
        }
    }
}

/// Each step along one axis with every sum there; along the other both are
/// drawn.
#[test]
fn moves_at_the_ends_from_every_sum() {
    let mut random = Random::new(205);
    let mut both = Trackballs::new(&mut random);
    for sum in RANGE {
        for step in STEPS {
            for standing in standing() {
                let other = draws::sum_in_range(&mut random);
                let other_step = draws::step(&mut random, other);
                let buttons = random.byte();
                for along_x in [true, false] {
                    let [x, y] = if along_x { [sum, other] } else { [other, sum] };
                    both.set(with_sums(standing, x, y).bytes());
                    let steps = [step, other_step];
                    let [x, y] = if along_x { steps } else { [steps[1], steps[0]] };
                    both.act(Act::Move { buttons, x, y });
                }
            }
        }
    }
}

/// Where a step leads, reckoned with numbers that hold any sum of the two.
fn stepped(before: Movement, step: i16) -> Movement {
    let exact = i32::from(before.sum) + i32::from(step);
    Movement {
        sum: exact.clamp(-256, 255) as i16,
        overflow: before.overflow || !(-256..=255).contains(&exact),
    }
}

/// The same movement along both axes, and each step along each of them.
#[test]
fn every_step_of_sixteen_bits() {
    let mut random = Random::new(206);
    let mut both = Trackballs::new(&mut random);
    let with_overflows = |sum| [false, true].map(|overflow| Movement { sum, overflow });
    for before in SUMS.into_iter().flat_map(with_overflows) {
        let trackball = Trackball {
            x: before,
            y: before,
            ..Trackball::FRESH
        };
        for step in i16::MIN..=i16::MAX {
            let other = random.pick(&STEPS);
            for [x, y] in [[step, other], [other, step]] {
                both.set(trackball.bytes());
                both.act(Act::Move { buttons: 0, x, y });
                let after = [both.model.x, both.model.y];
                let expected = [x, y].map(|step| stepped(before, step));
                assert_eq!(after, expected, "{x} and {y} from {before:?}");
            }
        }
    }
}

/// What a byte gives: the packet apart, the same whatever the trackball.
fn expected(byte: u8, before: &Trackball) -> Reply {
    match byte {
        request::ENABLE | request::DISABLE => Reply::of(&[0xFA]),
        request::IDENTITY => Reply::of(&[0xFA, 0x00]),
        request::RESET => Reply::of(&[0xFA, 0xAA, 0x00]),
        request::PACKET => {
            let mut enabled = *before;
            enabled.reporting = true;
            Reply::of(&[&[0xFA], enabled.report().bytes()].concat())
        }
        _ => Reply::of(&[0xFE]),
    }
}

#[test]
fn every_byte_from_drawn_states() {
    let mut random = Random::new(207);
    let mut both = Trackballs::new(&mut random);
    for _ in 0..DRAWN * rounds() {
        let before = draws::trackball(&mut random);
        for byte in 0..=0xFF {
            both.set(before.bytes());
            let reply = both.act(Act::Send(byte));
            assert_eq!(reply, expected(byte, &before), "{byte:02X}");
            if reply == Reply::of(&[0xFE]) {
                assert_eq!(both.model, before, "{byte:02X}");
            }
        }
    }
}

/// Every two bytes one after the other: the second is no argument of the first.
#[test]
fn every_two_bytes() {
    let mut random = Random::new(208);
    let mut both = Trackballs::new(&mut random);
    for first in 0..=0xFF {
        for second in 0..=0xFF {
            let before = draws::trackball(&mut random);
            both.set(before.bytes());
            both.act(Act::Send(first));
            let between = both.model;
            let reply = both.act(Act::Send(second));
            let expected = expected(second, &between);
            assert_eq!(reply, expected, "{first:02X} {second:02X}");
        }
    }
}
