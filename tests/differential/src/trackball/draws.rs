//! Trackballs and acts, drawn so that the ends come often: those of the sums,
//! those of a low byte and those of sixteen bits.

use crate::random::Random;
use crate::trackball::act::{Act, request};
use model::{Movement, Trackball};

/// Sums in range at and beside the ends of all kinds.
pub const SUMS: [i16; 14] = [
    -256, -255, -254, -129, -128, -127, -1, 0, 1, 127, 128, 253, 254, 255,
];

/// Steps that lead from end to end and just past it; in sixteen bits those from
/// 32,513 on would wrap round from an end.
pub const STEPS: [i16; 31] = [
    i16::MIN,
    -32_767,
    -32_513,
    -32_512,
    -513,
    -512,
    -511,
    -510,
    -257,
    -256,
    -255,
    -254,
    -128,
    -2,
    -1,
    0,
    1,
    2,
    128,
    254,
    255,
    256,
    257,
    510,
    511,
    512,
    513,
    32_512,
    32_513,
    32_766,
    i16::MAX,
];

/// Where a step may lead to.
const LANDINGS: [i16; 15] = [
    -258, -257, -256, -255, -129, -128, -1, 0, 1, 127, 128, 254, 255, 256, 257,
];

/// Unknown bytes that have an argument in other mice.
pub const WITH_ARGUMENT: [u8; 2] = [0xE8, 0xF3];
/// Unknown bytes that differ little from a known one.
const NEIGHBOURS: [u8; 8] = [0xEA, 0xEC, 0xF0, 0xF1, 0xF3, 0xF6, 0xFE, 0x7F];

pub fn sum_in_range(random: &mut Random) -> i16 {
    if random.chance(50) {
        random.pick(&SUMS)
    } else {
        random.below(512) as i16 - 256
    }
}

fn movement(random: &mut Random) -> Movement {
    Movement {
        sum: sum_in_range(random),
        overflow: random.chance(50),
    }
}

/// Any trackball that calls can make.
pub fn trackball(random: &mut Random) -> Trackball {
    Trackball {
        buttons: random.byte_in(0..=7),
        reporting: random.chance(50),
        x: movement(random),
        y: movement(random),
    }
}

/// A step from a sum, which may be one that no call makes.
pub fn step(random: &mut Random, sum: i16) -> i16 {
    match random.below(8) {
        0 => random.pick(&STEPS),
        1 => 0,
        2 => random.below(7) as i16 - 3,
        3..=5 => random.pick(&LANDINGS).wrapping_sub(sum),
        6 => random.below(1_025) as i16 - 512,
        _ => random.word() as i16,
    }
}

fn buttons(random: &mut Random, trackball: &Trackball) -> u8 {
    match random.below(4) {
        0 => random.byte(),
        1 => random.byte_in(0..=7),
        2 => 0,
        _ => trackball.buttons,
    }
}

/// Now and then both sums come to 0 at once.
pub fn move_of(random: &mut Random, trackball: &Trackball) -> Act {
    let buttons = buttons(random, trackball);
    let [x, y] = [trackball.x.sum, trackball.y.sum];
    let [x, y] = match random.below(12) {
        0 => [x, y].map(i16::wrapping_neg),
        _ => [step(random, x), step(random, y)],
    };
    Act::Move { buttons, x, y }
}

/// A byte from the host: mostly one that is known.
pub fn byte(random: &mut Random) -> u8 {
    match random.below(16) {
        0..=4 => request::ENABLE,
        5..=6 => request::DISABLE,
        7..=9 => request::PACKET,
        10 => request::IDENTITY,
        11 => request::RESET,
        12 => random.pick(&WITH_ARGUMENT),
        13 => random.pick(&NEIGHBOURS),
        _ => random.byte(),
    }
}

/// Any act, a move in about `moves` of a hundred.
pub fn act(random: &mut Random, moves: usize, trackball: &Trackball) -> Act {
    if random.chance(moves) {
        move_of(random, trackball)
    } else if random.chance(60) {
        Act::Send(byte(random))
    } else {
        Act::Report
    }
}
