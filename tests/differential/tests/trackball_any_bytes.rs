//! A trackball's six bytes that no call made: bits that stand for nothing are not
//! read, and sums out of range are reckoned with as they are.

use differential::random::Random;
use differential::rounds::rounds;
use differential::trackball::act::{Act, request};
use differential::trackball::draws::{self, STEPS};
use differential::trackball::trackballs::Trackballs;
use model::{TRACKBALL_SIZE, Trackball};

const DRAWN: usize = 500_000;

/// The sums that calls can make.
fn in_range(sum: i16) -> bool {
    (-256..=255).contains(&sum)
}

/// Any sum, those just out of range and those at the ends of sixteen bits more
/// often than others.
fn sum(random: &mut Random) -> i16 {
    match random.below(4) {
        0 => random.pick(&[-258, -257, 256, 257, -512, 511, i16::MIN, i16::MAX]),
        1 => draws::sum_in_range(random),
        2 => random.below(2_048) as i16 - 1_024,
        _ => random.word() as i16,
    }
}

fn bytes_of(first: u8, second: u8, x: i16, y: i16) -> [u8; TRACKBALL_SIZE] {
    let [x_low, x_high] = x.to_le_bytes();
    let [y_low, y_high] = y.to_le_bytes();
    [first, second, x_low, x_high, y_low, y_high]
}

/// A report, every byte that is known and one that is not, and drawn moves.
fn acts(random: &mut Random, trackball: &Trackball) -> Vec<Act> {
    let bytes = request::ALL.into_iter().chain([random.byte()]);
    let mut acts: Vec<_> = bytes.map(Act::Send).collect();
    acts.push(Act::Report);
    acts.extend((0..3).map(|_| draws::move_of(random, trackball)));
    acts
}

/// Each act by itself, and the same with reporting the other way. A call leaves
/// the bits that stand for nothing 0, whatever it does.
fn assert_alike(random: &mut Random, both: &mut Trackballs, bytes: [u8; TRACKBALL_SIZE]) {
    let mut other = bytes;
    other[1] ^= 1;
    for act in acts(random, &Trackball::from_bytes(bytes)) {
        for bytes in [bytes, other] {
            both.set(bytes);
            both.act(act);
        }
    }
    both.set(bytes);
    both.start();
}

#[test]
fn every_value_of_the_first_two_bytes() {
    let mut random = Random::new(211);
    let mut both = Trackballs::new(&mut random);
    for first in 0..=0xFF {
        for second in 0..=0xFF {
            let [x, y] = [sum(&mut random), sum(&mut random)];
            let bytes = bytes_of(first, second, x, y);
            assert_alike(&mut random, &mut both, bytes);
        }
    }
}

#[test]
fn every_sum_of_sixteen_bits() {
    let mut random = Random::new(212);
    let mut both = Trackballs::new(&mut random);
    for value in i16::MIN..=i16::MAX {
        let other = sum(&mut random);
        for [x, y] in [[value, other], [other, value]] {
            let bytes = bytes_of(random.byte(), random.byte(), x, y);
            assert_alike(&mut random, &mut both, bytes);
        }
    }
}

/// The same sum along both axes, x with each of the steps and y with its
/// opposite number.
#[test]
fn every_sum_with_steps_at_the_ends() {
    let mut both = Trackballs::new(&mut Random::new(213));
    let [mut inside, mut stopped] = [0, 0];
    for value in i16::MIN..=i16::MAX {
        for (x, y) in STEPS.into_iter().zip(STEPS.into_iter().rev()) {
            both.set(bytes_of(0, 0, value, value));
            both.act(Act::Move { buttons: 0, x, y });
            for movement in [both.model.x, both.model.y] {
                assert!(in_range(movement.sum), "{value} with {x} and {y}");
                stopped += usize::from(movement.overflow);
                inside += usize::from(!movement.overflow && !in_range(value));
            }
        }
    }
    assert!(stopped > 1_000_000, "{stopped}");
    assert!(inside > 5_000, "{inside}");
}

#[test]
fn drawn_bytes_and_what_follows() {
    let mut random = Random::new(214);
    let mut both = Trackballs::new(&mut random);
    let mut out_of_range = 0;
    for _ in 0..DRAWN * rounds() {
        let [x, y] = [sum(&mut random), sum(&mut random)];
        let bytes = bytes_of(random.byte(), random.byte(), x, y);
        both.set(bytes);
        for _ in 0..3 {
            let act = draws::act(&mut random, 40, &both.model);
            out_of_range += usize::from(!in_range(both.model.x.sum));
            both.act(act);
        }
    }
    assert!(out_of_range > DRAWN / 2, "{out_of_range}");
}
