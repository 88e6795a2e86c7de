//! Buffers at and around their limits, and the order of the checks.

use differential::compare::{self, Room};
use differential::coverage::Coverage;
use differential::given::Given;
use differential::images;
use differential::lists;
use differential::random::Random;
use model::{Edition, IMAGE_SIZE, Settings};

/// 7,001 events that follow the machine, at the end drawn blindly.
fn full_list(random: &mut Random, settings: Settings) -> Vec<u8> {
    let mut list = lists::guided(settings, 71, 7_000, &mut Coverage::new());
    let missing = 7_001 - list.len() / 3;
    list.extend(lists::unguided(random, missing));
    list
}

fn lengths_around_the_largest_list(settings: Settings) {
    let mut random = Random::new(41);
    let list = full_list(&mut random, settings);
    assert_eq!(list.len(), 21_003);
    let cases = [
        (20_997, 0),
        (20_998, 7),
        (20_999, 7),
        (21_000, 0),
        (21_001, 7),
        (21_002, 7),
        (21_003, 7),
    ];
    for (length, refusal) in cases {
        for room in [63_000, 63_001, 63_009, 70_000] {
            let written = compare::run(&mut random, settings, &list[..length], room);
            assert_eq!(written.refusal, refusal, "list of {length} bytes");
        }
    }
}

fn lengths_far_past_the_largest_list(settings: Settings) {
    let mut random = Random::new(42);
    for length in [21_006, 42_000, 65_535, 65_536, 65_537, 86_536, 200_001] {
        let list = random.bytes(length);
        for room in [10, length * 3] {
            let written = compare::run(&mut random, settings, &list, room);
            assert_eq!(written.refusal, 7, "list of {length} bytes");
        }
    }
}

fn answers_one_short_exact_and_longer(settings: Settings) {
    let mut random = Random::new(43);
    let list = full_list(&mut random, settings);
    for events in [0_usize, 1, 2, 3, 10, 28, 29, 255, 256, 6_999, 7_000] {
        let exact = events * 9;
        for room in exact.saturating_sub(10)..=exact + 10 {
            let written = compare::run(&mut random, settings, &list[..events * 3], room);
            assert_eq!(written.refusal, if room < exact { 8 } else { 0 });
        }
    }
}

fn every_short_list_with_every_small_buffer(settings: Settings) {
    let mut random = Random::new(44);
    for length in 0..=13 {
        for room in 0..=40 {
            let list = lists::unguided(&mut random, 5);
            compare::run(&mut random, settings, &list[..length], room);
        }
    }
}

differential::under_every_setting!(
    lengths_around_the_largest_list,
    lengths_far_past_the_largest_list,
    answers_one_short_exact_and_longer,
    every_short_list_with_every_small_buffer,
);

#[test]
fn saves_of_every_size() {
    let mut random = Random::new(45);
    for room in (0..=100).chain([255, 256, 1_000]) {
        let refusal = if room < IMAGE_SIZE { 9 } else { 0 };
        let image = images::image(&mut random);
        let room = Room {
            answers: 9,
            saved: room,
        };
        let given = Given::version(0);
        let written = compare::run_image(&mut random, given, &image, &[2, 0, 0], room);
        assert_eq!(written.refusal, refusal);
    }
}

/// A good image, one that breaks a body rule, and one with a wrong mark.
fn three_images(random: &mut Random) -> [Vec<u8>; 3] {
    let good = images::image(random).to_vec();
    let mut unruly = good.clone();
    unruly[3] |= 4;
    images::mend(Edition::Second, &mut unruly);
    let mut unmarked = good.clone();
    unmarked[71] ^= 1;
    [good, unruly, unmarked]
}

#[test]
fn every_mix_of_refusals() {
    let mut random = Random::new(46);
    let mut seen = [0; 12];
    for image in three_images(&mut random) {
        for length in [0, 1, 2, 3, 6, 21_000, 21_003] {
            for answers in [0, 8, 9, 18, 63_000] {
                for saved in [0, 68, 71, 72, 100] {
                    let list = lists::unguided(&mut random, length / 3 + 1);
                    let room = Room { answers, saved };
                    let list = &list[..length];
                    let given = Given::version(0);
                    let written = compare::run_image(&mut random, given, &image, list, room);
                    seen[usize::from(written.refusal)] += 1;
                }
            }
        }
    }
    for refusal in [0, 7, 8, 9, 10, 11] {
        assert!(seen[refusal] > 0, "refusal {refusal}");
    }
}
