//! Lists from fresh, by the library and by the model.

use differential::compare;
use differential::coverage::Coverage;
use differential::lists;
use differential::random::Random;
use differential::rounds::rounds;
use differential::under_settings::seed;
use model::Settings;

const GUIDED_EVENTS: usize = 2_500_000;
const UNGUIDED_EVENTS: usize = 500_000;

fn room(random: &mut Random, list: &[u8]) -> usize {
    list.len() * 3 + random.pick(&[0, 0, 1, 8, 9, 100])
}

fn lists_that_follow_the_machine(settings: Settings) {
    let mut coverage = Coverage::new();
    let mut random = Random::new(seed(settings, 1));
    let mut number = seed(settings, 1_000);
    while coverage.events < GUIDED_EVENTS * rounds() {
        let length = lists::choose_length(&mut random);
        let list = lists::guided(settings, number, length, &mut coverage);
        let room = room(&mut random, &list);
        let written = compare::run(&mut random, settings, &list, room);
        assert_eq!(written.refusal, 0);
        number += 1;
    }
    coverage.assert_reached(settings);
}

fn lists_drawn_blindly(settings: Settings) {
    let mut random = Random::new(seed(settings, 2));
    let mut events = 0;
    while events < UNGUIDED_EVENTS * rounds() {
        let length = lists::choose_length(&mut random);
        let list = lists::unguided(&mut random, length);
        let room = room(&mut random, &list);
        let written = compare::run(&mut random, settings, &list, room);
        assert_eq!(written.refusal, 0);
        events += length;
    }
}

/// What stands before a single event: nothing; both devices on; the same with
/// the key switch turned; and with its inhibit overridden.
const BEGINNINGS: [&[u8]; 4] = [
    &[],
    &[3, 0xAA, 0, 0, 0, 0],
    &[3, 0xAA, 0, 0, 0, 0, 8, 0x7F, 0],
    &[3, 0x60, 0, 1, 0x48, 0, 8, 0x7F, 0],
];

/// Every kind with every value, and a read that shows what it put.
fn every_single_event(settings: Settings) {
    let mut random = Random::new(3);
    for beginning in BEGINNINGS {
        for kind in 0..=12 {
            for value in 0..0x900_u16 {
                let [low, high] = value.to_le_bytes();
                let list = [beginning, &[kind, low, high, 0, 0, 0]].concat();
                compare::run(&mut random, settings, &list, list.len() * 3);
            }
        }
    }
}

/// Every command with every data byte after it.
fn every_command_with_every_data_byte(settings: Settings) {
    let mut random = Random::new(4);
    for command in 0..=0xFF {
        let mut list = Vec::new();
        for data in 0..=0xFF {
            list.extend([
                3, command, 0, 1, data, 0, 2, 0, 0, 0, 0, 0, 7, 0, 0, 0, 0, 0,
            ]);
        }
        compare::run(&mut random, settings, &list, list.len() * 3);
    }
}

differential::under_every_setting!(
    lists_that_follow_the_machine,
    lists_drawn_blindly,
    every_single_event,
    every_command_with_every_data_byte,
);
