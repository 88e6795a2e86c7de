//! The checks of a key table and their order, by all three calls that make them.

use differential::both::{self, Both};
use differential::compare;
use differential::event::Event;
use differential::fenced::Fenced;
use differential::images;
use differential::key_tables::{self, FIXED, KEYS, free};
use differential::keys;
use differential::lists;
use differential::random::Random;
use differential::rounds::rounds;
use differential::under_settings::{WITH_BUILT_IN_TABLE, all};
use model::{Controller, KeyTable, Settings, TABLE_SIZE, state_bytes};

const DRAWN_TABLES: usize = 2_000;
const DAMAGED_TABLES: usize = 20_000;

/// The keyboard on, a key and a read of it, a break sequence and a read.
fn shown() -> Vec<u8> {
    let events = [
        Event::command(0xAE),
        Event::key(0x1C),
        Event::read(),
        Event::key(0xF0),
        Event::key(0x83),
        Event::read(),
    ];
    events.into_iter().flat_map(Event::to_bytes).collect()
}

/// What refuses a table. The question, a start over any bytes and a run give the
/// same number.
fn refusal_of(random: &mut Random, table: &[u8]) -> u8 {
    let settings = random.pick(&WITH_BUILT_IN_TABLE);
    let refusal = compare::table_refusal(table);
    let start = both::start_with_table(random, settings, table);
    let list = shown();
    let run = compare::run_with_table(random, settings, table, &list, list.len() * 3);
    assert_eq!([start, run.refusal], [refusal; 2], "{table:02X?}");
    refusal
}

fn changed(mut table: KeyTable, entries: &[(usize, u8)]) -> KeyTable {
    for &(byte, code) in entries {
        table.0[byte] = code;
    }
    table
}

/// The built-in table, one with its entries in another order, and one with
/// anything in the free ones.
fn three_tables(random: &mut Random) -> [KeyTable; 3] {
    [
        KeyTable::BUILT_IN,
        key_tables::shuffled(random),
        key_tables::with_anything_free(random),
    ]
}

/// A table as it is and with one entry changed. So a code is there twice, or one
/// that is no key's.
#[test]
fn every_entry_changed_to_every_value() {
    let mut random = Random::new(161);
    for table in three_tables(&mut random) {
        let keys = KEYS.map(|byte| (byte, 14));
        let fixed = FIXED.map(|(byte, _)| (byte, 15));
        let all = keys.chain(fixed).chain(free().map(|byte| (byte, 0)));
        let mut tried = 0;
        for (byte, refusal) in all {
            for code in 0..=0xFF {
                let tampered = changed(table, &[(byte, code)]);
                let expected = if tampered == table { 0 } else { refusal };
                let given = refusal_of(&mut random, &tampered.0);
                assert_eq!(given, expected, "{byte:02X} {code:02X}");
                tried += 1;
            }
        }
        assert_eq!(tried, TABLE_SIZE * 256);
    }
}

/// Two keys that change places are sound. Two whose codes come nearer by one
/// each, so that the sum stays, are so only where that makes them change places.
#[test]
fn every_two_keys() {
    let mut random = Random::new(162);
    let table = key_tables::draw(&mut random);
    let mut refusals = [0; 16];
    for one in KEYS {
        for other in (one + 1)..=*KEYS.end() {
            let [low, high] = [table.0[one], table.0[other]];
            let swapped = changed(table, &[(one, high), (other, low)]);
            assert_eq!(
                refusal_of(&mut random, &swapped.0),
                0,
                "{one:02X} {other:02X}"
            );
            let nearer = changed(table, &[(one, low + 1), (other, high - 1)]);
            let expected = if high == low + 1 { 0 } else { 14 };
            let refusal = refusal_of(&mut random, &nearer.0);
            assert_eq!(refusal, expected, "{one:02X} {other:02X}");
            refusals[usize::from(refusal)] += 1;
        }
    }
    assert!(refusals[0] > 0 && refusals[14] > 7_000, "{refusals:?}");
}

#[test]
fn drawn_tables_are_taken() {
    let mut random = Random::new(163);
    for _ in 0..DRAWN_TABLES * rounds() {
        let table = key_tables::draw(&mut random);
        assert_eq!(refusal_of(&mut random, &table.0), 0);
    }
}

#[test]
fn one_or_two_entries_damaged() {
    let mut random = Random::new(164);
    let mut refusals = [0; 16];
    for _ in 0..DAMAGED_TABLES * rounds() {
        let table = key_tables::draw(&mut random);
        let damaged = key_tables::damaged(&mut random, table);
        refusals[usize::from(refusal_of(&mut random, &damaged.0))] += 1;
    }
    println!("{refusals:?}");
    for refusal in [0, 14, 15] {
        assert!(refusals[refusal] > DAMAGED_TABLES / 10, "{refusals:?}");
    }
}

/// Of the last ones the lowest bits are those of 256.
const LENGTHS: [usize; 18] = [
    0, 1, 2, 64, 127, 128, 129, 254, 255, 257, 258, 384, 511, 512, 513, 1_000, 65_536, 65_792,
];

/// Sound tables over and over, none of whose entries is wrong, and bytes that
/// are wrong throughout.
#[test]
fn every_other_length_is_refused_by_13() {
    let mut random = Random::new(165);
    let table = key_tables::draw(&mut random);
    let sound = table.0.into_iter().cycle();
    let longest = LENGTHS.iter().max().copied().unwrap_or(0);
    let sound: Vec<u8> = sound.take(longest).collect();
    let wrong = vec![0; longest];
    for length in LENGTHS.into_iter().chain(0..=600) {
        let expected = if length == TABLE_SIZE {
            [0, 14]
        } else {
            [13; 2]
        };
        let refusals = [&sound, &wrong].map(|bytes| refusal_of(&mut random, &bytes[..length]));
        assert_eq!(refusals, expected, "{length}");
        let from_the_end = refusal_of(&mut random, &sound[sound.len() - length..]);
        assert_eq!(from_the_end, expected[0], "{length}");
    }
}

/// Each key with another's code, and each fixed entry with another one, at once.
#[test]
fn keys_are_checked_before_fixed_entries() {
    let mut random = Random::new(166);
    let table = key_tables::draw(&mut random);
    for key in KEYS {
        for (byte, code) in FIXED {
            let twice = table.0[if key == 0x01 { 0x7F } else { key - 1 }];
            let both = changed(table, &[(key, twice), (byte, code ^ 0x01)]);
            assert_eq!(refusal_of(&mut random, &both.0), 14, "{key:02X} {byte:02X}");
        }
    }
}

/// One table for each number that there is.
fn a_table_of_each_sort(random: &mut Random) -> [(Vec<u8>, u8); 4] {
    let table = key_tables::draw(random);
    let keys = changed(table, &[(0x7F, table.0[0x01]), (0xFE, 0xFF)]);
    let fixed = changed(table, &[(0xEE, 0x1E)]);
    let short = keys.0[..TABLE_SIZE - 1].to_vec();
    let full = [table, keys, fixed].map(|table| table.0.to_vec());
    let [sound, keys, fixed] = full;
    [(sound, 0), (short, 13), (keys, 14), (fixed, 15)]
}

/// The list is looked at only where the table is sound, and the room only where
/// the list is.
#[test]
fn the_table_is_checked_before_the_list_and_the_room() {
    let mut random = Random::new(167);
    let mut seen = [0; 16];
    for (table, refusal) in a_table_of_each_sort(&mut random) {
        for length in [0, 1, 2, 3, 6, 20_999, 21_000, 21_003, 65_536] {
            for room in [0, 8, 9, 17, 18, 62_999, 63_000, 63_009] {
                let list = lists::unguided(&mut random, length / 3 + 1);
                let settings = random.pick(&WITH_BUILT_IN_TABLE);
                let list = &list[..length];
                let written = compare::run_with_table(&mut random, settings, &table, list, room);
                let expected = match refusal {
                    0 if length % 3 != 0 || length > 21_000 => 7,
                    0 if room < length * 3 => 8,
                    refusal => refusal,
                };
                assert_eq!(written.refusal, expected, "{length} bytes, room for {room}");
                seen[usize::from(expected)] += 1;
            }
        }
    }
    for refusal in [0, 7, 8, 13, 14, 15] {
        assert!(seen[refusal] > 0, "refusal {refusal}");
    }
}

/// A controller that is refused another table goes on with its own.
#[test]
fn a_refused_start_leaves_every_byte() {
    let mut random = Random::new(168);
    let mut refused = [0; 16];
    for settings in all() {
        for _ in 0..40 * rounds() {
            let state = images::state(&mut random, settings);
            let mut both = Both::of(&mut random, &state);
            let before = both.bytes();
            for (table, refusal) in a_table_of_each_sort(&mut random).into_iter().skip(1) {
                let other = random.pick(&WITH_BUILT_IN_TABLE);
                assert_eq!(both.start_with_table(other, &table), refusal);
                assert_eq!(both.bytes(), before);
                refused[usize::from(refusal)] += 1;
            }
            let list = lists::unguided(&mut random, 20);
            assert_eq!(both.run(&mut random, &list, 180), 0);
        }
        assert_types_by_its_own_table(&mut random, settings);
    }
    assert!(
        refused[13..].iter().all(|&count| count > 600),
        "{refused:?}"
    );
}

fn assert_types_by_its_own_table(random: &mut Random, settings: Settings) {
    for (table, refusal) in a_table_of_each_sort(random).into_iter().skip(1) {
        let mut both = Both::started(random, settings);
        both.event(random, Event::command(0xAE));
        assert_eq!(both.start_with_table(settings, &table), refusal);
        both.event(random, Event::key(keys::giving(settings, 0x1E)));
        assert_eq!(both.event(random, Event::read())[1], 0x1E);
    }
}

/// Every options byte, with a table and a version byte of its own. Of what stands
/// before the table nothing is another than without one.
#[test]
fn the_options_are_those_of_a_start_without_a_table() {
    let mut random = Random::new(169);
    let ordinary = state_bytes(&Controller::fresh(Settings::ORDINARY));
    for options in 0..=0xFF {
        let table = key_tables::draw(&mut random).0;
        let version = random.byte();
        let mut fenced = Fenced::new(&mut random);
        let refusal = fenced
            .state_mut()
            .start_with_table(options, version, &table);
        assert_eq!(refusal, 0);
        let mut expected = ordinary;
        expected[60] = options % 8;
        expected[64] = version;
        expected[65..].copy_from_slice(&table);
        fenced.assert_bytes(&expected, &format!("a start with {options:02X}"));
        assert_run_takes_options(&mut random, options, version, &table);
    }
}

/// A mouse frame, which AT mode refuses, and A1h, for which the second set puts
/// the version byte.
fn assert_run_takes_options(random: &mut Random, options: u8, version: u8, table: &[u8]) {
    let events = [
        Event::command(0xA8),
        Event::mouse(0x14),
        Event::command(0xA1),
        Event::read(),
    ];
    let list = events.map(Event::to_bytes);
    let mut answers = random.bytes(36);
    let list = list.as_flattened();
    let refusal = calugnid::run_with_table(options, version, table, list, &mut answers);
    assert_eq!(refusal, 0);
    let refused = if options & 2 == 0 { 0 } else { 12 };
    let put = match options & 6 {
        0 => 0x14,
        2 => 0x00,
        _ => version,
    };
    assert_eq!([answers[9], answers[28]], [refused, put], "{options:02X}");
}
