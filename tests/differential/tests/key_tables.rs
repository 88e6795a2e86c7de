//! What goes by a key table of the caller's: every byte of the keyboard, the
//! lock, lists and walks, each under tables of their own.

use differential::both::Both;
use differential::compare;
use differential::coverage::Coverage;
use differential::event::Event;
use differential::few_keys;
use differential::key_tables::{self, free};
use differential::keys;
use differential::lists;
use differential::random::Random;
use differential::rounds::rounds;
use differential::under_settings::{
    self, MOUSE_LOCK, ORDINARY, WITH_BUILT_IN_TABLE, seed, with_drawn_table,
};
use differential::walks::walk;
use model::{Controller, KeyTable, Settings, TABLE_PLACE, mode};

const DRAWN_TABLES: usize = 40;
const CODES: usize = 3_000;
const LISTED_EVENTS: usize = 1_000_000;
const WALKED_EVENTS: usize = 300_000;

/// Drawn ones, and two whose free entries are all the code of a prefix, or all of
/// one key.
fn tables(random: &mut Random) -> Vec<KeyTable> {
    let mut tables: Vec<KeyTable> = (0..DRAWN_TABLES * rounds())
        .map(|_| key_tables::draw(random))
        .collect();
    for code in [0xF0, 0x1E] {
        let mut table = key_tables::shuffled(random);
        free().for_each(|byte| table.0[byte] = code);
        tables.push(table);
    }
    tables
}

/// Given at the start, it makes no difference to a byte or an answer.
#[test]
fn the_built_in_table_is_one_of_them() {
    let mut random = Random::new(171);
    let table = KeyTable::BUILT_IN.0;
    for settings in WITH_BUILT_IN_TABLE {
        let without = Both::started(&mut random, settings);
        let mut with = Both::started(&mut random, with_drawn_table(settings));
        assert_ne!(with.bytes()[TABLE_PLACE..], table);
        assert_eq!(with.start_with_table(settings, &table), 0);
        assert_eq!(with.bytes(), without.bytes());
        for number in 0..10 {
            let seed = seed(settings, 1_600_000 + number);
            let list = lists::guided(settings, seed, 2_000, &mut Coverage::new());
            let room = list.len() * 3;
            let [one, other] = [
                compare::run(&mut random, settings, &list, room),
                compare::run_with_table(&mut random, settings, &table, &list, room),
            ];
            assert!(one.answers == other.answers);
        }
    }
}

/// The keyboard on and the output buffer empty.
fn ready(settings: Settings, bits: u8, break_flag: bool) -> Controller {
    let mut state = Controller::fresh(settings);
    state.ram[0] = bits;
    state.break_flag = break_flag;
    state
}

/// What a read gives after a byte of the keyboard, if there is something.
fn read_after(random: &mut Random, state: &Controller, byte: u8) -> Option<u8> {
    let mut both = Both::of(random, state);
    both.accept(random, &[Event::key(byte)]);
    let answer = both.event(random, Event::read());
    (answer[2] == 0).then_some(answer[1])
}

/// F0h alone is a prefix, whatever gives F0h. Untranslated the table is not
/// looked at.
#[test]
fn every_byte_by_every_table() {
    let mut random = Random::new(172);
    for table in tables(&mut random) {
        let settings = random.pick(&WITH_BUILT_IN_TABLE).with_table(table);
        for byte in 0x00..=0xFF {
            let entry = table.0[usize::from(byte)];
            for (break_flag, mark) in [(false, 0x00), (true, 0x80)] {
                let translated = ready(settings, mode::TRANSLATE, break_flag);
                let expected = (byte != 0xF0).then_some(entry | mark);
                let read = read_after(&mut random, &translated, byte);
                assert_eq!(read, expected, "{byte:02X} {mark:02X}");
                let untranslated = ready(settings, 0, break_flag);
                let read = read_after(&mut random, &untranslated, byte);
                assert_eq!(read, Some(byte), "{byte:02X} {mark:02X}");
            }
        }
    }
}

/// Codes of one byte, which a byte opens exactly if it has that entry and is no
/// prefix, with translation on or off. A break code opens nothing.
#[test]
fn every_byte_at_a_lock_by_every_table() {
    let mut random = Random::new(173);
    let mut opened = [0; 2];
    for table in tables(&mut random) {
        let settings = random.pick(&WITH_BUILT_IN_TABLE).with_table(table);
        let drawn = random.byte_in(0x01..=0x7F);
        let code = random.pick(&[0x1E, drawn]);
        for bits in [mode::TRANSLATE, 0] {
            for break_flag in [false, true] {
                let mut state = few_keys::locked(settings, &[code], 0);
                state.ram[0] = bits;
                state.break_flag = break_flag;
                for byte in 0x00..=0xFF {
                    let mut both = Both::of(&mut random, &state);
                    both.accept(&mut random, &[Event::key(byte)]);
                    let opens = table.0[usize::from(byte)] == code && !break_flag;
                    assert_eq!(!both.model.locked, opens, "{byte:02X} {code:02X}");
                    assert_eq!(both.bytes()[1] & 0x40 == 0, opens);
                    opened[usize::from(byte >> 7)] += usize::from(opens);
                }
            }
        }
    }
    println!("opened by keys and by other bytes: {opened:?}");
    assert!(opened[0] >= DRAWN_TABLES && opened[1] > DRAWN_TABLES);
}

/// All bytes that give a code.
fn bytes_giving(table: &KeyTable, code: u8) -> Vec<u8> {
    let gives = |&byte: &u8| byte != 0xF0 && table.entry(byte) == code;
    (0x00..=0xFF).filter(gives).collect()
}

/// Loads a code from fresh, locks with it and sets the command byte.
fn lock(random: &mut Random, settings: Settings, code: &[u8], bits: u8) -> Both {
    let mut both = Both::started(random, settings);
    let mut events = vec![
        Event::command(0x60),
        Event::data(bits),
        Event::command(0xA5),
    ];
    events.extend(code.iter().map(|&byte| Event::data(byte)));
    events.extend([Event::data(0), Event::command(0xA6)]);
    both.accept(random, &events);
    assert!(both.model.locked);
    both
}

/// Types a code with any bytes that give it, each pressed and released but for
/// the last, which opens.
fn type_code(random: &mut Random, both: &mut Both, code: &[u8]) -> usize {
    let table = both.model.settings.table;
    let mut others = 0;
    for (at, &byte) in code.iter().enumerate() {
        assert_ne!(both.bytes()[1] & 0x40, 0, "open before the end");
        let typed = random.pick(&bytes_giving(&table, byte));
        both.accept(random, &[Event::key(typed)]);
        if at + 1 < code.len() {
            both.accept(random, &[Event::key(0xF0), Event::key(typed)]);
        }
        others += usize::from(typed > 0x7F);
    }
    assert_eq!(both.bytes()[1] & 0x40, 0, "{code:02X?}");
    others
}

/// Each with a table of its own. Typed with the keys of the built-in table most
/// of the codes do not open.
#[test]
fn codes_typed_with_any_bytes_that_give_them() {
    let mut random = Random::new(174);
    let (mut others, mut shut) = (0, 0);
    for _ in 0..CODES * rounds() {
        let table = key_tables::draw(&mut random);
        let settings = random.pick(&[ORDINARY, MOUSE_LOCK]).with_table(table);
        let bytes = few_keys::draw_bytes(&mut random);
        let length = few_keys::draw_length(&mut random);
        let code = few_keys::draw_code(&mut random, &bytes, length);
        let bits = random.pick(&[mode::TRANSLATE, 0]);
        let mut both = lock(&mut random, settings, &code, bits);
        others += type_code(&mut random, &mut both, &code);
        let mut both = lock(&mut random, settings, &code, bits);
        for &byte in &code {
            both.event(&mut random, Event::key(keys::giving(ORDINARY, byte)));
        }
        shut += usize::from(both.model.locked);
    }
    println!("{others} typed with bytes above 7Fh, {shut} shut");
    assert!(others > CODES && shut > CODES * 9 / 10);
}

/// As in `lists.rs`, with another table for each list.
#[test]
fn lists_under_tables_of_their_own() {
    let mut random = Random::new(175);
    let mut coverage = Coverage::new();
    let mut number = 1_700_000;
    while coverage.events < LISTED_EVENTS * rounds() {
        let settings = under_settings::draw(&mut random);
        let length = lists::choose_length(&mut random);
        let list = lists::guided(settings, number, length, &mut coverage);
        let written = compare::run(&mut random, settings, &list, list.len() * 3);
        assert_eq!(written.refusal, 0);
        number += 1;
    }
    assert_lock_and_bytes_reached(&coverage);
}

/// As in `live_state.rs`, likewise.
#[test]
fn walks_under_tables_of_their_own() {
    let mut random = Random::new(176);
    let mut coverage = Coverage::new();
    let mut number = 1_800_000;
    while coverage.events < WALKED_EVENTS * rounds() {
        let settings = under_settings::draw(&mut random);
        let mut both = Both::started(&mut random, settings);
        let length = lists::choose_length(&mut random);
        walk(&mut both, number, length, &mut coverage);
        assert_eq!(both.bytes()[TABLE_PLACE..], settings.table.0);
        number += 1;
    }
    assert_lock_and_bytes_reached(&coverage);
}

/// Of the choices drawn only every fourth has a lock.
fn assert_lock_and_bytes_reached(coverage: &Coverage) {
    let least = coverage.keyboard_bytes.iter().min();
    println!("{least:?} {} {}", coverage.locks, coverage.opens);
    assert!(least > Some(&20), "{:?}", coverage.keyboard_bytes);
    assert!(coverage.locks > coverage.events / 10_000);
    assert!(coverage.opens > coverage.events / 10_000);
}
