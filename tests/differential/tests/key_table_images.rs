//! Saves and loads with a key table of the caller's, for which an image has no
//! place: it is given again at the load.

use differential::both::Both;
use differential::compare::{self, Room};
use differential::event::Event;
use differential::few_keys;
use differential::given::Given;
use differential::images;
use differential::key_tables;
use differential::keys;
use differential::random::Random;
use differential::reloads::refused_images;
use differential::rounds::rounds;
use differential::under_settings::{self, ORDINARY, WITH_BUILT_IN_TABLE, with_drawn_table};
use model::{IMAGE_SIZE, KeyTable, Settings, TABLE_PLACE, save};

const DRAWN_STATES: usize = 400;

/// A key that two tables give different codes for.
fn telling_key(random: &mut Random, one: &KeyTable, other: &KeyTable) -> u8 {
    loop {
        let key = random.byte_in(0x01..=0x7F);
        if one.entry(key) != other.entry(key) {
            return key;
        }
    }
}

/// The keyboard switched on and nothing waiting.
fn ready(random: &mut Random, settings: Settings) -> Both {
    let mut both = Both::started(random, settings);
    both.accept(random, &[Event::command(0xAE)]);
    both
}

/// What the host reads for a key.
fn read_for(random: &mut Random, both: &mut Both, key: u8) -> u8 {
    both.accept(random, &[Event::key(key)]);
    both.event(random, Event::read())[1]
}

#[test]
fn a_save_leaves_the_table_out_and_a_load_gives_the_built_in_one_or_another() {
    let mut random = Random::new(181);
    let built_in = KeyTable::BUILT_IN;
    for _ in 0..DRAWN_STATES * rounds() {
        let settings = under_settings::draw(&mut random);
        let table = settings.table;
        let mut both = ready(&mut random, settings);
        let saved = both.save(&mut random, IMAGE_SIZE);
        let without = ready(&mut random, settings.with_table(built_in));
        assert_eq!(saved, without.save(&mut random, IMAGE_SIZE));
        assert_eq!(both.bytes()[TABLE_PLACE..], table.0);
        let key = telling_key(&mut random, &table, &built_in);
        assert_eq!(read_for(&mut random, &mut both, key), table.entry(key));
        assert_eq!(both.load(Given::version(settings.version), &saved), 0);
        assert_eq!(both.model.settings, settings.with_table(built_in));
        assert_eq!(read_for(&mut random, &mut both, key), built_in.entry(key));
        assert_eq!(both.load(Given::again(&settings), &saved), 0);
        assert_eq!(both.model.settings, settings);
        assert_eq!(read_for(&mut random, &mut both, key), table.entry(key));
    }
}

/// Whatever table the controller had, and whatever it did.
#[test]
fn a_load_over_a_table_gives_what_was_saved_without_one() {
    let mut random = Random::new(182);
    for _ in 0..DRAWN_STATES * rounds() {
        let first = images::state(&mut random, Settings::ORDINARY);
        let settings = under_settings::draw(&mut random);
        let other = images::state(&mut random, settings);
        let mut both = Both::of(&mut random, &other);
        assert_eq!(both.load(Given::version(0), &save(&first)), 0);
        assert_eq!(both.model, first);
    }
}

/// A load, a run from the image and a start ask the same of a table.
#[test]
fn damaged_tables_at_a_load_and_at_a_run() {
    let mut random = Random::new(186);
    let mut refusals = [0; 16];
    for _ in 0..20 * DRAWN_STATES * rounds() {
        let image = images::image(&mut random);
        let drawn = key_tables::draw(&mut random);
        let table = key_tables::damaged(&mut random, drawn);
        let length = random.pick(&[256, 256, 256, 256, 255, 0]);
        let table = &table.0[..length];
        let refusal = compare::table_refusal(table);
        let given = Given::with_table(random.byte(), table);
        let mut both = Both::started(&mut random, ORDINARY);
        assert_eq!(both.load(given, &image), refusal);
        let room = Room::enough(&mut random, &[]);
        let written = compare::run_image(&mut random, given, &image, &[], room);
        assert_eq!(written.refusal, refusal);
        refusals[usize::from(refusal)] += 1;
    }
    println!("{refusals:?}");
    for refusal in [0, 13, 14, 15] {
        assert!(refusals[refusal] > DRAWN_STATES, "{refusals:?}");
    }
}

/// Every entry of a table changed to every value, by a load of an image of either
/// edition. The table that is there already is the sound one.
#[test]
fn every_entry_changed_at_a_load() {
    let mut random = Random::new(187);
    let settings = with_drawn_table(ORDINARY);
    let mut both = Both::started(&mut random, settings);
    let new = images::image(&mut random).to_vec();
    let old = images::edition_1_image(&mut random).to_vec();
    for byte in 0..0x100 {
        for code in 0..=0xFF {
            let mut table = settings.table.0;
            table[byte] = code;
            let image = if code % 2 == 0 { &new } else { &old };
            both.load(Given::with_table(code, &table), image);
        }
    }
}

/// A lock that was shut under another table opens with the keys that the table
/// given has for its code, loaded or run from the image.
#[test]
fn a_loaded_lock_goes_by_the_table_given() {
    let mut random = Random::new(184);
    let mut shut = 0;
    for _ in 0..DRAWN_STATES * rounds() {
        let settings = under_settings::draw(&mut random);
        let code: [u8; 3] = std::array::from_fn(|_| random.byte_in(0x01..=0x7F));
        let image = save(&few_keys::locked(settings, &code, 0));
        for given in [ORDINARY, settings] {
            for typed in [ORDINARY, settings] {
                let keys = code.map(|byte| Event::key(keys::giving(typed, byte)));
                let again = Given::again(&given);
                let mut both = Both::started(&mut random, settings);
                assert_eq!(both.load(again, &image), 0);
                both.accept(&mut random, &keys);
                let list = keys.map(Event::to_bytes);
                let list = list.as_flattened();
                let room = Room::enough(&mut random, list);
                let written = compare::run_image(&mut random, again, &image, list, room);
                assert_eq!(written.saved, both.save(&mut random, IMAGE_SIZE));
                shut += usize::from(both.model.locked);
                assert!(!both.model.locked || typed != given, "{code:02X?}");
            }
        }
    }
    assert!(shut > DRAWN_STATES * 18 / 10, "{shut}");
}

#[test]
fn a_refused_load_keeps_the_table() {
    let mut random = Random::new(185);
    for settings in WITH_BUILT_IN_TABLE.map(with_drawn_table) {
        for image in refused_images(&mut random) {
            let mut both = ready(&mut random, settings);
            let before = both.bytes();
            assert_ne!(both.load(Given::version(0), &image), 0);
            assert_eq!(both.bytes(), before);
            let key = telling_key(&mut random, &settings.table, &KeyTable::BUILT_IN);
            let read = read_for(&mut random, &mut both, key);
            assert_eq!(read, settings.table.entry(key));
        }
    }
}
