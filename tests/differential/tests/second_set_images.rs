//! Saves and loads with the second command set: its latches, the leave for D1h and
//! the overlay come back, and the version byte is the one given.

use differential::both::Both;
use differential::event::Event;
use differential::given::Given;
use differential::images;
use differential::random::Random;
use differential::reloads::{ordinary_rest, refused_images, rest};
use differential::rounds::rounds;
use differential::under_settings::{
    SECOND_SET, SECOND_SET_AND_MOUSE_LOCK, SECOND_SET_IN_AT_MODE,
    SECOND_SET_IN_AT_MODE_AND_MOUSE_LOCK,
};
use model::{Controller, IMAGE_SIZE, Settings};

const CHOICES: [Settings; 4] = [
    SECOND_SET,
    SECOND_SET_AND_MOUSE_LOCK,
    SECOND_SET_IN_AT_MODE,
    SECOND_SET_IN_AT_MODE_AND_MOUSE_LOCK,
];

const DRAWN_STATES: usize = 400;

/// The second set with each of its own parts changed: latches of P10, P13 and
/// P15 low, D1h allowed, P22 low, the pins of P11 and P14 low.
fn changed(random: &mut Random, settings: Settings) -> Both {
    let mut both = Both::started(random, settings);
    let commands = [0x96, 0xB7, 0xC8, 0xE8].map(Event::command);
    both.accept(random, &commands);
    both.accept(random, &[Event::pins(0xED)]);
    assert_eq!(both.bytes()[60..], changed_rest(settings, settings.version));
    both
}

fn changed_rest(settings: Settings, version: u8) -> Vec<u8> {
    let allowed = 0x08;
    let options = settings.options() | calugnid::SECOND_SET | allowed;
    rest([options, 0x16, 0x02, 0, version], settings.table)
}

/// The byte that a command puts.
fn put_by(random: &mut Random, both: &mut Both, command: u8) -> u8 {
    both.event(random, Event::command(command));
    both.event(random, Event::read())[1]
}

#[test]
fn a_load_restores_the_second_set() {
    let mut random = Random::new(151);
    for settings in CHOICES {
        let saved = changed(&mut random, settings).save(&mut random, IMAGE_SIZE);
        assert_eq!(saved[60..64], changed_rest(settings, 0)[..4]);
        let mut both = Both::started(&mut random, Settings::ORDINARY);
        assert_eq!(both.load(Given::version(0x77), &saved), 0);
        assert_eq!(both.bytes()[60..], changed_rest(settings, 0x77));
        both.look(&mut random);
        assert_eq!(put_by(&mut random, &mut both, 0xC0), 0xC4);
        assert_eq!(put_by(&mut random, &mut both, 0xAF), 0x77);
        // D1h may still write P22.
        both.accept(&mut random, &[Event::command(0xD1), Event::data(0x07)]);
        assert_eq!(both.bytes()[62], 0x01);
    }
}

/// Every version byte, whatever that of the controller was.
#[test]
fn the_version_byte_is_the_one_given() {
    let mut random = Random::new(156);
    for version in 0..=0xFF {
        let settings = CHOICES[usize::from(version) % 4];
        let mut both = changed(&mut random, settings);
        let saved = both.save(&mut random, IMAGE_SIZE);
        assert_eq!(both.load(Given::version(version), &saved), 0);
        assert_eq!(put_by(&mut random, &mut both, 0xA1), version);
    }
}

#[test]
fn a_load_over_the_second_set_gives_what_was_saved_with_the_first() {
    let mut random = Random::new(152);
    for number in 0..DRAWN_STATES * rounds() {
        let first = images::state(&mut random, Settings::ORDINARY);
        let saved = Both::of(&mut random, &first).save(&mut random, IMAGE_SIZE);
        for image in [saved, images::as_edition_1(&first).to_vec()] {
            let mut both = changed(&mut random, CHOICES[number % 4]);
            assert_eq!(both.load(Given::version(0), &image), 0);
            assert_eq!(both.model, first);
            let ordinary = ordinary_rest(0, first.settings.table);
            assert_eq!(both.bytes()[60..], ordinary);
        }
    }
}

/// The key switch stands beside a loaded overlay as beside another.
#[test]
fn a_loaded_overlay_is_the_second_sets() {
    let mut random = Random::new(154);
    let mut both = Both::started(&mut random, SECOND_SET);
    assert_eq!(both.event(&mut random, Event::command(0xC2))[3], 0xF8);
    let saved = both.save(&mut random, IMAGE_SIZE);
    assert_eq!(saved[6..8], [1, 0x0E]);
    let mut other = Both::of(&mut random, &Controller::fresh(Settings::AT_MODE));
    assert_eq!(other.load(Given::version(0), &saved), 0);
    assert_eq!(other.event(&mut random, Event::status())[1], 0xF8);
    assert_eq!(other.event(&mut random, Event::pins(0x7F))[3], 0xE8);
}

#[test]
fn a_refused_load_leaves_every_byte() {
    let mut random = Random::new(155);
    for settings in CHOICES {
        for image in refused_images(&mut random) {
            let mut both = changed(&mut random, settings);
            let before = both.bytes();
            assert_ne!(both.load(Given::version(0x77), &image), 0);
            assert_eq!(both.bytes(), before);
            assert_eq!(put_by(&mut random, &mut both, 0xA1), settings.version);
            assert_eq!(put_by(&mut random, &mut both, 0xC0), 0xC4);
        }
    }
}
