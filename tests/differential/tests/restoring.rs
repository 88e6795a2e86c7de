//! What is loaded again is what was saved, under every choice of settings, where
//! the version byte and the table are given again.

use differential::both::Both;
use differential::coverage::Coverage;
use differential::event::Event;
use differential::given::Given;
use differential::images;
use differential::key_tables;
use differential::lists;
use differential::random::Random;
use differential::reloads::{assert_goes_on_as_a_run, refused_images};
use differential::rounds::rounds;
use differential::under_settings::{all, seed};
use model::{
    BODY_SIZE, Controller, EVENT_SIZE, IMAGE_SIZE, KeyTable, Settings, TABLE_PLACE, VERSION_PLACE,
    save,
};

const LISTS: usize = 40;
const DRAWN_STATES: usize = 150;

/// Some controller that was there before a load: any settings, any state.
fn other_controller(random: &mut Random) -> Both {
    let choices = all();
    let settings = random.pick(&choices);
    let state = images::state(random, settings);
    Both::of(random, &state)
}

/// Goes through a list. Now and then what is there is saved, and a controller that
/// was another one goes on with it.
fn save_and_load_on_the_way(random: &mut Random, settings: Settings, list: &[u8]) -> usize {
    let given = Given::again(&settings);
    let mut both = Both::started(random, settings);
    let mut unsaved = Both::started(random, settings);
    let mut saves = 0;
    for event in list.chunks_exact(EVENT_SIZE).map(Event::from_bytes) {
        if random.chance(5) {
            let image = both.save(random, IMAGE_SIZE + 1);
            let bytes = images::behind(random, &image);
            both = other_controller(random);
            assert_eq!(both.load(given, &bytes), 0);
            assert_eq!(both.bytes(), unsaved.bytes());
            saves += 1;
        }
        let answer = both.event(random, event);
        assert_eq!(unsaved.event(random, event), answer, "{event:?}");
    }
    assert_eq!(both.bytes(), unsaved.bytes());
    saves
}

fn saves_and_loads_in_the_middle_of_lists(settings: Settings) {
    let mut random = Random::new(seed(settings, 251));
    let mut saves = 0;
    for number in 0..(LISTS * rounds()) as u64 {
        let length = random.below(300);
        let list_seed = seed(settings, 2_510_000 + number);
        let list = lists::guided(settings, list_seed, length, &mut Coverage::new());
        saves += save_and_load_on_the_way(&mut random, settings, &list);
    }
    println!("{saves} saves");
    assert!(saves > LISTS * 2, "{saves}");
}

/// The image and what is given say all: whatever controller was there, nothing of
/// it is left.
fn a_load_leaves_nothing_of_what_was_there(settings: Settings) {
    let mut random = Random::new(seed(settings, 252));
    let given = Given::again(&settings);
    for _ in 0..DRAWN_STATES * rounds() {
        let state = images::state(&mut random, settings);
        let of_state = Both::of(&mut random, &state);
        let image = of_state.save(&mut random, IMAGE_SIZE);
        assert_eq!(image[..BODY_SIZE], of_state.bytes()[..BODY_SIZE]);
        let mut both = other_controller(&mut random);
        assert_eq!(both.load(given, &image), 0);
        assert_eq!(both.bytes(), of_state.bytes());
        assert_eq!(both.model.settings, settings);
    }
}

/// Any other version byte and table do not change what the image says.
fn the_version_byte_and_the_table_are_those_given(settings: Settings) {
    let mut random = Random::new(seed(settings, 253));
    for _ in 0..DRAWN_STATES * rounds() {
        let state = images::state(&mut random, settings);
        let image = save(&state);
        let version = random.byte();
        let drawn = key_tables::draw(&mut random);
        let built_in = KeyTable::BUILT_IN;
        for (given, table) in [
            (Given::with_table(version, &drawn.0), drawn),
            (Given::with_table(version, &built_in.0), built_in),
            (Given::version(version), built_in),
        ] {
            let mut both = other_controller(&mut random);
            assert_eq!(both.load(given, &image), 0);
            assert_eq!(both.bytes()[..BODY_SIZE], image[..BODY_SIZE]);
            assert_eq!(both.bytes()[VERSION_PLACE], version);
            assert_eq!(both.bytes()[TABLE_PLACE..], table.0);
            both.look(&mut random);
            assert_eq!(both.save(&mut random, IMAGE_SIZE), image);
        }
    }
}

fn a_load_goes_on_as_a_run_of_the_image(settings: Settings) {
    let mut random = Random::new(seed(settings, 254));
    for _ in 0..DRAWN_STATES * rounds() {
        let state = images::state(&mut random, settings);
        assert_goes_on_as_a_run(&mut random, &state);
    }
}

/// Refused for its image or for its table, with the settings that it has and with
/// others.
fn a_refused_load_leaves_every_byte(settings: Settings) {
    let mut random = Random::new(seed(settings, 255));
    let sound = images::image(&mut random);
    let drawn = key_tables::draw(&mut random).0;
    let (mut keys, mut fixed) = (drawn, drawn);
    keys[0x7F] = keys[0x01];
    fixed[0xE1] = 0;
    let state = images::state(&mut random, settings);
    let mut both = Both::of(&mut random, &state);
    let before = both.bytes();
    for image in refused_images(&mut random) {
        for given in [
            Given::again(&settings),
            Given::version(0x5A),
            Given::with_table(0x5A, &drawn),
        ] {
            assert_ne!(both.load(given, &image), 0);
            assert_eq!(both.bytes(), before);
        }
    }
    for (table, refusal) in [(&drawn[1..], 13), (&keys, 14), (&fixed, 15)] {
        assert_eq!(both.load(Given::with_table(0x5A, table), &sound), refusal);
        assert_eq!(both.bytes(), before);
    }
    assert_eq!(both.model, state);
}

/// Fresh ones differ in the options alone.
fn a_fresh_controller_is_restored(settings: Settings) {
    let mut random = Random::new(seed(settings, 256));
    let fresh = Both::started(&mut random, settings);
    let image = fresh.save(&mut random, IMAGE_SIZE);
    let mut expected = save(&Controller::fresh(Settings::ORDINARY));
    expected[60] = settings.options();
    images::mend(model::Edition::Second, &mut expected);
    assert_eq!(image, expected);
    let mut both = other_controller(&mut random);
    assert_eq!(both.load(Given::again(&settings), &image), 0);
    assert_eq!(both.bytes(), fresh.bytes());
}

differential::under_every_setting!(
    saves_and_loads_in_the_middle_of_lists,
    a_load_leaves_nothing_of_what_was_there,
    the_version_byte_and_the_table_are_those_given,
    a_load_goes_on_as_a_run_of_the_image,
    a_refused_load_leaves_every_byte,
    a_fresh_controller_is_restored,
);
