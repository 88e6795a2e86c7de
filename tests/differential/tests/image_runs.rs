//! Runs that go from image to image, under every choice of settings. The version
//! byte and the table are given again for each.

use differential::compare::{self, Room};
use differential::coverage::Coverage;
use differential::given::Given;
use differential::images;
use differential::lists;
use differential::random::Random;
use differential::rounds::rounds;
use differential::starts;
use differential::under_settings::{locks, seed};
use model::{Controller, EVENT_SIZE, IMAGE_SIZE, Settings, save};

const SPLIT_LISTS: usize = 60;
const DRAWN_IMAGES: usize = 500;

fn fresh_image(settings: Settings) -> Vec<u8> {
    let mut image = vec![0; IMAGE_SIZE];
    assert_eq!(starts::fresh(settings).save(&mut image), 0);
    assert_eq!(image, save(&Controller::fresh(settings)));
    image
}

/// Runs a list in pieces, each from the image that the last one saved, which
/// stands behind other bytes. Hands back all answers and the last image.
fn run_in_pieces(random: &mut Random, settings: Settings, list: &[u8]) -> (Vec<u8>, Vec<u8>) {
    let given = Given::again(&settings);
    let longest = random.pick(&[1, 10, 300, 7_000]);
    let mut image = fresh_image(settings);
    let mut answers = Vec::new();
    let mut rest = list;
    while !rest.is_empty() {
        let events = random.below(longest + 1).min(rest.len() / EVENT_SIZE);
        let (piece, later) = rest.split_at(events * EVENT_SIZE);
        let room = Room::enough(random, piece);
        let bytes = images::behind(random, &image);
        let written = compare::run_image(random, given, &bytes, piece, room);
        assert_eq!(written.refusal, 0);
        answers.extend(written.answers);
        image = written.saved;
        rest = later;
    }
    (answers, image)
}

fn a_list_in_pieces_is_answered_as_a_whole(settings: Settings) {
    let mut random = Random::new(seed(settings, 11));
    let mut coverage = Coverage::new();
    for number in 0..(SPLIT_LISTS * rounds()) as u64 {
        let length = random.pick(&[5, 60, 600, 600, 2_000]);
        let mut state = Controller::fresh(settings);
        let list_seed = seed(settings, 50_000 + number);
        let list = lists::guided_from(&mut state, list_seed, length, &mut coverage);
        let whole = compare::run(&mut random, settings, &list, list.len() * 3);
        let (answers, image) = run_in_pieces(&mut random, settings, &list);
        assert!(answers == whole.answers, "pieces of list {number}");
        assert_eq!(image, save(&state), "last image of list {number}");
    }
    println!("{} locked, {} opened", coverage.locks, coverage.opens);
    assert!(!locks(settings) || coverage.locks > 30 && coverage.opens > 30);
}

/// States that no list from fresh may reach, but that keep the body rules.
fn lists_from_drawn_images(settings: Settings) {
    let mut random = Random::new(seed(settings, 12));
    let given = Given::again(&settings);
    let mut coverage = Coverage::new();
    for number in 0..(DRAWN_IMAGES * rounds()) as u64 {
        let mut state = images::state(&mut random, settings);
        let bytes = images::behind(&mut random, &save(&state));
        let length = random.below(40);
        let list_seed = seed(settings, 90_000 + number);
        let list = lists::guided_from(&mut state, list_seed, length, &mut coverage);
        let room = Room::enough(&mut random, &list);
        let written = compare::run_image(&mut random, given, &bytes, &list, room);
        assert_eq!(written.refusal, 0);
        assert_eq!(written.saved, save(&state));
    }
    println!("{} opened", coverage.opens);
    assert!(coverage.opens > DRAWN_IMAGES / 30);
}

/// An image of edition 1 is saved as its move.
fn lists_from_images_of_edition_1(settings: Settings) {
    let mut random = Random::new(seed(settings, 14));
    let given = Given::again(&settings);
    let ordinary = Settings::ORDINARY
        .with_version(settings.version)
        .with_table(settings.table);
    for number in 0..(DRAWN_IMAGES * rounds()) as u64 {
        let mut state = images::state(&mut random, ordinary);
        let bytes = images::behind(&mut random, &images::as_edition_1(&state));
        let length = random.below(40);
        let list_seed = seed(settings, 95_000 + number);
        let list = lists::guided_from(&mut state, list_seed, length, &mut Coverage::new());
        let room = Room::enough(&mut random, &list);
        let written = compare::run_image(&mut random, given, &bytes, &list, room);
        assert_eq!(written.refusal, 0);
        assert_eq!(written.saved, save(&state));
    }
}

fn an_empty_list_saves_the_image_it_was_given(settings: Settings) {
    let mut random = Random::new(seed(settings, 13));
    for _ in 0..DRAWN_IMAGES {
        let image = save(&images::state(&mut random, settings));
        let room = Room {
            answers: 0,
            saved: IMAGE_SIZE,
        };
        let given = Given::again(&settings);
        let written = compare::run_image(&mut random, given, &image, &[], room);
        assert_eq!(written.saved, image);
    }
}

differential::under_every_setting!(
    a_list_in_pieces_is_answered_as_a_whole,
    lists_from_drawn_images,
    lists_from_images_of_edition_1,
    an_empty_list_saves_the_image_it_was_given,
);
