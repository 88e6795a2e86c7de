//! What tells the editions apart: the trailer, and the length that it asks for.

use differential::both::Both;
use differential::compare;
use differential::given::Given;
use differential::image_tries::ImageTries;
use differential::images;
use differential::key_tables;
use differential::random::Random;
use differential::reloads::ordinary_rest;
use differential::rounds::rounds;
use differential::trailers::Trailer;
use differential::under_settings::{WITH_BUILT_IN_TABLE, draw};
use model::{Edition, IMAGE_SIZE, KeyTable, Settings, save};

const DRAWN_IMAGES: usize = 2_000;

/// Bodies of each edition with trailers of the other: its number alone, its
/// distance alone, both, and both with the sum of as many bytes.
#[test]
fn trailers_of_one_edition_on_bodies_of_the_other() {
    let mut tries = ImageTries::new(211);
    for _ in 0..200 * rounds() {
        for (own, other) in [
            (Edition::First, Edition::Second),
            (Edition::Second, Edition::First),
        ] {
            let image = images::image_of(&mut tries.random, own);
            let body = &image[..own.body_size()];
            let right = Trailer::of(own, body);
            let of_other = Trailer::of(other, body);
            let number = Trailer {
                edition: other.number(),
                ..right
            };
            let distance = Trailer {
                distance: of_other.distance,
                ..right
            };
            let both = Trailer {
                edition: other.number(),
                ..distance
            };
            for trailer in [number, distance, both] {
                if trailer == of_other {
                    continue;
                }
                assert_eq!(tries.image(&trailer.behind(body)), 10, "{trailer:?}");
            }
            let result = tries.image(&of_other.behind(body));
            // The last 60 of 64 bytes can be a body, though seldom a sound one.
            assert!(result == 10 || own == Edition::Second, "{of_other:?}");
        }
    }
}

/// What stands before a body of edition 1 is not looked at, even where it would
/// make one of edition 2 of it.
#[test]
fn four_bytes_before_an_image_of_edition_1() {
    let mut random = Random::new(212);
    for _ in 0..DRAWN_IMAGES * rounds() {
        let old = images::edition_1_image(&mut random);
        let mut bytes = random.bytes(4);
        bytes.extend_from_slice(&old);
        assert_eq!(compare::find(&bytes), 60);
        let mut both = Both::started(&mut random, Settings::ORDINARY);
        assert_eq!(both.load(Given::version(9), &bytes), 0);
        assert_eq!(both.bytes()[..60], old[..60]);
    }
}

/// Every number in the place of the edition, with distances and sums of either
/// one; and lengths around both.
#[test]
fn every_number_of_an_edition() {
    let mut tries = ImageTries::new(213);
    for number in 0..=0xFF {
        for edition in Edition::ALL {
            let image = images::image_of(&mut tries.random, edition);
            let body = &image[..edition.body_size()];
            let trailer = Trailer {
                edition: number,
                ..Trailer::of(edition, body)
            };
            let changed = trailer.behind(body);
            let right = number == edition.number();
            assert_eq!(tries.image(&changed), if right { 0 } else { 10 });
            let longer = images::behind(&mut tries.random, &changed);
            assert_eq!(tries.image(&longer), if right { 0 } else { 10 });
        }
    }
}

/// 68 to 71 bytes that end in a trailer of edition 2, with the sum and the
/// distance of what is there or of the whole.
#[test]
fn too_few_bytes_for_edition_2() {
    let mut tries = ImageTries::new(214);
    for _ in 0..100 * rounds() {
        for length in 0..IMAGE_SIZE {
            let image = images::image(&mut tries.random);
            let cut = &image[IMAGE_SIZE - length..];
            assert_eq!(tries.image(cut), 10, "{length} bytes");
            let Some(start) = length.checked_sub(8) else {
                continue;
            };
            let front = &image[..start];
            let right = Trailer::of(Edition::Second, front);
            let shorter = Trailer {
                distance: start as u16,
                ..right
            };
            for trailer in [right, shorter] {
                let bytes = trailer.behind(front);
                assert_eq!(bytes.len(), length);
                assert_eq!(tries.image(&bytes), 10, "{length} bytes");
            }
        }
    }
}

/// The finder's part, by its place and its length.
#[test]
fn the_finder_tells_the_edition() {
    let mut random = Random::new(215);
    for _ in 0..DRAWN_IMAGES * rounds() {
        for edition in Edition::ALL {
            let image = images::image_of(&mut random, edition);
            let bytes = images::behind(&mut random, &image);
            assert_eq!(compare::find(&bytes), edition.body_size());
            let start = calugnid::find(&bytes);
            assert_eq!(bytes.len() - start, edition.image_size());
            assert_eq!(compare::find(&bytes[1 + start..]), 0);
        }
    }
}

/// A load of edition 1 leaves nothing of what was there: the options, the latches
/// and the time-out are the ordinary ones, the rest is given.
#[test]
fn a_load_of_edition_1_gives_the_ordinary_settings() {
    let mut random = Random::new(216);
    for number in 0..DRAWN_IMAGES * rounds() {
        let settings = WITH_BUILT_IN_TABLE[number % 8];
        let before = images::state(&mut random, settings);
        let mut both = Both::of(&mut random, &before);
        let old = images::edition_1_image(&mut random);
        let version = random.byte();
        let table = key_tables::draw(&mut random);
        assert_eq!(both.load(Given::with_table(version, &table.0), &old), 0);
        assert_eq!(both.bytes()[..60], old[..60]);
        assert_eq!(both.bytes()[60..], ordinary_rest(version, table));
        assert_eq!(both.load(Given::version(version), &old), 0);
        let built_in = ordinary_rest(version, KeyTable::BUILT_IN);
        assert_eq!(both.bytes()[60..], built_in);
    }
}

/// Whatever is accepted is saved again as it was, or as its move.
#[test]
fn an_accepted_image_is_saved_again() {
    let mut random = Random::new(217);
    for _ in 0..DRAWN_IMAGES * rounds() {
        let settings = draw(&mut random);
        let given = Given::again(&settings);
        let mut both = Both::started(&mut random, settings);
        let image = images::image(&mut random);
        assert_eq!(both.load(given, &image), 0);
        assert_eq!(both.save(&mut random, IMAGE_SIZE), image);
        let old = images::edition_1_image(&mut random);
        assert_eq!(both.load(given, &old), 0);
        let saved = both.save(&mut random, IMAGE_SIZE);
        let moved = compare::move_to_edition_2(&mut random, &old, IMAGE_SIZE);
        assert_eq!(moved, Ok(saved));
    }
}

/// One state in both editions, where edition 1 can have it.
#[test]
fn a_load_of_edition_1_is_the_load_of_its_move() {
    let mut random = Random::new(218);
    for _ in 0..DRAWN_IMAGES * rounds() {
        let settings = draw(&mut random);
        let given = Given::again(&settings);
        let state = images::state(&mut random, Settings::ORDINARY);
        let old = images::as_edition_1(&state);
        let moved = compare::move_to_edition_2(&mut random, &old, IMAGE_SIZE);
        assert_eq!(moved, Ok(save(&state).to_vec()));
        let mut of_old = Both::started(&mut random, settings);
        assert_eq!(of_old.load(given, &old), 0);
        let mut of_move = Both::started(&mut random, Settings::ORDINARY);
        assert_eq!(of_move.load(given, &save(&state)), 0);
        assert_eq!(of_old.bytes(), of_move.bytes());
    }
}
