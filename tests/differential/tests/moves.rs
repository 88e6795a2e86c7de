//! Moves between the editions: what they write, and where they write nothing.

use differential::compare::{move_to_edition_1, move_to_edition_2};
use differential::images;
use differential::random::Random;
use differential::rounds::rounds;
use differential::under_settings::{MODES_AND_SETS, WITH_BUILT_IN_TABLE};
use model::{EDITION_1_SIZE, Edition, IMAGE_SIZE, Settings, save, seal};

const DRAWN_IMAGES: usize = 4_000;

fn room(random: &mut Random, size: usize) -> usize {
    size + random.pick(&[0, 0, 1, 3, 4, 60])
}

fn forward(random: &mut Random, image: &[u8]) -> Result<Vec<u8>, u8> {
    let room = room(random, IMAGE_SIZE);
    move_to_edition_2(random, image, room)
}

fn back(random: &mut Random, image: &[u8]) -> Result<Vec<u8>, u8> {
    let room = room(random, EDITION_1_SIZE);
    move_to_edition_1(random, image, room)
}

#[test]
fn there_and_back_from_edition_1() {
    let mut random = Random::new(221);
    for _ in 0..DRAWN_IMAGES * rounds() {
        let old = images::edition_1_image(&mut random);
        let bytes = images::behind(&mut random, &old);
        let new = forward(&mut random, &bytes).expect("a sound image");
        assert_eq!(new[..60], old[..60]);
        assert_eq!(new[60..66], [0, 0x3F, 0x03, 0, 64, 0]);
        assert_eq!(new[68], 2);
        assert_eq!(back(&mut random, &new), Ok(old.to_vec()));
    }
}

/// Those of ordinary states go back, and all others are refused by 16.
#[test]
fn back_and_there_from_edition_2() {
    let mut random = Random::new(222);
    for number in 0..DRAWN_IMAGES * rounds() {
        let settings = WITH_BUILT_IN_TABLE[number / 2 % 8];
        let choice = [Settings::ORDINARY, settings][number % 2];
        let new = save(&images::state(&mut random, choice)).to_vec();
        let bytes = images::behind(&mut random, &new);
        let old = back(&mut random, &bytes);
        if choice.options() != 0 {
            assert_eq!(old, Err(16));
            continue;
        }
        let old = old.expect("an image that can go back");
        assert_eq!(old[..60], new[..60]);
        assert_eq!(old[60..62], [60, 0]);
        assert_eq!(old[64], 1);
        assert_eq!(forward(&mut random, &old), Ok(new));
    }
}

#[test]
fn an_image_of_the_other_edition_is_refused() {
    let mut random = Random::new(223);
    for _ in 0..DRAWN_IMAGES / 4 * rounds() {
        let new = images::image(&mut random);
        assert_eq!(forward(&mut random, &new), Err(10));
        let old = images::edition_1_image(&mut random);
        assert_eq!(back(&mut random, &old), Err(10));
    }
}

/// Every room for images that can be moved. One byte too few writes none.
#[test]
fn space_of_every_size() {
    let mut random = Random::new(224);
    for room in (0..=150).chain([255, 256, 1_000]) {
        let old = images::edition_1_image(&mut random);
        let new = move_to_edition_2(&mut random, &old, IMAGE_SIZE).expect("a sound image");
        let moved = move_to_edition_2(&mut random, &old, room);
        assert_eq!(moved.err(), (room < IMAGE_SIZE).then_some(9));
        let moved = move_to_edition_1(&mut random, &new, room);
        assert_eq!(moved.err(), (room < EDITION_1_SIZE).then_some(9));
    }
}

/// The body of a state with some of its last four bytes changed, sealed.
fn with_last_bytes(settings: Settings, random: &mut Random, changes: &[(usize, u8)]) -> Vec<u8> {
    let mut state = images::state(random, Settings::ORDINARY);
    state.overlay = None;
    let mut body = save(&state)[..64].to_vec();
    body[60] = settings.options();
    for &(at, value) in changes {
        body[at] = value;
    }
    seal(Edition::Second, &body)
}

/// Under each mode and set every value of each of the four bytes: going back is
/// refused by 11 where the body is, and else by 16 unless all four are those that
/// the way there adds.
#[test]
fn every_value_of_each_of_the_four_bytes() {
    let mut random = Random::new(225);
    let mut refusals = [0; 17];
    for settings in MODES_AND_SETS {
        for at in 60..64 {
            for value in 0..=0xFF {
                let image = with_last_bytes(settings, &mut random, &[(at, value)]);
                let moved = back(&mut random, &image);
                let same = image[60..64] == [0, 0x3F, 0x03, 0];
                assert_eq!(moved.is_ok(), same);
                refusals[usize::from(moved.err().unwrap_or(0))] += 1;
            }
        }
    }
    println!("{refusals:?}");
    // The four bytes themselves stand in the sweep of each with the first set in
    // PS/2 mode, and once where the options of another choice become 0.
    assert_eq!(refusals[0], 7);
    assert!(refusals[11] > 500 && refusals[16] > 100, "{refusals:?}");
}
