//! Loads that go on, and loads that are refused.

use crate::both::Both;
use crate::compare::{self, Room};
use crate::given::Given;
use crate::images;
use crate::lists;
use crate::random::Random;
use model::{Controller, Edition, IMAGE_SIZE, KeyTable};

/// What stands behind the parts that both editions have: four bytes of edition 2,
/// the version byte, and the key table.
pub fn rest(bytes: [u8; 5], table: KeyTable) -> Vec<u8> {
    [&bytes[..], &table.0].concat()
}

/// The same after a load of an image of edition 1.
pub fn ordinary_rest(version: u8, table: KeyTable) -> Vec<u8> {
    rest([calugnid::ORDINARY, 0x3F, 0x03, 0, version], table)
}

/// A controller that loads what it saved goes on as a run of the image does, and
/// as if it had not been saved.
pub fn assert_goes_on_as_a_run(random: &mut Random, state: &Controller) {
    let given = Given::again(&state.settings);
    let mut both = Both::of(random, state);
    let before = both.bytes();
    let saved = both.save(random, IMAGE_SIZE);
    let list = lists::unguided(random, 60);
    let room = Room::enough(random, &list);
    let written = compare::run_image(random, given, &saved, &list, room);
    assert_eq!(both.load(given, &saved), 0);
    assert_eq!(both.bytes(), before);
    assert_eq!(both.run(random, &list, list.len() * 3), 0);
    assert_eq!(both.save(random, IMAGE_SIZE), written.saved);
    assert_eq!(both.model.settings, state.settings);
}

/// Of both editions: each byte of the trailer changed, the image cut, and two body
/// rules broken.
pub fn refused_images(random: &mut Random) -> Vec<Vec<u8>> {
    let of_each = Edition::ALL.map(|edition| refused_images_of(random, edition));
    of_each.concat()
}

fn refused_images_of(random: &mut Random, edition: Edition) -> Vec<Vec<u8>> {
    let sound = images::image_of(random, edition);
    let mut images: Vec<_> = (edition.body_size()..edition.image_size())
        .map(|at| {
            let mut image = sound.clone();
            image[at] ^= 1;
            image
        })
        .collect();
    images.push(sound[1..].to_vec());
    for (at, bit) in [(3, 0x04), (28, 0x80)] {
        let mut unruly = sound.clone();
        unruly[at] |= bit;
        images::mend(edition, &mut unruly);
        images.push(unruly);
    }
    images
}
