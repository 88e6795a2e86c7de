//! Images of both editions with something wrong in them.

use differential::compare;
use differential::image_tries::ImageTries;
use differential::images;
use differential::rounds::rounds;
use differential::trailers::Trailer;
use differential::under_settings::WITH_BUILT_IN_TABLE;
use model::{Controller, Edition, Settings, save};

/// A sound image for each choice of settings, and as many of edition 1.
fn sound_images(tries: &mut ImageTries) -> Vec<(Edition, Vec<u8>)> {
    let mut sound = Vec::new();
    for settings in WITH_BUILT_IN_TABLE {
        let state = images::state(&mut tries.random, settings);
        sound.push((Edition::Second, save(&state).to_vec()));
        let image = images::edition_1_image(&mut tries.random);
        sound.push((Edition::First, image.to_vec()));
    }
    sound
}

#[test]
fn every_byte_changed_to_every_value() {
    let mut tries = ImageTries::new(21);
    for _ in 0..rounds() {
        for (_, sound) in sound_images(&mut tries) {
            for at in 0..sound.len() {
                for value in 0..=0xFF {
                    let mut image = sound.clone();
                    image[at] = value;
                    let refusal = tries.image(&image);
                    assert_eq!(refusal, if image == sound { 0 } else { 10 });
                }
            }
        }
    }
    tries.print();
}

#[test]
fn every_body_byte_changed_and_the_sum_mended() {
    let mut tries = ImageTries::new(22);
    for _ in 0..rounds() {
        for (edition, sound) in sound_images(&mut tries) {
            for at in 0..edition.body_size() {
                for value in 0..=0xFF {
                    let mut image = sound.clone();
                    image[at] = value;
                    images::mend(edition, &mut image);
                    tries.image(&image);
                }
            }
        }
    }
    tries.print();
    assert!(tries.loads(0) > 10_000 && tries.loads(11) > 10_000 && tries.loads(10) == 0);
    assert!(tries.moves(0) > 10_000 && tries.moves(11) > 10_000 && tries.moves(16) > 10_000);
}

/// A value that some rule is about, or any.
fn telling_value(tries: &mut ImageTries) -> u8 {
    const VALUES: [u8; 16] = [
        0, 1, 2, 3, 4, 7, 8, 12, 15, 16, 17, 31, 32, 0x3F, 0x42, 0x80,
    ];
    match tries.random.below(4) {
        0 => tries.random.byte(),
        _ => tries.random.pick(&VALUES),
    }
}

/// Every two places, with the sum as it was and with the sum mended.
#[test]
fn every_two_bytes_changed() {
    let mut tries = ImageTries::new(27);
    for _ in 0..rounds() {
        for edition in Edition::ALL {
            for one in 0..edition.image_size() {
                for other in 0..one {
                    let mut image = images::image_of(&mut tries.random, edition);
                    image[one] = telling_value(&mut tries);
                    image[other] = telling_value(&mut tries);
                    tries.image(&image);
                    images::mend(edition, &mut image);
                    tries.image(&image);
                }
            }
        }
    }
    tries.print();
    assert!([0, 10, 11].iter().all(|&number| tries.loads(number) > 500));
}

#[test]
fn several_body_bytes_changed_and_the_sum_mended() {
    let mut tries = ImageTries::new(23);
    for number in 0..30_000 * rounds() {
        let edition = Edition::ALL[number % 2];
        let mut image = images::image_of(&mut tries.random, edition);
        for _ in 0..1 + tries.random.below(3) {
            // The first bytes and the last carry nearly all of the rules.
            const PLACES: [usize; 17] =
                [1, 3, 4, 5, 6, 7, 8, 9, 10, 11, 12, 27, 28, 60, 61, 62, 63];
            let at = tries.random.pick(&PLACES).min(edition.body_size() - 1);
            image[at] = telling_value(&mut tries);
        }
        images::mend(edition, &mut image);
        tries.image(&image);
    }
    tries.print();
    assert!(tries.loads(0) > 1_000 && tries.loads(11) > 1_000);
}

#[test]
fn every_length_of_what_is_there() {
    let mut tries = ImageTries::new(24);
    for edition in Edition::ALL {
        for length in (0..=80).chain([127, 128, 136, 144, 255, 256, 1_000, 66_000]) {
            let size = edition.image_size();
            let image = images::image_of(&mut tries.random, edition);
            let mut bytes = tries.random.bytes(length.max(size));
            let start = bytes.len() - size;
            bytes[start..].copy_from_slice(&image);
            // Cut from the front, the trailer stays at the end.
            let from_front = &bytes[bytes.len() - length..];
            let refusal = tries.image(from_front);
            assert_eq!(refusal, if length < size { 10 } else { 0 });
            // Cut from the end, there is no trailer.
            bytes.truncate(length);
            tries.image(&bytes);
            bytes.push(0);
            assert_eq!(tries.image(&bytes), 10);
        }
    }
}

#[test]
fn wrong_distances() {
    let mut tries = ImageTries::new(25);
    for edition in Edition::ALL {
        let right = edition.body_size() as u16;
        for distance in (0..=200).chain([60 + 256, 64 + 256, 0x3C00, 0x4000, 0xFFFF]) {
            let image = images::image_of(&mut tries.random, edition);
            let body = &image[..edition.body_size()];
            let trailer = Trailer {
                distance,
                ..Trailer::of(edition, body)
            };
            let bytes = images::behind(&mut tries.random, &trailer.behind(body));
            let refusal = tries.image(&bytes);
            assert_eq!(refusal, if distance == right { 0 } else { 10 });
        }
    }
}

#[test]
fn trailer_bytes_swapped() {
    let mut tries = ImageTries::new(29);
    for (one, other) in [(64, 65), (66, 67), (69, 70), (70, 71), (68, 69)] {
        let mut state = Controller::fresh(Settings::ORDINARY);
        state.ram[1] = 7;
        let mut image = save(&state);
        image.swap(one, other);
        assert_eq!(tries.image(&image), 10);
        let mut image = images::as_edition_1(&state);
        image.swap(one - 4, other - 4);
        assert_eq!(tries.image(&image), 10);
    }
}

/// Two words of the body in each other's place leave the sum as it was.
#[test]
fn changes_that_leave_the_sum() {
    let mut tries = ImageTries::new(26);
    for number in 0..4_000 * rounds() {
        let edition = Edition::ALL[number % 2];
        let mut image = images::image_of(&mut tries.random, edition);
        let words = edition.body_size() / 2;
        let (one, other) = (tries.random.below(words), tries.random.below(words));
        image.swap(2 * one, 2 * other);
        image.swap(2 * one + 1, 2 * other + 1);
        let refusal = tries.image(&image);
        assert!(refusal == 0 || refusal == 11);
    }
}

/// Any sixteen bits in the place of the sum.
#[test]
fn every_wrong_sum() {
    let mut tries = ImageTries::new(28);
    for edition in Edition::ALL {
        let image = images::image_of(&mut tries.random, edition);
        let body = &image[..edition.body_size()];
        let right = Trailer::of(edition, body);
        for sum in 0..=u16::MAX {
            let changed = Trailer { sum, ..right }.behind(body);
            let found = compare::find(&changed) != 0;
            assert_eq!(found, sum == right.sum, "{sum:04X}");
        }
        assert_eq!(tries.image(&image), 0);
    }
}
