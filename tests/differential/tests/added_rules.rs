//! The body rules that edition 2 adds: every value of bytes 60 to 63, alone, in
//! pairs and all together, with the sum put right.

use differential::given::Given;
use differential::image_tries::ImageTries;
use differential::images;
use differential::rounds::rounds;
use model::{Edition, Settings, save, seal};

type Image = Vec<u8>;

/// An image of a drawn state with the ordinary settings and no overlay, so that
/// its first sixty bytes go with any options.
fn drawn_image(tries: &mut ImageTries) -> Image {
    let mut state = images::state(&mut tries.random, Settings::ORDINARY);
    state.overlay = None;
    save(&state).to_vec()
}

fn with_bytes(image: &Image, changes: &[(usize, u8)]) -> Image {
    let mut body = image[..Edition::Second.body_size()].to_vec();
    for &(at, value) in changes {
        body[at] = value;
    }
    seal(Edition::Second, &body)
}

/// The rules as one table: what byte 61, 62 and 63 may be for a byte 60.
fn let_in([options, latches_1, latches, timeout]: [u8; 4]) -> bool {
    let [at_mode, second_set, allowed] = [2, 4, 8].map(|bit| options & bit != 0);
    let latches_1_let_in = if second_set {
        latches_1 < 0x40
    } else {
        latches_1 == 0x3F
    };
    let latches_let_in = match (at_mode, second_set) {
        (true, _) => matches!(latches, 0..=3 | 8..=11),
        (false, true) => latches < 4,
        (false, false) => latches == 3,
    };
    options < 16
        && (second_set || !allowed)
        && latches_1_let_in
        && latches_let_in
        && timeout <= u8::from(at_mode)
}

fn refusal(let_in: bool) -> u8 {
    if let_in { 0 } else { 11 }
}

/// Each choice of options with every value of each byte by itself, by all calls.
#[test]
fn every_value_under_every_choice() {
    let mut tries = ImageTries::new(201);
    for options in (0..16).cycle().take(16 * rounds()) {
        for at in 60..64 {
            for value in 0..=0xFF {
                let mut four = [options, 0x3F, 0x03, 0];
                four[at - 60] = value;
                let image = drawn_image(&mut tries);
                let changes: Vec<_> = (60..64).zip(four).collect();
                let changed = with_bytes(&image, &changes);
                assert_eq!(tries.image(&changed), refusal(let_in(four)), "{four:02X?}");
            }
        }
    }
    tries.print();
    assert!(tries.loads(0) > 500 && tries.loads(11) > 5_000 && tries.moves(16) > 500);
}

/// Byte 60 with each of the others: all values of both.
#[test]
fn every_value_of_the_options_with_every_value_of_another() {
    let mut tries = ImageTries::new(202);
    for at in 61..64 {
        let image = drawn_image(&mut tries);
        for options in 0..=0xFF {
            for value in 0..=0xFF {
                let mut four = [options, 0x3F, 0x03, 0];
                four[at - 60] = value;
                let changed = with_bytes(&image, &[(60, options), (at, value)]);
                let result = tries.load(Given::version(options), &changed);
                assert_eq!(result, refusal(let_in(four)), "{four:02X?}");
            }
        }
    }
    tries.print();
}

/// The used bits of the four bytes in every combination, with an overlay of every
/// nibble.
#[test]
fn every_combination_of_the_used_bits() {
    let mut tries = ImageTries::new(203);
    for nibble in 0..16 {
        let image = drawn_image(&mut tries);
        for options in 0..16 {
            for latches_1 in 0..0x40 {
                for last in 0..32 {
                    let four = [options, latches_1, last / 2, last % 2];
                    let changes = [
                        (6, 1),
                        (7, nibble),
                        (60, four[0]),
                        (61, four[1]),
                        (62, four[2]),
                        (63, four[3]),
                    ];
                    let odd_in_second_set = options & 4 != 0 && nibble % 2 == 1;
                    let expected = refusal(let_in(four) && !odd_in_second_set);
                    let changed = with_bytes(&image, &changes);
                    let result = tries.load(Given::version(nibble), &changed);
                    assert_eq!(result, expected, "{four:02X?} with {nibble}");
                }
            }
        }
    }
    tries.print();
}

/// A nibble without an overlay is refused under every choice, and one of five
/// bits.
#[test]
fn every_value_of_the_overlay_under_every_choice() {
    let mut tries = ImageTries::new(204);
    for options in 0..8 {
        for present in 0..=3 {
            for nibble in 0..=0xFF {
                let image = drawn_image(&mut tries);
                let changes = [(6, present), (7, nibble), (60, options)];
                let let_in = match (present, options & 4 != 0) {
                    (0, _) => nibble == 0,
                    (1, false) => nibble < 16,
                    (1, true) => nibble < 16 && nibble % 2 == 0,
                    _ => false,
                };
                let result = tries.image(&with_bytes(&image, &changes));
                assert_eq!(result, refusal(let_in), "{changes:02X?}");
            }
        }
    }
}

/// The rules of edition 1 under each choice: the first sixty bytes are refused
/// under all of them or under none, the overlay of the second set aside.
#[test]
fn every_value_of_the_other_bytes_under_every_choice() {
    let mut tries = ImageTries::new(205);
    for at in 0..60 {
        let image = drawn_image(&mut tries);
        for value in 0..=0xFF {
            let mut of_ordinary = None;
            for options in [0, 1, 2, 3, 4, 5, 6, 7, 12, 15] {
                let changed = with_bytes(&image, &[(at, value), (60, options)]);
                let result = tries.load(Given::version(value), &changed);
                let expected = *of_ordinary.get_or_insert(result);
                assert_eq!(result, expected, "{at} {value:02X} {options}");
            }
        }
    }
    tries.print();
    assert!(tries.loads(0) > 10_000 && tries.loads(11) > 10_000);
}
