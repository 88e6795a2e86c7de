//! The order of the checks in loads, in moves and in runs between images: every
//! combination of faults, of which the first in order has to be told.

use differential::both::Both;
use differential::compare::{self, Room};
use differential::given::Given;
use differential::images;
use differential::key_tables;
use differential::lists;
use differential::random::Random;
use differential::rounds::rounds;
use differential::trailers::Trailer;
use differential::under_settings::WITH_BUILT_IN_TABLE;
use model::{EDITION_1_SIZE, Edition, IMAGE_SIZE, Settings, save};

/// Closes a body with something wrong.
type Damage = fn(&mut Random, Trailer, &[u8]) -> Vec<u8>;

/// The ways to break what check 10 asks for.
const DAMAGES: [Damage; 6] = [
    |_, trailer, body| trailer.behind(&body[1..]),
    |random, mut trailer, body| {
        trailer.mark[random.below(3)] ^= random.byte_in(1..=0xFF);
        trailer.behind(body)
    },
    |random, mut trailer, body| {
        trailer.edition = random.pick(&[0, 3, 4, 0x81, 0x82, 0xFF]);
        trailer.behind(body)
    },
    |random, mut trailer, body| {
        trailer.edition = 3 - trailer.edition;
        images::behind(random, &trailer.behind(body))
    },
    |random, mut trailer, body| {
        trailer.distance = trailer.distance.wrapping_add(random.word() | 1);
        trailer.behind(body)
    },
    |random, mut trailer, body| {
        trailer.sum = trailer.sum.wrapping_add(random.word() | 1);
        trailer.behind(body)
    },
];

/// Every combination of some faults, each a number and whether it is there.
fn combinations<const N: usize>(numbers: [u8; N]) -> impl Iterator<Item = [(u8, bool); N]> {
    let present = |bits: usize, place| bits >> place & 1 != 0;
    (0..1 << N).map(move |bits| std::array::from_fn(|place| (numbers[place], present(bits, place))))
}

fn first(faults: &[(u8, bool)]) -> u8 {
    let present = faults.iter().find(|(_, present)| *present);
    present.map_or(0, |&(number, _)| number)
}

/// Whether a fault is to be there.
fn has(faults: &[(u8, bool)], number: u8) -> bool {
    faults.contains(&(number, true))
}

/// An image of an edition from a state, with the faults 10 and 11 where asked for.
fn image(
    random: &mut Random,
    edition: Edition,
    settings: Settings,
    faults: &[(u8, bool)],
) -> Vec<u8> {
    let state = images::state(random, settings);
    let mut body = save(&state)[..edition.body_size()].to_vec();
    if has(faults, 11) {
        let (at, bit) = random.pick(&[(1, 0x80), (3, 0x10), (28, 0x80)]);
        body[at] |= bit;
    }
    let trailer = Trailer::of(edition, &body);
    if has(faults, 10) {
        random.pick(&DAMAGES)(random, trailer, &body)
    } else {
        images::behind(random, &trailer.behind(&body))
    }
}

/// A table with the faults 13, 14 and 15 where asked for.
fn table(random: &mut Random, faults: &[(u8, bool)]) -> Vec<u8> {
    let mut table = key_tables::draw(random).0.to_vec();
    if has(faults, 15) {
        let (byte, code) = random.pick(&key_tables::FIXED);
        table[byte] = code ^ random.byte_in(1..=0xFF);
    }
    if has(faults, 14) {
        let key = 1 + random.below(0x7F);
        table[key] = random.pick(&[0x00, 0x80, 0xFF, table[key % 0x7F + 1]]);
    }
    if has(faults, 13) {
        let length = random.pick(&[0, 1, 128, 255, 257, 512]);
        table.resize(length, 0);
    }
    table
}

/// The settings that an edition has a place for.
fn settings_for(random: &mut Random, edition: Edition) -> Settings {
    match edition {
        Edition::First => Settings::ORDINARY,
        Edition::Second => random.pick(&WITH_BUILT_IN_TABLE),
    }
}

/// A refused load leaves every byte of whatever controller was there.
#[test]
fn loads() {
    let mut random = Random::new(231);
    for edition in Edition::ALL.repeat(60 * rounds()) {
        for faults in combinations([10, 11, 13, 14, 15]) {
            let settings = settings_for(&mut random, edition);
            let image = image(&mut random, edition, settings, &faults);
            let table = table(&mut random, &faults);
            let there = random.pick(&WITH_BUILT_IN_TABLE);
            let state = images::state(&mut random, there);
            let mut both = Both::of(&mut random, &state);
            let version = random.byte();
            let result = both.load(Given::with_table(version, &table), &image);
            assert_eq!(result, first(&faults), "{faults:?}");
            let result = both.load(Given::version(version), &image);
            assert_eq!(result, first(&faults[..2]), "{faults:?}");
        }
    }
}

/// A list with the fault 7 and the room with the faults 8 and 9 where asked for.
fn list_and_room(random: &mut Random, faults: &[(u8, bool)]) -> (Vec<u8>, Room) {
    let events = 1 + random.below(5);
    let mut list = lists::unguided(random, events);
    if has(faults, 7) {
        let length = random.pick(&[1, 2, 4, 3 * events + 1, 21_003]);
        list.resize(length, 0);
    }
    let exact = list.len().div_ceil(3) * 9;
    let answers = if has(faults, 8) {
        exact - 1 - random.below(9)
    } else {
        exact
    };
    let saved = if has(faults, 9) {
        random.pick(&[0, 1, 67, 68, 71])
    } else {
        IMAGE_SIZE + random.below(3)
    };
    (list, Room { answers, saved })
}

/// A refused run writes to neither of its buffers.
#[test]
fn runs_between_images() {
    let mut random = Random::new(232);
    for edition in Edition::ALL.repeat(12 * rounds()) {
        for faults in combinations([7, 8, 9, 10, 11, 13, 14, 15]) {
            let settings = settings_for(&mut random, edition);
            let image = image(&mut random, edition, settings, &faults);
            let table = table(&mut random, &faults);
            let (list, room) = list_and_room(&mut random, &faults);
            let version = random.byte();
            for (given, asked) in [
                (Given::with_table(version, &table), &faults[..]),
                (Given::version(version), &faults[..5]),
            ] {
                let written = compare::run_image(&mut random, given, &image, &list, room);
                assert_eq!(written.refusal, first(asked), "{faults:?}");
            }
        }
    }
}

/// Too little space for an image of a size, or enough.
fn space(random: &mut Random, size: usize, faults: &[(u8, bool)]) -> usize {
    if has(faults, 9) {
        random.pick(&[0, 1, size - 4, size - 1])
    } else {
        size + random.below(5)
    }
}

/// Going forward, with an image of the other edition as one more way to be refused
/// by 10.
#[test]
fn moves_to_edition_2() {
    let mut random = Random::new(233);
    for number in 0..400 * rounds() {
        for faults in combinations([10, 11, 9]) {
            let other = number % 4 == 0 && has(&faults, 10);
            let image = if other {
                let settings = settings_for(&mut random, Edition::Second);
                let sound = [(10, false), faults[1]];
                image(&mut random, Edition::Second, settings, &sound)
            } else {
                image(&mut random, Edition::First, Settings::ORDINARY, &faults)
            };
            let space = space(&mut random, IMAGE_SIZE, &faults);
            let moved = compare::move_to_edition_2(&mut random, &image, space);
            assert_eq!(moved.err().unwrap_or(0), first(&faults), "{faults:?}");
        }
    }
}

/// Going back. Check 16 is about the settings, which edition 1 has no place for.
#[test]
fn moves_to_edition_1() {
    let mut random = Random::new(234);
    for number in 0..400 * rounds() {
        for faults in combinations([10, 11, 16, 9]) {
            let other = number % 4 == 0 && has(&faults, 10);
            let settings = if has(&faults, 16) {
                random.pick(&WITH_BUILT_IN_TABLE[1..])
            } else {
                Settings::ORDINARY
            };
            let image = if other {
                let sound = [(10, false), faults[1]];
                image(&mut random, Edition::First, Settings::ORDINARY, &sound)
            } else {
                image(&mut random, Edition::Second, settings, &faults)
            };
            let space = space(&mut random, EDITION_1_SIZE, &faults);
            let moved = compare::move_to_edition_1(&mut random, &image, space);
            assert_eq!(moved.err().unwrap_or(0), first(&faults), "{faults:?}");
        }
    }
}

/// The rules of edition 2 are asked before check 16 too.
#[test]
fn a_rule_about_the_four_bytes_is_asked_before_16() {
    let mut random = Random::new(235);
    let fresh = save(&model::Controller::fresh(Settings::ORDINARY));
    for (at, value) in [(60, 0x08), (60, 0x10), (61, 0x3E), (62, 0x0B), (63, 1)] {
        let mut image = fresh;
        image[at] = value;
        images::mend(Edition::Second, &mut image);
        for space in [0, EDITION_1_SIZE] {
            let moved = compare::move_to_edition_1(&mut random, &image, space);
            assert_eq!(moved, Err(11), "byte {at} is {value:02X}");
        }
    }
}
