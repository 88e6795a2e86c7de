//! The order of the checks in a load and in a run between images.

mod host;

use host::saved::{fresh_body, sealed, sealed_as_edition_1, with_bytes};
use host::tables::reversed;
use model::{
    Body, Settings, load, load_with_table, run_image, run_image_with_table, save, state_bytes,
};

const FILL: u8 = 0xA5;

/// Images of both editions with the number that refuses each, 0 for none.
fn images() -> Vec<(Vec<u8>, u8)> {
    let sound = fresh_body(Settings::ORDINARY);
    let unruly: Body = with_bytes(sound, &[(3, 4)]);
    let of_each = |seal: fn(&Body) -> Vec<u8>| {
        let (sound, unruly) = (seal(&sound), seal(&unruly));
        let short = unruly[1..].to_vec();
        [(sound, 0), (unruly, 11), (short, 10)]
    };
    [of_each(sealed), of_each(sealed_as_edition_1)].concat()
}

/// Tables with the number that refuses each. One with two faults has the number
/// of the first.
fn tables() -> Vec<(Vec<u8>, u8)> {
    let sound = reversed().0;
    let (mut keys, mut fixed) = (sound, sound);
    keys[0x7F] = 0x02;
    keys[0xE0] = 0;
    fixed[0xFE] = 0;
    vec![
        (sound.to_vec(), 0),
        (keys[1..].to_vec(), 13),
        (keys.to_vec(), 14),
        (fixed.to_vec(), 15),
    ]
}

fn first(refusals: &[u8]) -> u8 {
    let refused = refusals.iter().copied().find(|&refusal| refusal != 0);
    refused.unwrap_or(0)
}

#[test]
fn a_load_asks_for_the_image_first_and_the_table_then() {
    for (image, of_image) in images() {
        assert_eq!(load(0, &image).err().unwrap_or(0), of_image);
        for (table, of_table) in tables() {
            let loaded = load_with_table(0x5A, &table, &image);
            let refusal = loaded.as_ref().err().copied().unwrap_or(0);
            assert_eq!(refusal, first(&[of_image, of_table]));
            if let Ok(state) = loaded {
                assert_eq!(state_bytes(&state)[64], 0x5A);
                assert_eq!(state_bytes(&state)[65..], reversed().0);
            }
        }
    }
}

/// Lists, space for answers and space for an image, with what refuses each.
const LISTS: [(usize, usize, u8); 4] = [(3, 9, 0), (4, 0, 7), (21_003, 63_009, 7), (3, 8, 8)];
const SPACES: [(usize, u8); 4] = [(72, 0), (71, 9), (68, 9), (80, 0)];

fn assert_run(
    refusal: u8,
    (length, room, size): (usize, usize, usize),
    run: impl FnOnce(&[u8], &mut [u8], &mut [u8]) -> u8,
) {
    let list = vec![0; length];
    let (mut answers, mut saved) = (vec![FILL; room], vec![FILL; size]);
    assert_eq!(run(&list, &mut answers, &mut saved), refusal);
    let written = if refusal == 0 { (9, 72) } else { (0, 0) };
    assert!(answers[written.0..].iter().all(|&byte| byte == FILL));
    assert!(saved[written.1..].iter().all(|&byte| byte == FILL));
}

#[test]
fn a_run_asks_for_the_list_the_space_the_image_and_the_table() {
    for (length, room, of_list) in LISTS {
        for (size, of_space) in SPACES {
            let sizes = (length, room, size);
            for (image, of_image) in images() {
                let refusal = first(&[of_list, of_space, of_image]);
                assert_run(refusal, sizes, |list, answers, saved| {
                    run_image(0, &image, list, answers, saved)
                });
                for (table, of_table) in tables() {
                    let refusal = first(&[of_list, of_space, of_image, of_table]);
                    assert_run(refusal, sizes, |list, answers, saved| {
                        run_image_with_table(0, &table, &image, list, answers, saved)
                    });
                }
            }
        }
    }
}

/// A key, then the version byte of the second set. The image saved has neither
/// the table nor the version byte.
#[test]
fn a_run_goes_by_the_version_byte_and_the_table_given() {
    let list = [3, 0xAE, 0, 4, 0x38, 0x04, 0, 0, 0, 3, 0xA1, 0, 0, 0, 0];
    assert_eq!(model::frame(0x1C), 0x0438);
    let fresh = model::Controller::fresh(Settings::SECOND_SET);
    let (mut answers, mut saved) = ([0; 45], [0; 72]);
    assert_eq!(
        run_image(0x33, &save(&fresh), &list, &mut answers, &mut saved),
        0
    );
    assert_eq!((answers[19], answers[37]), (0x1E, 0x33));
    let mut again = [0; 72];
    let table = reversed();
    let refusal = run_image_with_table(
        0x44,
        &table.0,
        &save(&fresh),
        &list,
        &mut answers,
        &mut again,
    );
    assert_eq!(refusal, 0);
    assert_eq!((answers[19], answers[37]), (table.entry(0x1C), 0x44));
    // The output byte is all that differs.
    saved[0] = 0x44;
    assert_eq!(again[..64], saved[..64]);
}
