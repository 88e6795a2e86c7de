//! Moves between the editions.

mod host;

use host::Host;
use host::saved::{fresh_body, sealed, sealed_as_edition_1, with_bytes};
use host::tables::reversed;
use model::{Body, Settings, encode, load_with_table, move_to_edition_1, move_to_edition_2, save};

const FILL: u8 = 0xA5;

/// The image that a move writes to a larger space, or its refusal.
fn moved(by: fn(&[u8], &mut [u8]) -> u8, image: &[u8], size: usize) -> Result<Vec<u8>, u8> {
    let mut space = vec![FILL; size + 3];
    let refusal = by(image, &mut space);
    let written = if refusal == 0 { size } else { 0 };
    assert!(space[written..].iter().all(|&byte| byte == FILL));
    if refusal == 0 {
        Ok(space[..size].to_vec())
    } else {
        Err(refusal)
    }
}

fn forward(image: &[u8]) -> Result<Vec<u8>, u8> {
    moved(move_to_edition_2, image, 72)
}

fn back(image: &[u8]) -> Result<Vec<u8>, u8> {
    moved(move_to_edition_1, image, 68)
}

/// A locked controller with a mouse byte waiting.
fn locked_body() -> Body {
    let mut host = Host::ready();
    host.mouse(0x14);
    host.lock(&[0x1E, 0x30]);
    encode(&host.state)
}

#[test]
fn forward_adds_four_bytes() {
    let body = locked_body();
    let image = forward(&sealed_as_edition_1(&body)).expect("a move");
    assert_eq!(image[..60], body[..60]);
    assert_eq!(image[60..64], [0, 0x3F, 0x03, 0]);
    assert_eq!(image, sealed(&body));
    let [low, high] = model::word_sum(&image[..64]).to_le_bytes();
    assert_eq!(image[64..], [64, 0, low, high, 2, 0x4B, 0x42, 0x43]);
}

#[test]
fn back_takes_them_away() {
    let body = locked_body();
    let image = back(&sealed(&body)).expect("a move");
    assert_eq!(image[..60], body[..60]);
    let [low, high] = model::word_sum(&image[..60]).to_le_bytes();
    assert_eq!(image[60..], [60, 0, low, high, 1, 0x4B, 0x42, 0x43]);
}

#[test]
fn there_and_back_gives_the_same_bytes() {
    for body in [fresh_body(Settings::ORDINARY), locked_body()] {
        let (old, new) = (sealed_as_edition_1(&body), sealed(&body));
        assert_eq!(forward(&old).and_then(|image| back(&image)), Ok(old));
        assert_eq!(back(&new).and_then(|image| forward(&image)), Ok(new));
    }
}

/// Each of the four bytes alone, by bits that its mode and set let in.
#[test]
fn back_is_refused_where_one_of_the_four_differs() {
    let ordinary = fresh_body(Settings::ORDINARY);
    assert!(back(&sealed(&ordinary)).is_ok());
    for options in 1..8 {
        let body = with_bytes(ordinary, &[(60, options)]);
        assert_eq!(back(&sealed(&body)), Err(16), "{options}");
    }
    for changes in [
        &[(60, 12)][..],
        &[(60, 4), (61, 0x3E)],
        &[(60, 2), (62, 0x02)],
        &[(60, 2), (62, 0x0B)],
        &[(60, 2), (63, 1)],
    ] {
        let body = with_bytes(ordinary, changes);
        assert_eq!(back(&sealed(&body)), Err(16), "{changes:02X?}");
    }
}

#[test]
fn an_image_of_the_other_edition_is_refused_by_10() {
    let body = locked_body();
    assert_eq!(forward(&sealed(&body)), Err(10));
    assert_eq!(back(&sealed_as_edition_1(&body)), Err(10));
}

#[test]
fn the_image_is_taken_from_the_end() {
    let body = locked_body();
    let lead = [0x4B; 9];
    let old = sealed_as_edition_1(&body);
    let new = sealed(&body);
    assert_eq!(forward(&[&lead[..], &old].concat()), Ok(new.clone()));
    assert_eq!(back(&[&lead[..], &new].concat()), Ok(old.clone()));
    assert_eq!(forward(&[&old[..], &[0]].concat()), Err(10));
    assert_eq!(back(&[&new[..], &[0]].concat()), Err(10));
    assert_eq!(forward(&old[1..]), Err(10));
    assert_eq!(back(&new[1..]), Err(10));
}

/// Space of every size, for an image that can be moved and for others.
#[test]
fn space_is_asked_for_last() {
    let body = fresh_body(Settings::ORDINARY);
    let unruly = with_bytes(body, &[(3, 4)]);
    let at_mode = with_bytes(body, &[(60, 2)]);
    let unruly_at_mode = with_bytes(at_mode, &[(3, 4)]);
    for size in 0..80 {
        let mut space = vec![FILL; size];
        let mut forward = |image: &[u8]| move_to_edition_2(image, &mut space);
        let of_space = if size < 72 { 9 } else { 0 };
        assert_eq!(forward(&sealed(&body)), 10);
        assert_eq!(forward(&sealed_as_edition_1(&unruly)), 11);
        assert_eq!(forward(&sealed_as_edition_1(&body)), of_space);
        let mut space = vec![FILL; size];
        let mut back = |image: &[u8]| move_to_edition_1(image, &mut space);
        let of_space = if size < 68 { 9 } else { 0 };
        assert_eq!(back(&sealed_as_edition_1(&unruly)), 10);
        assert_eq!(back(&sealed(&unruly_at_mode)), 11);
        assert_eq!(back(&sealed(&at_mode)), 16);
        assert_eq!(back(&sealed(&body)), of_space);
        let written = if size < 68 { 0 } else { 68 };
        assert!(space[written..].iter().all(|&byte| byte == FILL));
    }
}

#[test]
fn a_load_of_edition_1_is_the_load_of_its_move() {
    let old = sealed_as_edition_1(&locked_body());
    let new = forward(&old).expect("a move");
    for table in [model::KeyTable::BUILT_IN, reversed()] {
        let of_old = load_with_table(0x77, &table.0, &old).expect("an image");
        assert_eq!(save(&of_old).to_vec(), new);
        assert_eq!(load_with_table(0x77, &table.0, &new), Ok(of_old));
    }
}
