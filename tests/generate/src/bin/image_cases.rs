//! Prints what saves, loads and moves at their edges give, from the model: a name, the refusal, and the sum of the bytes that came of it.

use model::{
    BODY_SIZE, Body, Controller, EDITION_1_BODY_SIZE, EDITION_1_SIZE, Edition, IMAGE_SIZE,
    Settings, find, load, move_to_edition_1, move_to_edition_2, save, seal, store,
};

const FILL: u8 = 0xEE;
const VERSION: u8 = 0x5A;

/// Bytes of a body and the values that they take.
const TRIED: [[u8; 4]; 55] = [
    [1, 0, 1, 0],
    [1, 3, 1, 3],
    [1, 128, 1, 128],
    [1, 2, 1, 2],
    [3, 3, 3, 3],
    [3, 4, 3, 4],
    [3, 128, 3, 128],
    [4, 7, 4, 7],
    [4, 8, 4, 8],
    [4, 2, 5, 0],
    [4, 2, 5, 1],
    [4, 2, 5, 31],
    [4, 2, 5, 32],
    [4, 1, 5, 1],
    [5, 1, 5, 1],
    [6, 1, 7, 0],
    [6, 1, 7, 15],
    [6, 1, 7, 16],
    [6, 2, 7, 0],
    [6, 0, 7, 1],
    [8, 1, 9, 0],
    [8, 2, 9, 255],
    [8, 3, 9, 0],
    [8, 0, 9, 1],
    [10, 0, 12, 0],
    [10, 2, 14, 0],
    [10, 2, 14, 9],
    [10, 4, 15, 9],
    [10, 4, 15, 0],
    [12, 0, 12, 0],
    [15, 9, 15, 9],
    [27, 1, 27, 1],
    [11, 1, 11, 1],
    [1, 64, 11, 0],
    [1, 64, 11, 2],
    [1, 64, 11, 3],
    [1, 64, 11, 4],
    [1, 64, 4, 1],
    [1, 64, 8, 1],
    [28, 127, 28, 127],
    [28, 128, 28, 128],
    [28, 255, 28, 255],
    [59, 255, 59, 255],
    [60, 16, 60, 16],
    [60, 11, 60, 11],
    [60, 15, 60, 15],
    [60, 1, 60, 1],
    [61, 62, 61, 62],
    [60, 7, 61, 0],
    [60, 7, 61, 64],
    [62, 4, 62, 4],
    [62, 16, 62, 16],
    [62, 0, 62, 0],
    [63, 0, 63, 0],
    [63, 2, 63, 2],
];

/// A body with something in each of its parts, and a lock code of `n` bytes.
fn sample_body(n: u8) -> Body {
    let mut body = [0; BODY_SIZE];
    body[0] = 0x41;
    body[1] = 0b0011_0101;
    body[2] = 0xA5;
    body[3] = 1;
    body[10] = n;
    body[12..12 + usize::from(n)].fill(0x1E);
    body[28] = 0x65;
    body[28 + 19] = 0x55;
    body[28 + 31] = 0xFF;
    body[60..].copy_from_slice(&[3, 0x3F, 0x0A, 1]);
    body
}

fn sealed(body: &Body) -> Vec<u8> {
    seal(Edition::Second, body)
}

fn sample(n: u8) -> Vec<u8> {
    sealed(&sample_body(n))
}

fn old_sample() -> Vec<u8> {
    seal(Edition::First, &sample_body(3)[..EDITION_1_BODY_SIZE])
}

fn with_byte(mut body: Body, at: u8, value: u8) -> Body {
    body[usize::from(at)] = value;
    body
}

fn added(bytes: &[u8]) -> u64 {
    bytes.iter().map(|&b| u64::from(b)).sum::<u64>() % 65_536
}

fn try_save(room: usize) {
    let mut out = vec![FILL; room];
    let state = load(VERSION, &sample(3)).expect("the sample is an image");
    let refusal = store(&state, &mut out);
    println!("save {room} {refusal} {}", added(&out));
}

/// A refused load leaves the fresh controller that was there.
fn try_load(name: &str, bytes: &[u8]) {
    let (refusal, state) = match load(VERSION, bytes) {
        Ok(state) => (0, state),
        Err(refusal) => (refusal, Controller::fresh(Settings::ORDINARY)),
    };
    println!("{name} {refusal} {}", added(&save(&state)));
}

fn try_find(name: &str, bytes: &[u8]) {
    let body = find(bytes);
    println!("{name} {} {}", body.len(), added(body));
}

fn try_places(image: &[u8]) {
    let mut bytes = vec![FILL; 31];
    bytes.extend_from_slice(image);
    bytes.push(FILL);
    let end = bytes.len() - 1;
    try_load("load whole", &bytes[31..end]);
    try_load("load short", &bytes[32..end]);
    try_load("load behind", &bytes[..end]);
    try_load("load before", &bytes);
    try_find("find", &bytes[..end]);
}

fn try_trailer(image: &[u8]) {
    for at in BODY_SIZE..IMAGE_SIZE {
        let mut changed = image.to_vec();
        changed[at] = image[at] / 2 + 99;
        try_load(&format!("trailer {at}"), &changed);
    }
}

fn try_bodies() {
    for [k, v, l, w] in TRIED {
        let changed = with_byte(with_byte(sample_body(3), k, v), l, w);
        try_load(&format!("body {k} {v} {l} {w}"), &sealed(&changed));
    }
    let none = sample_body(0);
    try_load("code none", &sealed(&none));
    try_load("code none locked", &sealed(&with_byte(none, 1, 0x40)));
    let most = sample_body(16);
    try_load("code sixteen", &sealed(&most));
    try_load("code seventeen", &sealed(&with_byte(most, 10, 17)));
}

/// Hands back the space after the move.
fn try_move(name: &str, by: fn(&[u8], &mut [u8]) -> u8, image: &[u8], space: usize) -> Vec<u8> {
    let mut moved = vec![FILL; space];
    let refusal = by(image, &mut moved);
    println!("{name} {refusal} {}", added(&moved));
    moved
}

fn try_moves() {
    let (old, new) = (old_sample(), sample(3));
    let forward = |name, image, space| try_move(name, move_to_edition_2, image, space);
    let moved = forward("forward whole", &old, IMAGE_SIZE);
    forward("forward short", &old, IMAGE_SIZE - 1);
    forward("forward new", &new, IMAGE_SIZE);
    let back = |name, image, space| try_move(name, move_to_edition_1, image, space);
    back("back whole", &moved, EDITION_1_SIZE);
    back("back short", &moved, EDITION_1_SIZE - 1);
    back("back settings", &new, EDITION_1_SIZE);
    back("back old", &old, EDITION_1_SIZE);
}

fn main() {
    for room in [71, 72, 76] {
        try_save(room);
    }
    try_places(&sample(3));
    try_trailer(&sample(3));
    try_bodies();
    try_load("old whole", &old_sample());
    try_find("old find", &old_sample());
    try_moves();
}
