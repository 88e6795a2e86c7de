//! The same call to the library and to the model.

use crate::given::Given;
use crate::guarded::Guarded;
use crate::random::Random;
use crate::starts;
use model::{ANSWER_SIZE, EDITION_1_SIZE, EVENT_SIZE, IMAGE_SIZE, Settings};
use std::hint::black_box;

/// What a run wrote, by the model; empty when it was refused.
pub struct Written {
    pub refusal: u8,
    pub answers: Vec<u8>,
    pub saved: Vec<u8>,
}

fn answers_size(list: &[u8]) -> usize {
    list.len() / EVENT_SIZE * ANSWER_SIZE
}

/// Runs a list from fresh in both with an answer buffer of the given size.
pub fn run(random: &mut Random, settings: Settings, list: &[u8], room: usize) -> Written {
    let by_model = |answers: &mut [u8]| model::run(settings, list, answers);
    let by_library = |answers: &mut [u8]| starts::run(settings, list, answers);
    run_by(random, list, room, by_model, by_library)
}

/// The same with the bytes of a table, which may be refused.
pub fn run_with_table(
    random: &mut Random,
    settings: Settings,
    table: &[u8],
    list: &[u8],
    room: usize,
) -> Written {
    let (options, version) = (settings.options(), settings.version);
    let by_model = |answers: &mut [u8]| model::run_with_table(settings, table, list, answers);
    let by_library =
        |answers: &mut [u8]| calugnid::run_with_table(options, version, table, list, answers);
    run_by(random, list, room, by_model, by_library)
}

fn run_by(
    random: &mut Random,
    list: &[u8],
    room: usize,
    by_model: impl FnOnce(&mut [u8]) -> u8,
    by_library: impl FnOnce(&mut [u8]) -> u8,
) -> Written {
    let mut answers = vec![0; room];
    let refusal = by_model(&mut answers);
    answers.truncate(if refusal == 0 { answers_size(list) } else { 0 });

    let mut buffer = Guarded::new(random, room);
    let result = by_library(buffer.inside());
    assert_eq!(result, refusal, "refusal of a list");
    buffer.assert_begins(&answers, "answers");
    Written {
        refusal,
        answers,
        saved: Vec::new(),
    }
}

/// What refuses the bytes of a table in both.
pub fn table_refusal(table: &[u8]) -> u8 {
    let refusal = model::table_refusal(table);
    assert_eq!(calugnid::table_refusal(table), refusal, "{table:02X?}");
    refusal
}

/// Sizes of the two buffers that a run through images writes.
#[derive(Clone, Copy)]
pub struct Room {
    pub answers: usize,
    pub saved: usize,
}

impl Room {
    /// Just enough, and a little more at random.
    pub fn enough(random: &mut Random, list: &[u8]) -> Room {
        Room {
            answers: answers_size(list) + random.pick(&[0, 0, 1, 8, 9, 30]),
            saved: IMAGE_SIZE + random.pick(&[0, 0, 1, 32]),
        }
    }
}

/// Runs a list from an image in both.
pub fn run_image(
    random: &mut Random,
    given: Given,
    image: &[u8],
    list: &[u8],
    room: Room,
) -> Written {
    let mut answers = vec![0; room.answers];
    let mut saved = vec![0; room.saved];
    let refusal = given.run_by_model(image, list, &mut answers, &mut saved);
    answers.truncate(if refusal == 0 { answers_size(list) } else { 0 });
    saved.truncate(if refusal == 0 { IMAGE_SIZE } else { 0 });

    let mut answer_buffer = Guarded::new(random, room.answers);
    let mut save_buffer = Guarded::new(random, room.saved);
    let result = given.run_by_library(image, list, answer_buffer.inside(), save_buffer.inside());
    assert_eq!(result, refusal, "refusal of a run from {image:02X?}");
    answer_buffer.assert_begins(&answers, "answers of a run from an image");
    save_buffer.assert_begins(&saved, "saved image");
    Written {
        refusal,
        answers,
        saved,
    }
}

/// Looks for a body in both; hands back how long it is.
pub fn find(bytes: &[u8]) -> usize {
    let body = model::find(bytes);
    let offset = body.as_ptr() as usize - bytes.as_ptr() as usize;
    assert_eq!(calugnid::find(bytes), offset, "body in {bytes:02X?}");
    body.len()
}

/// Moves an image of edition 1 to edition 2 in both; hands back what was written,
/// or the refusal number.
pub fn move_to_edition_2(random: &mut Random, image: &[u8], room: usize) -> Result<Vec<u8>, u8> {
    let by_library = calugnid::move_to_edition_2;
    move_by(random, image, room, model::move_to_edition_2, by_library)
        .map(|moved| moved[..IMAGE_SIZE].to_vec())
}

/// The way back.
pub fn move_to_edition_1(random: &mut Random, image: &[u8], room: usize) -> Result<Vec<u8>, u8> {
    let by_library = calugnid::move_to_edition_1;
    move_by(random, image, room, model::move_to_edition_1, by_library)
        .map(|moved| moved[..EDITION_1_SIZE].to_vec())
}

type Move = fn(&[u8], &mut [u8]) -> u8;

/// The model writes to what the library's space holds, so that both can be
/// compared to the end. The image is only read.
fn move_by(
    random: &mut Random,
    image: &[u8],
    room: usize,
    by_model: Move,
    by_library: Move,
) -> Result<Vec<u8>, u8> {
    let mut read = Guarded::holding(random, image);
    let mut buffer = Guarded::new(random, room);
    let mut moved = buffer.inside().to_vec();
    let refusal = by_model(image, &mut moved);
    let result = by_library(black_box(read.inside()), buffer.inside());
    assert_eq!(result, refusal, "refusal of a move of {image:02X?}");
    buffer.assert_begins(&moved, "moved image");
    black_box(&mut read).assert_as_it_was("image that is moved");
    if refusal == 0 {
        Ok(moved)
    } else {
        Err(refusal)
    }
}
