//! A run between two saved images.

use crate::controller::Controller;
use crate::image::{IMAGE_SIZE, load, load_with_table, store};
use crate::list::list_refusal;

/// Loads an image, runs a list and saves. Nothing is written when refused.
pub fn run_image(
    version: u8,
    image: &[u8],
    list: &[u8],
    answers: &mut [u8],
    saved: &mut [u8],
) -> u8 {
    run_loaded(|| load(version, image), list, answers, saved)
}

/// The same with a table, which is looked at after all else.
pub fn run_image_with_table(
    version: u8,
    table: &[u8],
    image: &[u8],
    list: &[u8],
    answers: &mut [u8],
    saved: &mut [u8],
) -> u8 {
    let load = || load_with_table(version, table, image);
    run_loaded(load, list, answers, saved)
}

/// The list and the space are looked at before the image is.
fn run_loaded(
    load: impl FnOnce() -> Result<Controller, u8>,
    list: &[u8],
    answers: &mut [u8],
    saved: &mut [u8],
) -> u8 {
    let refusal = list_refusal(list.len(), answers.len());
    if refusal != 0 {
        return refusal;
    }
    if saved.len() < IMAGE_SIZE {
        return 9;
    }
    match load() {
        Err(refusal) => refusal,
        Ok(mut state) => {
            state.run_checked(list, answers);
            store(&state, saved)
        }
    }
}
