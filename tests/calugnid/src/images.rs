//! Calls on saved images that need no state.

use crate::ffi;

/// Loads an image, runs a list, saves, and hands back the refusal number.
pub fn run_image(
    version: u8,
    image: &[u8],
    list: &[u8],
    answers: &mut [u8],
    saved: &mut [u8],
) -> u8 {
    // SAFETY: each pointer comes with the length of its own slice, and the
    // slices cannot overlap where one is written.
    unsafe {
        ffi::calugnid_run_image(
            version,
            image.as_ptr(),
            image.len(),
            list.as_ptr(),
            list.len(),
            answers.as_mut_ptr(),
            answers.len(),
            saved.as_mut_ptr(),
            saved.len(),
        )
    }
}

/// The same with a key table.
pub fn run_image_with_table(
    version: u8,
    table: &[u8],
    image: &[u8],
    list: &[u8],
    answers: &mut [u8],
    saved: &mut [u8],
) -> u8 {
    // SAFETY: as for `run_image`.
    unsafe {
        ffi::calugnid_run_image_with_table(
            version,
            table.as_ptr(),
            table.len(),
            image.as_ptr(),
            image.len(),
            list.as_ptr(),
            list.len(),
            answers.as_mut_ptr(),
            answers.len(),
            saved.as_mut_ptr(),
            saved.len(),
        )
    }
}

/// Writes an image of edition 1 as one of edition 2 and hands back the refusal
/// number.
pub fn move_to_edition_2(image: &[u8], moved: &mut [u8]) -> u8 {
    // SAFETY: as for `run_image`.
    unsafe {
        ffi::calugnid_move_to_edition_2(
            image.as_ptr(),
            image.len(),
            moved.as_mut_ptr(),
            moved.len(),
        )
    }
}

/// The way back.
pub fn move_to_edition_1(image: &[u8], moved: &mut [u8]) -> u8 {
    // SAFETY: as for `run_image`.
    unsafe {
        ffi::calugnid_move_to_edition_1(
            image.as_ptr(),
            image.len(),
            moved.as_mut_ptr(),
            moved.len(),
        )
    }
}

/// The offset of the image's body, or the length of `image` without one.
pub fn find(image: &[u8]) -> usize {
    // SAFETY: the pointer comes with the length of its slice.
    unsafe { ffi::calugnid_find(image.as_ptr(), image.len()) }
}
