//! Safe calls into the static library under test.

mod ffi;
mod images;
mod state;
mod trackball;

pub use images::{find, move_to_edition_1, move_to_edition_2, run_image, run_image_with_table};
pub use state::{ANSWER_SIZE, Answer, STATE_SIZE, State};
pub use trackball::{FRAMES, Frames, TRACKBALL_SIZE, Trackball};

/// Options of a start: none of them, the mouse lock, AT mode, and the second
/// command set.
pub const ORDINARY: u8 = 0;
pub const MOUSE_LOCK: u8 = 0x01;
pub const AT_MODE: u8 = 0x02;
pub const SECOND_SET: u8 = 0x04;

/// What `judge` answers for a frame that is not sound.
pub const WRONG_PARITY: u16 = 256;
pub const BROKEN: u16 = 257;
pub const NOISE: u16 = 258;

/// The version of the library.
pub fn library_version() -> u32 {
    // SAFETY: nothing is passed.
    unsafe { ffi::calugnid_library_version() }
}

/// How many bytes a state has in the library.
pub fn state_bytes() -> usize {
    // SAFETY: nothing is passed.
    unsafe { ffi::calugnid_state_bytes() }
}

/// Runs a list from fresh and hands back the refusal number.
pub fn run(options: u8, version: u8, list: &[u8], answers: &mut [u8]) -> u8 {
    // SAFETY: each pointer comes with the length of its own slice.
    unsafe {
        ffi::calugnid_run(
            options,
            version,
            list.as_ptr(),
            list.len(),
            answers.as_mut_ptr(),
            answers.len(),
        )
    }
}

/// The same with a key table.
pub fn run_with_table(
    options: u8,
    version: u8,
    table: &[u8],
    list: &[u8],
    answers: &mut [u8],
) -> u8 {
    // SAFETY: each pointer comes with the length of its own slice.
    unsafe {
        ffi::calugnid_run_with_table(
            options,
            version,
            table.as_ptr(),
            table.len(),
            list.as_ptr(),
            list.len(),
            answers.as_mut_ptr(),
            answers.len(),
        )
    }
}

/// The number that would refuse a key table, 0 for none.
pub fn table_refusal(table: &[u8]) -> u8 {
    // SAFETY: the pointer comes with the length of its slice.
    unsafe { ffi::calugnid_table_refusal(table.as_ptr(), table.len()) }
}

/// The byte of a sound frame, `WRONG_PARITY`, `BROKEN` or `NOISE`.
pub fn judge(frame: u16) -> u16 {
    // SAFETY: only a number is passed.
    unsafe { ffi::calugnid_judge(frame) }
}

/// The frame that carries a byte.
pub fn frame(byte: u8) -> u16 {
    // SAFETY: only a number is passed.
    unsafe { ffi::calugnid_frame(byte) }
}

/// By the built-in key table: what a byte yields in bits 0-7, whether it yields at all in bit 8, and the
/// break flag afterwards in bit 9.
pub fn translate(byte: u8, break_flag: bool) -> u16 {
    // SAFETY: only a number and a truth value are passed.
    unsafe { ffi::calugnid_translate(byte, break_flag) }
}
