//! A controller whose state the caller keeps.

use crate::ffi;
use std::cell::UnsafeCell;

pub const STATE_SIZE: usize = 321;
pub const ANSWER_SIZE: usize = 9;

pub type Answer = [u8; ANSWER_SIZE];

/// The bytes that the library changes in place: an image's body, the version
/// byte, and the key table.
///
/// They stand in a cell, so that a call which writes where it is only to read
/// is seen by whoever looks at the bytes afterwards.
#[repr(transparent)]
pub struct State(UnsafeCell<[u8; STATE_SIZE]>);

impl State {
    /// A fresh controller.
    pub fn fresh(options: u8, version: u8) -> State {
        let mut state = State::from_bytes([0; STATE_SIZE]);
        state.start(options, version);
        state
    }

    /// Any bytes. Only `start` and `load` make a controller of them.
    pub fn from_bytes(bytes: [u8; STATE_SIZE]) -> State {
        State(UnsafeCell::new(bytes))
    }

    pub fn bytes(&self) -> [u8; STATE_SIZE] {
        // SAFETY: no reference to the bytes lives on past a call.
        unsafe { *self.0.get() }
    }

    fn pointer(&self) -> *mut u8 {
        self.0.get().cast()
    }

    /// Makes a fresh controller of whatever was there.
    pub fn start(&mut self, options: u8, version: u8) {
        // SAFETY: the pointer is to a whole state.
        unsafe { ffi::calugnid_start(self.pointer(), options, version) }
    }

    /// The same with a key table; hands back the refusal number.
    pub fn start_with_table(&mut self, options: u8, version: u8, table: &[u8]) -> u8 {
        // SAFETY: the first pointer is to a whole state, the other comes with
        // the length of its slice.
        unsafe {
            ffi::calugnid_start_with_table(
                self.pointer(),
                options,
                version,
                table.as_ptr(),
                table.len(),
            )
        }
    }

    /// Carries out one event and writes its answer.
    pub fn event(&mut self, kind: u8, value: u16, answer: &mut Answer) {
        // SAFETY: the pointers are to a whole state and to nine bytes.
        unsafe { ffi::calugnid_event(self.pointer(), kind, value, answer.as_mut_ptr()) }
    }

    /// Runs a list and hands back the refusal number.
    pub fn run(&mut self, list: &[u8], answers: &mut [u8]) -> u8 {
        // SAFETY: the first pointer is to a whole state, the others come with
        // the lengths of their own slices.
        unsafe {
            ffi::calugnid_run_state(
                self.pointer(),
                list.as_ptr(),
                list.len(),
                answers.as_mut_ptr(),
                answers.len(),
            )
        }
    }

    /// Runs a list of any length as far as the answers have room, and hands
    /// back how many events that were, or the refusal number.
    pub fn run_fitting(&mut self, list: &[u8], answers: &mut [u8]) -> Result<usize, u8> {
        let mut count = usize::MAX;
        // SAFETY: as for `run`; the last pointer is to a number.
        let refusal = unsafe {
            ffi::calugnid_run_fitting(
                self.pointer(),
                list.as_ptr(),
                list.len(),
                answers.as_mut_ptr(),
                answers.len(),
                &mut count,
            )
        };
        if refusal == 0 {
            return Ok(count);
        }
        assert_eq!(count, usize::MAX, "a refused call leaves the count");
        Err(refusal)
    }

    /// Saves to the front of a buffer and hands back the refusal number.
    pub fn save(&self, saved: &mut [u8]) -> u8 {
        // SAFETY: the first pointer is to a whole state, the other comes with
        // the length of its slice.
        unsafe { ffi::calugnid_save(self.pointer(), saved.as_mut_ptr(), saved.len()) }
    }

    /// Loads the image at the end of the bytes and hands back the refusal
    /// number.
    pub fn load(&mut self, version: u8, image: &[u8]) -> u8 {
        // SAFETY: as for `save`.
        unsafe { ffi::calugnid_load(self.pointer(), version, image.as_ptr(), image.len()) }
    }

    /// The same with a key table.
    pub fn load_with_table(&mut self, version: u8, table: &[u8], image: &[u8]) -> u8 {
        // SAFETY: the first pointer is to a whole state, the others come with
        // the lengths of their own slices.
        unsafe {
            ffi::calugnid_load_with_table(
                self.pointer(),
                version,
                table.as_ptr(),
                table.len(),
                image.as_ptr(),
                image.len(),
            )
        }
    }

    /// Writes the answer that stands with no event.
    pub fn lines(&self, answer: &mut Answer) {
        // SAFETY: the pointers are to a whole state and to nine bytes.
        unsafe { ffi::calugnid_lines(self.pointer(), answer.as_mut_ptr()) }
    }

    /// The number that would refuse an event now, 0 for none.
    pub fn refusal(&self, kind: u8, value: u16) -> u8 {
        // SAFETY: the pointer is to a whole state.
        unsafe { ffi::calugnid_refusal(self.pointer(), kind, value) }
    }

    /// The byte being sent, 0 with nobody.
    pub fn sent_byte(&self) -> u8 {
        // SAFETY: the pointer is to a whole state.
        unsafe { ffi::calugnid_sent_byte(self.pointer()) }
    }

    /// What a host reads at port 64h.
    pub fn status(&self) -> u8 {
        // SAFETY: the pointer is to a whole state.
        unsafe { ffi::calugnid_status(self.pointer()) }
    }

    /// Whether an event of this kind would be accepted now.
    pub fn ready(&self, kind: u8) -> bool {
        // SAFETY: the pointer is to a whole state.
        unsafe { ffi::calugnid_ready(self.pointer(), kind) }
    }

    pub fn locked(&self) -> bool {
        // SAFETY: the pointer is to a whole state.
        unsafe { ffi::calugnid_locked(self.pointer()) }
    }

    /// The options of the start that are looked at.
    pub fn options(&self) -> u8 {
        // SAFETY: the pointer is to a whole state.
        unsafe { ffi::calugnid_options(self.pointer()) }
    }

    /// The version byte of the start.
    pub fn version_byte(&self) -> u8 {
        // SAFETY: the pointer is to a whole state.
        unsafe { ffi::calugnid_version_byte(self.pointer()) }
    }
}
