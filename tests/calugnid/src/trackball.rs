//! A trackball whose state the caller keeps.

use crate::ffi;

pub const TRACKBALL_SIZE: usize = 6;
/// How many numbers are lent for frames, which are the most that a call writes.
pub const FRAMES: usize = 4;

pub type Frames = [u16; FRAMES];

/// The bytes that the library changes in place.
#[repr(transparent)]
pub struct Trackball([u8; TRACKBALL_SIZE]);

impl Trackball {
    /// A fresh trackball.
    pub fn fresh() -> Trackball {
        let mut trackball = Trackball::from_bytes([0; TRACKBALL_SIZE]);
        trackball.start();
        trackball
    }

    /// Any bytes.
    pub fn from_bytes(bytes: [u8; TRACKBALL_SIZE]) -> Trackball {
        Trackball(bytes)
    }

    pub fn bytes(&self) -> [u8; TRACKBALL_SIZE] {
        self.0
    }

    fn pointer(&mut self) -> *mut u8 {
        self.0.as_mut_ptr()
    }

    /// Makes a fresh trackball of whatever was there.
    pub fn start(&mut self) {
        // SAFETY: the pointer is to a whole trackball.
        unsafe { ffi::calugnid_trackball_start(self.pointer()) }
    }

    /// Sets the buttons and adds a step along each axis.
    pub fn move_by(&mut self, buttons: u8, x: i16, y: i16) {
        // SAFETY: the pointer is to a whole trackball.
        unsafe { ffi::calugnid_trackball_move(self.pointer(), buttons, x, y) }
    }

    /// Takes a byte from the host, writes the frames of what it gives, and hands
    /// back how many these are.
    pub fn send(&mut self, byte: u8, frames: &mut Frames) -> usize {
        // SAFETY: the pointers are to a whole trackball and to four numbers.
        unsafe { ffi::calugnid_trackball_send(self.pointer(), byte, frames.as_mut_ptr()) }
    }

    /// Writes the frames of a report and hands back how many these are.
    pub fn report(&mut self, frames: &mut Frames) -> usize {
        // SAFETY: the pointers are to a whole trackball and to four numbers.
        unsafe { ffi::calugnid_trackball_report(self.pointer(), frames.as_mut_ptr()) }
    }
}
