//! The calls that the profiler looks for by name.
//!
//! Each that calls the library does something after its inner call, so that
//! none becomes a jump and the cost of the callee stays inside. Judging and
//! framing in the library are looked for by their C names, so only the model
//! has functions for them here.

use calugnid::{Answer, Frames, State};
use model::{Controller, Settings, Verdict};
use std::hint::black_box;

#[inline(never)]
#[unsafe(no_mangle)]
pub fn measured_library(list: &[u8], answers: &mut [u8]) -> u8 {
    black_box(calugnid::run(calugnid::ORDINARY, 0, list, answers))
}

#[inline(never)]
#[unsafe(no_mangle)]
pub fn measured_model(list: &[u8], answers: &mut [u8]) -> u8 {
    black_box(model::run(Settings::ORDINARY, list, answers))
}

#[inline(never)]
#[unsafe(no_mangle)]
pub fn measured_library_event(state: &mut State, kind: u8, value: u16, answer: &mut Answer) {
    state.event(kind, value, answer);
    black_box(());
}

#[inline(never)]
#[unsafe(no_mangle)]
pub fn measured_model_event(state: &mut Controller, kind: u8, value: u16, answer: &mut Answer) {
    *answer = state.event(kind, value);
    black_box(());
}

/// The verdict as the number that the library gives.
#[inline(never)]
#[unsafe(no_mangle)]
pub fn measured_model_judge(frame: u16) -> u16 {
    match model::judge(frame) {
        Verdict::Sound(byte) => u16::from(byte),
        Verdict::WrongParity => calugnid::WRONG_PARITY,
        Verdict::Broken => calugnid::BROKEN,
        Verdict::Noise => calugnid::NOISE,
    }
}

#[inline(never)]
#[unsafe(no_mangle)]
pub fn measured_model_frame(byte: u8) -> u16 {
    model::frame(byte)
}

/// A move and its report.
#[inline(never)]
#[unsafe(no_mangle)]
pub fn measured_library_trackball(
    trackball: &mut calugnid::Trackball,
    (buttons, x, y): (u8, i16, i16),
    frames: &mut Frames,
) -> usize {
    trackball.move_by(buttons, x, y);
    black_box(trackball.report(frames))
}

#[inline(never)]
#[unsafe(no_mangle)]
pub fn measured_model_trackball(
    trackball: &mut model::Trackball,
    (buttons, x, y): (u8, i16, i16),
    frames: &mut Frames,
) -> usize {
    trackball.move_by(buttons, x, y);
    black_box(trackball.report().write_frames(frames))
}
