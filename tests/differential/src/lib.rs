//! Generators of events and images, and comparison of the library with the
//! model.

pub mod at_mode_coverage;
pub mod at_mode_scenes;
pub mod both;
pub mod compare;
#[cfg(test)]
mod counter_checks;
pub mod coverage;
pub mod event;
pub mod fenced;
pub mod few_keys;
pub mod given;
pub mod guarded;
pub mod image_tries;
pub mod images;
pub mod key_tables;
pub mod keys;
pub mod latch_writers;
pub mod lists;
pub mod mismatch_coverage;
pub mod mismatch_plan;
pub mod misreadings;
pub mod mouse_coverage;
pub mod noise_coverage;
pub mod noise_scenes;
pub mod noisy;
pub mod pair_mismatches;
pub mod pairs;
pub mod pending_code;
pub mod premise;
pub mod random;
pub mod refusals;
pub mod reloads;
pub mod rounds;
pub mod second_set_coverage;
pub mod second_set_scenes;
pub mod situations;
pub mod starts;
pub mod tally;
pub mod trackball;
pub mod trailers;
pub mod typist;
pub mod under_settings;
pub mod unguided;
pub mod walker;
pub mod walks;
