//! Moves of a trackball that reports, each with its report.

use crate::measured;
use calugnid::FRAMES;

/// Moves in all, each of those below as often as the others.
const MOVES: usize = 7_000;

/// Buttons and steps: none, small ones, to the ends and past them.
const CYCLE: [(u8, i16, i16); 7] = [
    (0, 0, 0),
    (1, 3, -2),
    (1, -40, 75),
    (0, 255, -256),
    (2, -256, 255),
    (4, 256, -257),
    (0, i16::MIN, i16::MAX),
];

/// A host has enabled reporting.
fn enabled() -> (calugnid::Trackball, model::Trackball) {
    const ENABLE: u8 = 0xF4;
    let mut by_library = calugnid::Trackball::fresh();
    let mut by_model = model::Trackball::FRESH;
    assert_eq!(by_library.send(ENABLE, &mut [0; FRAMES]), 1);
    assert_eq!(by_model.send(ENABLE).bytes().len(), 1);
    (by_library, by_model)
}

pub fn profile() {
    let (mut library, mut model) = enabled();
    let (mut by_library, mut by_model) = ([0; FRAMES], [0; FRAMES]);
    for &step in CYCLE.iter().cycle().take(MOVES) {
        let given = measured::measured_library_trackball(&mut library, step, &mut by_library);
        let expected = measured::measured_model_trackball(&mut model, step, &mut by_model);
        assert_eq!((given, expected), (3, 3), "a packet");
        assert_eq!(by_library, by_model, "frames differ");
    }
    println!("{MOVES}");
}
