//! Starts and runs from fresh in the library, with the model's settings. A table
//! that is not the built-in one is for the calls that take one.

use calugnid::{STATE_SIZE, State};
use model::{KeyTable, Settings};

/// Makes a fresh controller of whatever was there.
pub fn start(state: &mut State, settings: Settings) {
    let (options, version) = (settings.options(), settings.version);
    if settings.table == KeyTable::BUILT_IN {
        state.start(options, version);
    } else {
        let refusal = state.start_with_table(options, version, &settings.table.0);
        assert_eq!(refusal, 0, "refusal of a sound table");
    }
}

/// A fresh controller.
pub fn fresh(settings: Settings) -> State {
    let mut state = State::from_bytes([0; STATE_SIZE]);
    start(&mut state, settings);
    state
}

/// Runs a list from fresh and hands back the refusal number.
pub fn run(settings: Settings, list: &[u8], answers: &mut [u8]) -> u8 {
    let (options, version) = (settings.options(), settings.version);
    if settings.table == KeyTable::BUILT_IN {
        calugnid::run(options, version, list, answers)
    } else {
        calugnid::run_with_table(options, version, &settings.table.0, list, answers)
    }
}
