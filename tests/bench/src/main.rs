//! Runs one case of the benchmark in the library and in the model.
//!
//! `bench CASE` prints the number of events run by each of the two, for a
//! profiler around it to divide by. `bench events` does so with one call an
//! event, and `bench dearest` with one event on copies of one state; `bench judge`, `bench judge-all` and `bench frame` print the number
//! of calls to judge a frame or to frame a byte, and `bench trackball` the number
//! of moves with their reports. `bench stack WHO` makes a single run. Runs are
//! under the ordinary settings.

mod cases;
mod measured;
mod trackball;

use calugnid::State;
use cases::Case;
use model::{Controller, Settings};
use std::process::ExitCode;

/// Events run in all, so that a list of one is repeated the most.
const TOTAL_EVENTS: usize = 28_000;

/// Frames judged or bytes framed in all: each of 2,048 numbers as often as the
/// others.
const CALLS: usize = 14 * FRAMES as usize;

/// How many numbers have eleven bits.
const FRAMES: u16 = 2048;

/// How often one event is repeated on a copy of its state.
const LAST_CALLS: usize = 1_000;

fn profile(case: &Case) {
    case.check();
    let events = case.list.len() / 3;
    let repeats = TOTAL_EVENTS / events;
    let mut by_library = vec![0; events * 9];
    let mut by_model = by_library.clone();
    for _ in 0..repeats {
        assert_eq!(measured::measured_library(&case.list, &mut by_library), 0);
        assert_eq!(measured::measured_model(&case.list, &mut by_model), 0);
    }
    assert!(by_library == by_model, "answers differ");
    println!("{}", repeats * events);
}

/// The events of a case one by one, each on the state that the last one left.
fn profile_events(case: &Case) {
    case.check();
    let (mut by_library, mut by_model) = ([0; 9], [0; 9]);
    let mut state = State::fresh(calugnid::ORDINARY, 0);
    let mut model = Controller::fresh(Settings::ORDINARY);
    for event in case.list.chunks_exact(3) {
        let (kind, value) = (event[0], u16::from_le_bytes([event[1], event[2]]));
        measured::measured_library_event(&mut state, kind, value, &mut by_library);
        measured::measured_model_event(&mut model, kind, value, &mut by_model);
        assert_eq!(by_library, by_model, "answers differ");
    }
    println!("{}", case.list.len() / 3);
}

/// The last event of a case, again and again on the state before it.
fn profile_last(case: &Case) {
    case.check();
    let (before, last) = case.list.split_at(case.list.len() - 3);
    let (kind, value) = (last[0], u16::from_le_bytes([last[1], last[2]]));
    let (mut by_library, mut by_model) = ([0; 9], [0; 9]);
    let mut state = State::fresh(calugnid::ORDINARY, 0);
    let mut model = Controller::fresh(Settings::ORDINARY);
    for event in before.chunks_exact(3) {
        let value = u16::from_le_bytes([event[1], event[2]]);
        state.event(event[0], value, &mut by_library);
        model.event(event[0], value);
    }
    for _ in 0..LAST_CALLS {
        let (mut state, mut model) = (State::from_bytes(state.bytes()), model.clone());
        measured::measured_library_event(&mut state, kind, value, &mut by_library);
        measured::measured_model_event(&mut model, kind, value, &mut by_model);
        assert_eq!(by_library, by_model, "answers differ");
    }
    println!("{LAST_CALLS}");
}

/// Frames judged: those of every byte, or all numbers of eleven bits.
fn profile_judging(frames: &[u16]) {
    for &frame in frames.iter().cycle().take(CALLS) {
        let by_library = calugnid::judge(frame);
        assert_eq!(by_library, measured::measured_model_judge(frame));
    }
    println!("{CALLS}");
}

/// Every byte framed.
fn profile_framing() {
    for byte in (0..=u8::MAX).cycle().take(CALLS) {
        let by_library = calugnid::frame(byte);
        assert_eq!(by_library, measured::measured_model_frame(byte));
    }
    println!("{CALLS}");
}

/// One full list on the main thread, whose stack the caller has limited.
fn use_stack(who: &str) {
    let list = cases::mix(7_000).list;
    let mut answers = vec![0; list.len() * 3];
    let refusal = match who {
        "library" => measured::measured_library(&list, &mut answers),
        "model" => measured::measured_model(&list, &mut answers),
        _ => 0,
    };
    assert_eq!(refusal, 0);
}

fn main() -> ExitCode {
    let arguments: Vec<String> = std::env::args().skip(1).collect();
    let words: Vec<&str> = arguments.iter().map(String::as_str).collect();
    match words[..] {
        ["stack", who] => use_stack(who),
        ["events"] => profile_events(&cases::mix(7_000)),
        ["dearest"] => profile_last(&cases::dearest()),
        ["judge"] => profile_judging(&(0..=u8::MAX).map(model::frame).collect::<Vec<_>>()),
        ["judge-all"] => profile_judging(&(0..FRAMES).collect::<Vec<_>>()),
        ["frame"] => profile_framing(),
        ["trackball"] => trackball::profile(),
        [name] => match cases::by_name(name) {
            Some(case) => profile(&case),
            None => return ExitCode::FAILURE,
        },
        _ => return ExitCode::FAILURE,
    }
    ExitCode::SUCCESS
}
