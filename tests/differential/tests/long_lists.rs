//! Lists longer than a whole call takes, on a small stack.

use differential::event::Event;
use differential::guarded::Guarded;
use differential::lists;
use differential::random::Random;
use differential::starts;
use differential::under_settings::seed;
use model::{ANSWER_SIZE, Controller, EVENT_SIZE, Settings, state_bytes};
use std::thread;

const EVENTS: usize = 1_000_000;
/// Less than a tenth of a byte an event.
const STACK: usize = 1 << 16;

/// What the model makes of as many events as the room has space for.
fn expected(state: &mut Controller, list: &[u8], room: usize) -> Vec<u8> {
    list.chunks_exact(EVENT_SIZE)
        .take(room / ANSWER_SIZE)
        .flat_map(|bytes| {
            let event = Event::from_bytes(bytes);
            state.event(event.kind, event.value)
        })
        .collect()
}

fn compare(random: &mut Random, settings: Settings, list: &[u8], room: usize) {
    let mut state = starts::fresh(settings);
    let mut model = Controller::fresh(settings);
    let mut answers = Guarded::new(random, room);
    let result = state.run_fitting(list, answers.inside());
    let (written, right) = if list.len() % EVENT_SIZE == 0 {
        let written = expected(&mut model, list, room);
        let events = written.len() / ANSWER_SIZE;
        (written, Ok(events))
    } else {
        (Vec::new(), Err(7))
    };
    assert_eq!(result, right, "events run, or the refusal");
    answers.assert_begins(&written, "answers");
    assert_eq!(state.bytes(), state_bytes(&model), "state after the list");
}

fn a_million_events(settings: Settings) {
    let run = move || {
        let mut random = Random::new(seed(settings, 81));
        let list = lists::unguided(&mut random, EVENTS);
        compare(&mut random, settings, &list, ANSWER_SIZE * EVENTS);
    };
    let thread = thread::Builder::new().stack_size(STACK).spawn(run);
    thread.expect("a thread").join().expect("equal answers");
}

/// Room for fewer, as many and more events, and bytes at the end that are no
/// event, which the call refuses.
fn lengths_and_room(settings: Settings) {
    let mut random = Random::new(seed(settings, 82));
    for events in [0, 1, 2, 3, 500, 501, 1_000, 7_000, 7_001] {
        let mut list = lists::unguided(&mut random, events);
        list.resize(list.len() + random.below(EVENT_SIZE), 0);
        for room in [0, 1, 2, 499, 500, 501, events] {
            for spare in [0, 8] {
                compare(&mut random, settings, &list, ANSWER_SIZE * room + spare);
            }
        }
    }
}

differential::under_every_setting!(a_million_events, lengths_and_room);
