//! A state that the caller keeps: events one at a time, lists, saves, loads.

use differential::both::Both;
use differential::coverage::Coverage;
use differential::event::{Event, kind};
use differential::given::Given;
use differential::images;
use differential::lists;
use differential::random::Random;
use differential::refusals::{self, Refusals};
use differential::rounds::rounds;
use differential::under_settings::{locks, seed, thinned};
use differential::walks::walk;
use model::{
    BODY_SIZE, Controller, Device, EVENT_SIZE, IMAGE_SIZE, Pending, Settings, TABLE_PLACE, mode,
};

const WALKED_EVENTS: usize = 600_000;
const DRAWN_STATES: usize = 3_000;
const LISTS: usize = 200;

fn walks_from_fresh(settings: Settings) {
    let mut coverage = Coverage::new();
    let mut random = Random::new(seed(settings, 61));
    let mut number = seed(settings, 200_000);
    while coverage.events < WALKED_EVENTS * rounds() {
        let length = lists::choose_length(&mut random);
        let mut both = Both::started(&mut random, settings);
        both.look(&mut random);
        walk(&mut both, number, length, &mut coverage);
        number += 1;
    }
    coverage.assert_reached(settings);
}

/// States that no events from fresh may reach, but that keep the body rules.
fn walks_from_drawn_states(settings: Settings) {
    let mut coverage = Coverage::new();
    let mut random = Random::new(seed(settings, 62));
    for number in 0..(DRAWN_STATES * rounds()) as u64 {
        let state = images::state(&mut random, settings);
        let mut both = Both::of(&mut random, &state);
        both.look(&mut random);
        let length = random.below(40);
        walk(
            &mut both,
            seed(settings, 300_000 + number),
            length,
            &mut coverage,
        );
    }
    assert!(coverage.opens > 200);
    assert!(!locks(settings) || coverage.locks > 200);
}

/// Fresh, a full buffer, the key switch turned with its inhibit overridden or
/// not, sending to each device, both devices on, locked.
fn standing_states(random: &mut Random, settings: Settings) -> Vec<Controller> {
    let mut on = Controller::fresh(settings);
    on.clear_mode(mode::KEYBOARD_OFF | mode::MOUSE_OFF);
    let mut full = on.clone();
    full.put(0x1E, Device::Mouse);
    let mut turned = on.clone();
    turned.pins = 0x7F;
    let mut overridden = turned.clone();
    overridden.set_mode(mode::INHIBIT_OVERRIDE);
    let mut states = vec![Controller::fresh(settings), full, turned, overridden];
    for device in [Device::Keyboard, Device::Mouse] {
        let mut sending = on.clone();
        sending.sending = Some((device, 0xED));
        states.push(sending);
    }
    let mut locked = on.clone();
    locked.password.push(0x1E);
    locked.locked = true;
    states.extend([on, locked]);
    states.extend((0..2).map(|_| images::state(random, settings)));
    states
}

fn every_event_in_some_states(settings: Settings) {
    let mut random = Random::new(seed(settings, 63));
    let mut refusals = Refusals::default();
    for state in standing_states(&mut random, settings) {
        for kind in 0..=10 {
            for value in 0..0x880 {
                let mut both = Both::of(&mut random, &state);
                let answer = both.event(&mut random, Event::new(kind, value));
                refusals.note(answer[0]);
            }
        }
    }
    println!("{refusals:?}");
    assert!(refusals.least(refusals::in_any_state(settings)) > 0);
}

/// Every kind near the ones that there are, with every value.
fn every_event_asked_about(settings: Settings) {
    let mut random = Random::new(seed(settings, 64));
    let mut refusals = Refusals::default();
    for state in standing_states(&mut random, settings) {
        let both = Both::of(&mut random, &state);
        for kind in (0..=10).chain([16, 128, 255]) {
            for value in thinned(settings, 0..=u16::MAX) {
                refusals.note(both.refusal(Event::new(kind, value)));
            }
        }
    }
    println!("{refusals:?}");
    assert!(refusals.least(refusals::in_any_state(settings)) > 0);
}

/// One list on one state, in pieces that are lists and single events in turn.
fn run_in_pieces(both: &mut Both, random: &mut Random, list: &[u8]) {
    let mut rest = list;
    while !rest.is_empty() {
        let events = random.below(100).min(rest.len() / EVENT_SIZE);
        let (piece, later) = rest.split_at(events * EVENT_SIZE);
        let room = piece.len() * 3 + random.pick(&[0, 0, 1, 8, 9, 30]);
        assert_eq!(both.run(random, piece, room), 0);
        rest = later;
        if let Some((event, later)) = rest.split_at_checked(EVENT_SIZE) {
            both.event(random, Event::from_bytes(event));
            rest = later;
        }
    }
}

fn lists_go_on_from_the_state(settings: Settings) {
    let mut random = Random::new(seed(settings, 65));
    let mut coverage = Coverage::new();
    for number in 0..(LISTS * rounds()) as u64 {
        let start = match number % 2 {
            0 => Controller::fresh(settings),
            _ => images::state(&mut random, settings),
        };
        let mut both = Both::of(&mut random, &start);
        let mut end = start;
        let seed = seed(settings, 400_000 + number);
        let list = lists::guided_from(&mut end, seed, 1_000, &mut coverage);
        run_in_pieces(&mut both, &mut random, &list);
        assert_eq!(both.model, end);
    }
    // Where no events lock a lock is drawn shut, in every third list or so, and
    // opens once.
    if locks(settings) {
        assert!(coverage.locks > 200 && coverage.opens > 200);
    } else {
        assert!(coverage.opens > 25, "{}", coverage.opens);
    }
}

fn refused_lists_leave_the_state(settings: Settings) {
    let mut random = Random::new(seed(settings, 66));
    for length in (0..=13).chain([20_997, 20_999, 21_000, 21_001, 21_003, 65_536, 65_538]) {
        let state = images::state(&mut random, settings);
        let list = lists::unguided(&mut random, length / EVENT_SIZE + 1);
        let exact = length / EVENT_SIZE * 9;
        for room in [0, exact.saturating_sub(1), exact, exact + 9] {
            let mut both = Both::of(&mut random, &state);
            let refusal = both.run(&mut random, &list[..length], room);
            let expected = match (length % EVENT_SIZE != 0 || length > 21_000, room < exact) {
                (true, _) => 7,
                (false, true) => 8,
                (false, false) => 0,
            };
            assert_eq!(refusal, expected, "{length} bytes, room for {room}");
        }
    }
}

fn what_is_saved_begins_with_the_body_and_is_loaded_again(settings: Settings) {
    let mut random = Random::new(seed(settings, 67));
    for _ in 0..DRAWN_STATES * rounds() {
        let state = images::state(&mut random, settings);
        let both = Both::of(&mut random, &state);
        let room = IMAGE_SIZE + random.pick(&[0, 0, 1, 32]);
        let saved = both.save(&mut random, room);
        assert_eq!(saved[..BODY_SIZE], both.bytes()[..BODY_SIZE]);
        let mut other = Both::started(&mut random, settings);
        assert_eq!(other.load(Given::again(&settings), &saved), 0);
        assert_eq!(other.bytes(), both.bytes());
    }
}

fn saves_of_every_size(settings: Settings) {
    let mut random = Random::new(seed(settings, 68));
    for room in (0..=100).chain([255, 256, 1_000]) {
        let state = images::state(&mut random, settings);
        let both = Both::of(&mut random, &state);
        let written = both.save(&mut random, room).len();
        assert_eq!(written, if room < IMAGE_SIZE { 0 } else { IMAGE_SIZE });
    }
}

/// Bytes that stand nowhere else in a fresh controller.
const CODE: [u8; 16] = [
    0x81, 0x82, 0x83, 0x84, 0x85, 0x86, 0x87, 0x88, 0x89, 0x8A, 0x8B, 0x8C, 0x8D, 0x8E, 0x8F, 0x91,
];

/// A controller that is ready to load a code. In AT mode and with the second set
/// no event makes one.
fn before_load(random: &mut Random, settings: Settings) -> Both {
    if !locks(settings) {
        let mut state = Controller::fresh(settings);
        state.pending = Pending::Password;
        return Both::of(random, &state);
    }
    let mut both = Both::started(random, settings);
    both.event(random, Event::command(0xA5));
    both
}

/// A controller with the first bytes of the code loaded, the load ended or not.
fn with_code(random: &mut Random, settings: Settings, length: usize, ended: bool) -> Both {
    let mut both = before_load(random, settings);
    for &byte in &CODE[..length] {
        both.event(random, Event::data(byte));
    }
    if ended {
        both.event(random, Event::data(0));
    }
    assert_eq!(both.bytes()[12..12 + length], CODE[..length]);
    both
}

fn assert_no_code(both: &Both, how: &str) {
    let bytes = both.bytes();
    assert_eq!(bytes[10..28], [0; 18], "{how}");
    // The key table behind holds every byte that the code does.
    let kept = &bytes[..TABLE_PLACE];
    assert!(kept.iter().all(|byte| !CODE.contains(byte)), "{how}");
}

/// A code that is whole is dropped by A5h.
fn assert_new_loads_drop(random: &mut Random, settings: Settings, length: usize) {
    let mut both = with_code(random, settings, length, true);
    both.event(random, Event::command(0xA5));
    assert_no_code(&both, "a new load");
    let mut both = with_code(random, settings, length, true);
    let list = [kind::WRITE_COMMAND, 0xA5, 0];
    assert_eq!(both.run(random, &list, 9), 0);
    assert_no_code(&both, "a new load in a list");
}

/// In AT mode and with the second set A5h is an unknown command, which cuts a
/// load short and leaves a code that is whole.
fn a_whole_code_is_left_by_what_does_not_load(settings: Settings) {
    let mut random = Random::new(seed(settings, 70));
    let drops = |command| locks(settings) && command == 0xA5;
    for length in 1..=16 {
        for command in (0..=0xFF).filter(|&command| !drops(command)) {
            let mut both = with_code(&mut random, settings, length, true);
            both.event(&mut random, Event::command(command));
            assert_eq!(both.bytes()[12..12 + length], CODE[..length]);
        }
    }
}

fn a_dropped_code_leaves_zeros(settings: Settings) {
    let mut random = Random::new(seed(settings, 69));
    for length in 1..=16 {
        if locks(settings) {
            assert_new_loads_drop(&mut random, settings, length);
        }
        for command in [0x00, 0x20, 0xA4, 0xA5, 0xA6, 0xAA, 0xFF] {
            let mut both = with_code(&mut random, settings, length, false);
            both.event(&mut random, Event::command(command));
            assert_no_code(&both, "a load cut short");
        }
        let mut both = with_code(&mut random, settings, length, true);
        let fresh = model::save(&Controller::fresh(settings));
        assert_eq!(both.load(Given::again(&settings), &fresh), 0);
        assert_no_code(&both, "another state loaded");
    }
    let mut both = with_code(&mut random, settings, 16, false);
    both.event(&mut random, Event::data(0x92));
    assert_no_code(&both, "a seventeenth byte");
}

differential::under_every_setting!(
    walks_from_fresh,
    walks_from_drawn_states,
    every_event_in_some_states,
    every_event_asked_about,
    lists_go_on_from_the_state,
    refused_lists_leave_the_state,
    what_is_saved_begins_with_the_body_and_is_loaded_again,
    saves_of_every_size,
    a_whole_code_is_left_by_what_does_not_load,
    a_dropped_code_leaves_zeros,
);
