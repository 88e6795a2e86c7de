//! Lists that differ in secrets only are answered alike.

use calugnid::State;
use differential::event::Event;
use differential::few_keys;
use differential::images;
use differential::key_tables;
use differential::keys;
use differential::pairs::{self, Pair, PairCoverage};
use differential::premise::{comparable, comparable_from};
use differential::random::Random;
use differential::rounds::rounds;
use differential::starts;
use differential::under_settings::{MOUSE_LOCK, ORDINARY, locks, seed};
use model::{Controller, EVENT_SIZE, Settings, mode, state_bytes};

const PAIRS: usize = 4_000;
/// In AT mode and with the second set no code can be loaded from fresh, so the
/// lists of a pair are the same there and need no more than this.
const EQUAL_PAIRS: usize = 250;
const DRAWN_STATES: usize = 1_500;
const PAIRS_WITH_MISMATCHES: usize = 1_500;
const PAIRS_WITH_TABLES: usize = 1_500;

/// Runs both lists from fresh in buffers that begin alike and compares all of
/// them.
fn assert_alike(random: &mut Random, settings: Settings, pair: &Pair, room: usize) -> u8 {
    let run = |list: &[u8], answers: &mut [u8]| starts::run(settings, list, answers);
    assert_alike_by(run, random, pair, room)
}

/// The same by a call that runs a list from wherever it starts.
fn assert_alike_by(
    run: impl Fn(&[u8], &mut [u8]) -> u8,
    random: &mut Random,
    pair: &Pair,
    room: usize,
) -> u8 {
    let blank = random.bytes(room);
    let (mut first, mut second) = (blank.clone(), blank);
    let refusal = run(&pair.first, &mut first);
    let other = run(&pair.second, &mut second);
    assert_eq!(refusal, other, "refusals");
    let apart = first
        .iter()
        .zip(&second)
        .position(|(one, other)| one != other);
    if let Some(at) = apart {
        let place = at / 9;
        panic!(
            "answers differ at place {place}: {:02X?} and {:02X?} for {:02X?} and {:02X?}",
            &first[place * 9..place * 9 + 9],
            &second[place * 9..place * 9 + 9],
            &pair.first[place * 3..place * 3 + 3],
            &pair.second[place * 3..place * 3 + 3],
        );
    }
    refusal
}

/// Without these the comparison would say little.
fn assert_reached(coverage: &PairCoverage) {
    assert_shares(
        coverage,
        &[
            (coverage.locked_apart, 70, "locked with different codes"),
            (coverage.progressed_apart, 50, "right in one list only"),
            (coverage.wrong_apart, 50, "different wrong keys"),
            (coverage.opened_apart, 50, "opened with different codes"),
            (coverage.reopened_apart, 30, "opened so more than once"),
            (coverage.refused_apart, 25, "different keys refused"),
            (coverage.key_turned, 40, "mouse frames with the key turned"),
            (coverage.noise_within, 40, "noise within different codes"),
            (coverage.noise_progressed_apart, 20, "noise with one ahead"),
            (coverage.opened_over_noise, 25, "opened with noise between"),
        ],
    );
}

/// Counts with the share of the pairs, in percent, that each must have.
fn assert_shares(coverage: &PairCoverage, wanted: &[(usize, usize, &str)]) {
    println!("{coverage:?}");
    for (count, percent, what) in wanted {
        let share = count * 100 / coverage.pairs;
        assert!(
            share >= *percent,
            "{what}: {share} percent of the pairs, {percent} wanted"
        );
    }
}

fn pairs_are_answered_alike(settings: Settings) {
    let mut random = Random::new(seed(settings, 51));
    let mut coverage = PairCoverage::default();
    let pairs = if locks(settings) { PAIRS } else { EQUAL_PAIRS };
    for number in 0..(pairs * rounds()) as u64 {
        let seed = seed(settings, 700_000 + number);
        let pair = assert_pair_alike(&mut random, settings, seed, &mut coverage);
        assert!(locks(settings) || pair.first == pair.second);
    }
    if locks(settings) {
        assert_reached(&coverage);
    }
}

/// Builds a pair and compares the answers to both of its lists.
fn assert_pair_alike(
    random: &mut Random,
    settings: Settings,
    seed: u64,
    coverage: &mut PairCoverage,
) -> Pair {
    let length = random.pick(&[100, 300, 300, 1_000, 3_000]);
    let pair = pairs::build(settings, seed, length, coverage);
    let comparable = comparable(settings, &pair.first, &pair.second);
    assert!(comparable, "pair {seed}");
    let room = pair.first.len() * 3 + random.below(20);
    assert_eq!(assert_alike(random, settings, &pair, room), 0);
    pair
}

/// Pairs that each have a key table of their own, the same for both lists.
#[test]
fn pairs_under_tables_of_their_own_are_answered_alike() {
    let mut random = Random::new(56);
    let mut coverage = PairCoverage::default();
    for number in 0..(PAIRS_WITH_TABLES * rounds()) as u64 {
        let table = key_tables::draw(&mut random);
        let settings = random.pick(&[ORDINARY, MOUSE_LOCK]).with_table(table);
        assert_pair_alike(&mut random, settings, 1_900_000 + number, &mut coverage);
    }
    assert_reached(&coverage);
}

/// A state with a lock that is shut and can be typed at.
fn locked(random: &mut Random, settings: Settings) -> Controller {
    loop {
        let mut state = images::state(random, settings);
        if state.locked {
            state.clear_mode(mode::KEYBOARD_OFF);
            return state;
        }
    }
}

/// Pairs from a state that is locked at the start, which events make in PS/2
/// mode with the first set only. They differ in the keys that are tried.
fn pairs_from_locked_states_are_answered_alike(settings: Settings) {
    let mut random = Random::new(seed(settings, 53));
    let mut coverage = PairCoverage::default();
    for number in 0..(DRAWN_STATES * rounds()) as u64 {
        let state = locked(&mut random, settings);
        let seed = seed(settings, 1_000_000 + number);
        let pair = pairs::build_from(&state, seed, 200, &mut coverage);
        assert_alike_from(&mut random, &state, &pair, &format!("pair {number}"));
    }
    assert_shares(
        &coverage,
        &[
            (coverage.progressed_apart, 30, "right in one list only"),
            (coverage.wrong_apart, 30, "different wrong keys"),
            (coverage.refused_apart, 1, "different keys refused"),
            (coverage.opened, 30, "opened"),
        ],
    );
}

/// Runs both lists from a state and compares all of their answers.
fn assert_alike_from(random: &mut Random, state: &Controller, pair: &Pair, what: &str) {
    assert!(comparable_from(state, &pair.first, &pair.second), "{what}");
    let bytes = state_bytes(state);
    let run = |list: &[u8], answers: &mut [u8]| State::from_bytes(bytes).run(list, answers);
    let room = pair.first.len() * 3 + random.below(20);
    assert_eq!(assert_alike_by(run, random, pair, room), 0);
}

/// Pairs whose codes have few keys and differ, so that both lists mismatch, each in
/// its own way. Under no other settings can a code be loaded from fresh.
#[test]
fn pairs_with_mismatches_are_answered_alike() {
    for settings in [ORDINARY, MOUSE_LOCK] {
        assert_mismatches_alike(settings);
    }
}

fn assert_mismatches_alike(settings: Settings) {
    let mut random = Random::new(seed(settings, 54));
    let mut coverage = PairCoverage::default();
    let fresh = Controller::fresh(settings);
    for number in 0..(PAIRS_WITH_MISMATCHES * rounds()) as u64 {
        let length = random.pick(&[100, 300, 300, 600]);
        let seed = seed(settings, 1_400_000 + number);
        let pair = pairs::build_with_mismatches(&fresh, seed, length, &mut coverage);
        assert!(comparable(settings, &pair.first, &pair.second), "{number}");
        let room = pair.first.len() * 3 + random.below(20);
        assert_eq!(assert_alike(&mut random, settings, &pair, room), 0);
    }
    assert_shares(
        &coverage,
        &[
            (coverage.locked_apart, 70, "locked with different codes"),
            (coverage.progressed_apart, 50, "right in one list only"),
            (coverage.opened_apart, 50, "opened with different codes"),
            (coverage.kept_apart, 60, "a part kept in one list only"),
            (
                coverage.opened_by_mismatches_apart,
                40,
                "opened by mismatches",
            ),
            (coverage.opened_over_noise, 30, "opened with noise between"),
        ],
    );
}

/// The same from a state that is locked at the start, under all settings. There
/// is one code, and both lists begin at the same position of it.
fn pairs_with_mismatches_from_locked_states_are_answered_alike(settings: Settings) {
    let mut random = Random::new(seed(settings, 55));
    let mut coverage = PairCoverage::default();
    for number in 0..(PAIRS_WITH_MISMATCHES * rounds()) as u64 {
        let state = few_keys::draw_locked(&mut random, settings);
        let seed = seed(settings, 1_500_000 + number);
        let pair = pairs::build_with_mismatches(&state, seed, 80, &mut coverage);
        assert_alike_from(&mut random, &state, &pair, &format!("pair {number}"));
    }
    assert_shares(
        &coverage,
        &[
            (coverage.progressed_apart, 40, "right in one list only"),
            (coverage.kept_apart, 10, "a part kept in one list only"),
            (coverage.opened, 60, "opened"),
            (
                coverage.opened_by_mismatches,
                8,
                "opened by different mismatches",
            ),
        ],
    );
}

/// A list of keys and a write, which is refused while the lock is shut.
fn keys_and_a_write(keys: &[u8]) -> Vec<u8> {
    let keys = keys.iter().map(|&key| Event::key(key));
    let events = keys.chain([Event::read(), Event::data(0x00)]);
    events.flat_map(Event::to_bytes).collect()
}

/// Where one list opens by a mismatch and the other does not, nothing is asked, and
/// the answers do differ.
fn a_mismatch_that_opens_one_list_only_is_told(settings: Settings) {
    let [a, b, other] = [0x1E, 0x30, 0x2E].map(|code| keys::giving(settings, code));
    for (code, opening, shut) in [
        (&[0x1E, 0x1E, 0x30][..], [a, a, a, b], [a, a, a, other]),
        (&[0x1E, 0x1E, 0x30], [a, a, a, b], [b, a, b, b]),
        (&[0x1E, 0x30], [a, a, b, b], [a, a, other, b]),
        (&[0x1E, 0x30], [b, b, a, b], [a, a, other, b]),
    ] {
        let state = few_keys::locked(settings, code, 0);
        let [opening, shut] = [opening, shut].map(|keys| keys_and_a_write(&keys));
        assert!(!comparable_from(&state, &opening, &shut));
        assert!(!comparable_from(&state, &shut, &opening));
        let [one, two] = [opening, shut].map(|list| {
            let mut answers = vec![0; list.len() / EVENT_SIZE * 9];
            let mut lock = State::from_bytes(state_bytes(&state));
            assert_eq!(lock.run(&list, &mut answers), 0);
            answers
        });
        assert_ne!(one, two);
        assert_eq!(two[5 * 9], 4, "the write at a lock that is shut");
        assert_eq!(one[5 * 9], 0, "the write at a lock that is open");
    }
}

/// The whole call refuses both lists by the same number too.
fn refused_pairs_are_refused_alike(settings: Settings) {
    let mut random = Random::new(seed(settings, 52));
    let mut coverage = PairCoverage::default();
    for number in 0..200 {
        let seed = seed(settings, 800_000 + number);
        let mut pair = pairs::build(settings, seed, 300, &mut coverage);
        let room = (pair.first.len() * 3).saturating_sub(1 + random.below(9));
        if !pair.first.is_empty() {
            assert_eq!(assert_alike(&mut random, settings, &pair, room), 8);
        }
        pair.first.push(0);
        pair.second.push(0);
        assert_eq!(assert_alike(&mut random, settings, &pair, 9_000), 7);
    }
}

/// The model must keep what is asked of the library.
fn model_answers_pairs_alike(settings: Settings) {
    let mut coverage = PairCoverage::default();
    for number in 0..300 {
        let seed = seed(settings, 900_000 + number);
        let pair = pairs::build(settings, seed, 500, &mut coverage);
        let mut first = vec![0; pair.first.len() * 3];
        let mut second = first.clone();
        assert_eq!(model::run(settings, &pair.first, &mut first), 0);
        assert_eq!(model::run(settings, &pair.second, &mut second), 0);
        assert!(first == second, "pair {number}");
    }
}

differential::under_every_setting!(
    pairs_are_answered_alike,
    pairs_from_locked_states_are_answered_alike,
    pairs_with_mismatches_from_locked_states_are_answered_alike,
    a_mismatch_that_opens_one_list_only_is_told,
    refused_pairs_are_refused_alike,
    model_answers_pairs_alike,
);
