//! Mismatches: wrong keys at the lock that are a start of its code. The codes have
//! two or three different keys, so that nearly every wrong key is one. In AT
//! mode and with the second set no events shut the lock, so it is shut by hand.

use calugnid::State;
use differential::both::Both;
use differential::compare::{self, Room};
use differential::event::{Event, kind};
use differential::few_keys;
use differential::given::Given;
use differential::keys;
use differential::mismatch_coverage::MismatchCoverage;
use differential::random::Random;
use differential::rounds::rounds;
use differential::typist::{self, Typist};
use differential::under_settings::{locks, seed, thinned};
use model::{Controller, EVENT_SIZE, IMAGE_SIZE, Settings, save, state_bytes};

const WALKED_EVENTS: usize = 150_000;
const LISTED_EVENTS: usize = 300_000;
const SAVES: usize = 2_000;
const OTHER_LONG_CODES: usize = 15;

/// What the codes are made of, and a byte that is in none of them.
const BYTES: [u8; 2] = [0x1E, 0x30];
const OTHER: u8 = 0x2E;

/// The keys that give the two bytes of the codes, and the other.
fn three_keys(settings: Settings) -> [u8; 3] {
    [BYTES[0], BYTES[1], OTHER].map(|byte| keys::giving(settings, byte))
}

/// Fresh, or shut by hand: always so where no events shut it, every other time
/// else.
fn start(random: &mut Random, settings: Settings) -> Controller {
    if !locks(settings) || random.chance(50) {
        few_keys::draw_locked(random, settings)
    } else {
        Controller::fresh(settings)
    }
}

/// At most `length` events, one at a time.
fn walk(
    both: &mut Both,
    random: &mut Random,
    typist: &mut Typist,
    length: usize,
    coverage: &mut MismatchCoverage,
) {
    coverage.start(&both.model);
    for _ in 0..length {
        if typist::done(&both.model) {
            break;
        }
        let event = typist.next(&both.model);
        let before = both.model.clone();
        let answer = both.event(random, event);
        coverage.note(&before, event, answer[0], &both.model);
    }
}

fn walks_at_the_lock(settings: Settings) {
    let mut random = Random::new(seed(settings, 131));
    let mut coverage = MismatchCoverage::default();
    let mut number = seed(settings, 1_100_000);
    while coverage.events < WALKED_EVENTS * rounds() {
        let state = start(&mut random, settings);
        let mut both = Both::of(&mut random, &state);
        let length = random.pick(&[50, 200, 500]);
        let mut typist = Typist::new(number);
        walk(&mut both, &mut random, &mut typist, length, &mut coverage);
        both.look(&mut random);
        number += 1;
    }
    coverage.assert_reached(settings);
}

/// From fresh by the call that runs a list, and else on a state.
fn lists_typed_at_the_lock(settings: Settings) {
    let mut random = Random::new(seed(settings, 132));
    let mut coverage = MismatchCoverage::default();
    let mut number = seed(settings, 1_200_000);
    while coverage.events < LISTED_EVENTS * rounds() {
        let state = start(&mut random, settings);
        let length = random.pick(&[50, 200, 2_000]);
        let mut end = state.clone();
        let list = typist::list_from(&mut end, number, length, &mut coverage);
        let room = list.len() * 3 + random.below(20);
        if !state.locked {
            let written = compare::run(&mut random, settings, &list, room);
            assert_eq!(written.refusal, 0);
        }
        let mut both = Both::of(&mut random, &state);
        assert_eq!(both.run(&mut random, &list, room), 0);
        assert_eq!(both.model, end, "list {number}");
        number += 1;
    }
    coverage.assert_reached(settings);
}

/// The position by the definition, from the code and what was typed.
fn expected_position(code: &[u8], typed: &[u8]) -> usize {
    let mut shorter = (0..code.len()).rev();
    let longest = shorter.find(|&length| typed.ends_with(&code[..length]));
    longest.expect("no byte at the least")
}

/// Types until the lock opens, and looks at the lock and its position after
/// each key.
fn type_all(random: &mut Random, both: &mut Both, code: &[u8], typed: &[u8]) {
    for (at, &byte) in typed.iter().enumerate() {
        let key = Event::key(keys::giving(both.model.settings, byte));
        assert_eq!(both.event(random, key)[0], 0);
        let so_far = &typed[..=at];
        let open = so_far.ends_with(code);
        let bytes = both.bytes();
        assert_eq!(bytes[1] & 0x40 == 0, open, "{code:02X?} {so_far:02X?}");
        if open {
            assert_eq!(bytes[11], 0);
            return;
        }
        assert_eq!(usize::from(bytes[11]), expected_position(code, so_far));
    }
}

/// Every code of two keys with every list of them, one key at a time.
fn every_short_code_with_every_list_of_keys(settings: Settings) {
    let mut random = Random::new(seed(settings, 133));
    for length in 1..=5 {
        for code in thinned(settings, few_keys::every_code(BYTES, length)) {
            let state = few_keys::locked(settings, &code, 0);
            for typed in few_keys::every_code(BYTES, 8) {
                let mut both = Both::of(&mut random, &state);
                type_all(&mut random, &mut both, &code, &typed);
            }
        }
    }
}

/// The same with longer codes and longer lists, each run as a whole. A byte is
/// put when the lock opens, so the answers show where.
fn longer_codes_with_every_longer_list_of_keys(settings: Settings) {
    let list = |typed: Vec<u8>| -> Vec<u8> {
        let keys = typed.iter().map(|&byte| keys::giving(settings, byte));
        keys.flat_map(|key| Event::key(key).to_bytes()).collect()
    };
    let lists: Vec<Vec<u8>> = few_keys::every_code(BYTES, 11).map(list).collect();
    for length in 1..=6 {
        for code in thinned(settings, few_keys::every_code(BYTES, length)) {
            let state = few_keys::locked(settings, &code, 0);
            for list in &lists {
                assert_run_alike(&state, list);
            }
        }
    }
}

fn assert_run_alike(state: &Controller, list: &[u8]) {
    let mut answers = vec![0; list.len() / EVENT_SIZE * 9];
    let mut expected = answers.clone();
    let mut by_library = State::from_bytes(state_bytes(state));
    let mut by_model = state.clone();
    assert_eq!(by_library.run(list, &mut answers), 0);
    assert_eq!(by_model.run(list, &mut expected), 0);
    let code = state.password.bytes();
    assert_eq!(answers, expected, "{code:02X?} {list:02X?}");
    assert_eq!(by_library.bytes(), state_bytes(&by_model));
}

/// One key from a state, and then right ones until the lock opens, or until
/// there is none that counts.
fn type_on(random: &mut Random, state: &Controller, key: u8) {
    let mut both = Both::of(random, state);
    assert_eq!(both.event(random, Event::key(key))[0], 0);
    while both.model.locked {
        let Some(right) = keys::right_key(&both.model) else {
            return;
        };
        let position = both.bytes()[11];
        assert_eq!(both.event(random, Event::key(right))[0], 0);
        assert!(!both.model.locked || both.bytes()[11] == position + 1);
    }
}

fn every_position_of_every_short_code_with_every_key(settings: Settings) {
    let mut random = Random::new(seed(settings, 134));
    for length in 1..=6 {
        for code in thinned(settings, few_keys::every_code(BYTES, length)) {
            for position in 0..length {
                let state = few_keys::locked(settings, &code, position);
                for key in 0x01..=0x7F {
                    let mut both = Both::of(&mut random, &state);
                    assert_eq!(both.event(&mut random, Event::key(key))[0], 0);
                }
                for key in three_keys(settings) {
                    type_on(&mut random, &state, key);
                }
            }
        }
    }
}

/// The longest codes: two bytes in turn, where a wrong key has the most parts to
/// be compared with; one for each way to repeat the first bytes up to a place;
/// and others.
fn long_codes(random: &mut Random) -> Vec<Vec<u8>> {
    let mut codes = vec![BYTES.repeat(8)];
    for period in 1..16 {
        for until in period..=16 {
            let code = few_keys::draw_repeating(random, &BYTES, 16, period, until);
            codes.push(code);
        }
    }
    let others = 0..OTHER_LONG_CODES * rounds();
    codes.extend(others.map(|_| few_keys::draw_code(random, &BYTES, 16)));
    codes
}

/// By a load, and by a run from the image.
fn long_codes_from_every_position(settings: Settings) {
    let mut random = Random::new(seed(settings, 135));
    let mut kept = [0; 16];
    for code in long_codes(&mut random) {
        for position in 0..16 {
            let state = few_keys::locked(settings, &code, position);
            for key in three_keys(settings) {
                type_on(&mut random, &state, key);
                run_image(&mut random, &state, key);
                if let Some(position) = kept_at_a_mismatch(&state, key) {
                    kept[position] += 1;
                }
            }
        }
    }
    println!("mismatches by what they keep: {kept:?}");
    assert!(kept.iter().all(|&count| count > 0), "{kept:?}");
}

/// The position after a key that is counted and is not the right one.
fn kept_at_a_mismatch(state: &Controller, key: u8) -> Option<usize> {
    let wrong = keys::right_key(state) != Some(key);
    let mismatch = wrong && keys::counts(state, state.settings.table.entry(key));
    mismatch.then(|| {
        let mut after = state.clone();
        after.event(kind::KEYBOARD_FRAME, model::frame(key));
        after.position()
    })
}

fn run_image(random: &mut Random, state: &Controller, key: u8) {
    let list = [Event::key(key), Event::read()].map(Event::to_bytes);
    let room = Room::enough(random, list.as_flattened());
    let given = Given::again(&state.settings);
    let written = compare::run_image(random, given, &save(state), list.as_flattened(), room);
    assert_eq!(written.refusal, 0);
}

/// The key of one byte is ignored, or there is none for it, so that no keys lead
/// to most of the positions. They are taken as they are.
fn positions_that_no_keys_reach(settings: Settings) {
    let mut random = Random::new(seed(settings, 136));
    let mut kept = 0;
    for bytes in [BYTES, [0x1E, 0x9E]] {
        for length in 2..=6 {
            for code in few_keys::every_code(bytes, length) {
                for position in 0..length {
                    let mut state = few_keys::locked(settings, &code, position);
                    if bytes == BYTES {
                        state.ram[0x17] = BYTES[0];
                    }
                    for key in three_keys(settings) {
                        type_on(&mut random, &state, key);
                        run_image(&mut random, &state, key);
                        let part = kept_at_a_mismatch(&state, key).unwrap_or(0);
                        let by_keys = |&byte: &u8| keys::counts(&state, byte);
                        kept += usize::from(!code[..part].iter().all(by_keys));
                    }
                }
            }
        }
    }
    println!("{kept} mismatches kept a part with such a byte");
    assert!(kept > 40, "{kept}");
}

/// Goes on with what was saved and with what was loaded of it. True when the lock
/// opens.
fn go_on_together(
    random: &mut Random,
    typist: &mut Typist,
    saved: &mut Both,
    loaded: &mut Both,
) -> bool {
    let mut opened = false;
    for _ in 0..40 {
        let event = typist.next(&saved.model);
        let was_locked = saved.model.locked;
        let answer = saved.event(random, event);
        assert_eq!(loaded.event(random, event), answer, "{event:?}");
        assert_eq!(saved.bytes(), loaded.bytes());
        opened |= was_locked && !saved.model.locked;
    }
    opened
}

fn a_loaded_lock_goes_on_as_the_one_that_was_saved(settings: Settings) {
    let mut random = Random::new(seed(settings, 137));
    let mut coverage = MismatchCoverage::default();
    let mut opened = 0;
    for number in 0..(SAVES * rounds()) as u64 {
        let state = few_keys::draw_locked(&mut random, settings);
        let mut saved = Both::of(&mut random, &state);
        let mut typist = Typist::new(seed(settings, 1_300_000 + number));
        let length = random.below(30);
        walk(&mut saved, &mut random, &mut typist, length, &mut coverage);
        let saves = coverage.saved;
        coverage.note_save(&saved.model);
        let image = saved.save(&mut random, IMAGE_SIZE);
        let mut loaded = Both::started(&mut random, settings);
        assert_eq!(loaded.load(Given::again(&settings), &image), 0);
        let mismatched = saves < coverage.saved;
        let opens = go_on_together(&mut random, &mut typist, &mut saved, &mut loaded);
        opened += usize::from(opens && mismatched);
    }
    println!("{} saved after a mismatch, {opened} opened", coverage.saved);
    assert!(coverage.saved > SAVES / 20, "{} saved", coverage.saved);
    assert!(opened > SAVES / 40, "{opened} opened later");
}

/// With 1Eh 1Eh 30h: one key too many, and a start that is typed twice.
fn the_two_mismatches_that_growers_make(settings: Settings) {
    let mut random = Random::new(seed(settings, 138));
    let [a, b, _] = three_keys(settings);
    for (typed, positions) in [
        (&[a, a, a, b][..], &[1, 2, 2, 0][..]),
        (&[a, b, a, a, b], &[1, 0, 1, 2, 0]),
    ] {
        let state = few_keys::locked(settings, &[0x1E, 0x1E, 0x30], 0);
        let mut both = Both::of(&mut random, &state);
        for (&key, &position) in typed.iter().zip(positions) {
            assert!(both.model.locked);
            both.event(&mut random, Event::key(key));
            assert_eq!(both.bytes()[11], position);
        }
        assert_eq!(both.bytes()[1] & 0x40, 0);
        assert_eq!(both.event(&mut random, Event::read())[1], 0x99);
    }
}

differential::under_every_setting!(
    the_two_mismatches_that_growers_make,
    walks_at_the_lock,
    lists_typed_at_the_lock,
    every_short_code_with_every_list_of_keys,
    longer_codes_with_every_longer_list_of_keys,
    every_position_of_every_short_code_with_every_key,
    long_codes_from_every_position,
    positions_that_no_keys_reach,
    a_loaded_lock_goes_on_as_the_one_that_was_saved,
);
