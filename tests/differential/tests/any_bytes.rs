//! The bytes of a state that no call made. The model has no such states, but
//! every call ends, stays inside what it is lent, and fits with the others.

use calugnid::{Answer, STATE_SIZE};
use differential::event::Event;
use differential::fenced::Fenced;
use differential::guarded::Guarded;
use differential::key_tables;
use differential::lists;
use differential::random::Random;
use differential::refusals::Refusals;
use differential::rounds::rounds;
use differential::unguided;
use model::{ANSWER_SIZE, IMAGE_SIZE, TABLE_PLACE};

const STATES: usize = 100_000;

/// Half of them zeros, so that each part of a state is at rest now and then. In
/// every other one the key table is sound or nearly so.
fn drawn(random: &mut Random) -> [u8; STATE_SIZE] {
    let mut bytes = std::array::from_fn(|_| match random.below(4) {
        0 => random.byte(),
        1 => random.byte_in(0..=7),
        _ => 0,
    });
    if random.chance(50) {
        let table = key_tables::draw(random);
        let damaged = key_tables::damaged(random, table);
        bytes[TABLE_PLACE..].copy_from_slice(&damaged.0);
    }
    bytes
}

fn event(random: &mut Random, fenced: &mut Fenced, event: Event) -> Answer {
    let mut buffer = Guarded::new(random, ANSWER_SIZE);
    let state = fenced.state_mut();
    state.event(event.kind, event.value, buffer.array());
    let answer = *buffer.array();
    buffer.assert_begins(&answer, "answer");
    fenced.assert_bytes(&fenced.bytes(), "an event");
    answer
}

/// The calls that only read, which leave every byte as it was.
fn look(random: &mut Random, fenced: &Fenced) -> Answer {
    let before = fenced.bytes();
    let mut buffer = Guarded::new(random, ANSWER_SIZE);
    fenced.state().lines(buffer.array());
    let lines = *buffer.array();
    buffer.assert_begins(&lines, "lines");
    let frame = u16::from_le_bytes([lines[7], lines[8]]);
    if lines[6] != 0 {
        assert_eq!(frame, model::frame(fenced.state().sent_byte()));
    }
    assert_eq!(fenced.state().status(), lines[3]);
    assert_eq!(fenced.state().locked(), before[1] & 0x40 != 0);
    assert_eq!(fenced.state().options(), before[60] & 7);
    assert_eq!(fenced.state().version_byte(), before[64]);
    let mut saved = Guarded::new(random, IMAGE_SIZE + 1);
    assert_eq!(fenced.state().save(saved.inside()), 0);
    let image = saved.inside()[..IMAGE_SIZE].to_vec();
    saved.assert_begins(&image, "saved image");
    fenced.assert_bytes(&before, "a look");
    lines
}

/// All of an answer that does not depend on the event itself.
fn assert_lines(answer: &Answer, lines: &Answer) {
    assert_eq!(lines[..3], [0; 3]);
    assert_eq!(lines[3..5], answer[3..5]);
    assert_eq!(lines[5], 0);
    assert_eq!(lines[6..], answer[6..]);
}

#[test]
fn one_event_at_a_time() {
    let mut random = Random::new(71);
    let mut refusals = Refusals::default();
    for _ in 0..STATES * rounds() {
        let bytes = drawn(&mut random);
        let mut fenced = Fenced::around(&mut random, bytes);
        let mut twin = Fenced::around(&mut random, bytes);
        for _ in 0..3 {
            let tried = unguided::any(&mut random);
            let before = fenced.bytes();
            let foretold = fenced.state().refusal(tried.kind, tried.value);
            if foretold != 2 {
                assert_eq!(fenced.state().ready(tried.kind), foretold == 0);
            }
            fenced.assert_bytes(&before, "a question");
            let answer = event(&mut random, &mut fenced, tried);
            assert_eq!(answer[0], foretold);
            if foretold != 0 {
                fenced.assert_bytes(&before, "a refused event");
            }
            assert_eq!(event(&mut random, &mut twin, tried), answer);
            twin.assert_bytes(&fenced.bytes(), "the same event");
            assert_lines(&answer, &look(&mut random, &fenced));
            refusals.note(answer[0]);
        }
    }
    println!("{refusals:?}");
    assert!(refusals.least(&[0, 1, 2, 3, 4, 5, 6, 12]) > 100);
}

/// A list does what its events do one by one.
#[test]
fn lists_as_their_events() {
    let mut random = Random::new(72);
    for _ in 0..STATES / 10 * rounds() {
        let bytes = drawn(&mut random);
        let mut fenced = Fenced::around(&mut random, bytes);
        let mut twin = Fenced::around(&mut random, bytes);
        let length = random.below(8);
        let list = lists::unguided(&mut random, length);
        let mut answers = Guarded::new(&mut random, length * ANSWER_SIZE);
        assert_eq!(fenced.state_mut().run(&list, answers.inside()), 0);
        let one_by_one: Vec<u8> = list
            .chunks_exact(3)
            .flat_map(|bytes| event(&mut random, &mut twin, Event::from_bytes(bytes)))
            .collect();
        answers.assert_begins(&one_by_one, "answers");
        fenced.assert_bytes(&twin.bytes(), "a list");
    }
}
