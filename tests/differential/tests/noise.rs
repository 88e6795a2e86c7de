//! Noise frames leave everything as it is, in states made for it and anywhere.

use calugnid::State;
use differential::both::Both;
use differential::compare::{self, Room};
use differential::coverage::Coverage;
use differential::event::{Event, kind};
use differential::given::Given;
use differential::images;
use differential::lists;
use differential::noise_coverage::NoiseCoverage;
use differential::noise_scenes::{Scene, scenes};
use differential::noisy::{Noisy, with_noise};
use differential::random::Random;
use differential::refusals::Refusals;
use differential::rounds::rounds;
use differential::starts;
use differential::under_settings::seed;
use differential::unguided;
use model::{ANSWER_SIZE, Controller, EVENT_SIZE, IMAGE_SIZE, Settings, save};

const KINDS: [u8; 2] = [kind::KEYBOARD_FRAME, kind::MOUSE_FRAME];
const QUIET_EVENTS: usize = 500_000;
const DRAWN_IMAGES: usize = 300;

/// Every noise frame of both devices, each on the state that the last one left.
fn feed_noise(both: &mut Both, random: &mut Random, refusals: [u8; 2], name: &str) {
    let before = both.bytes();
    let image = both.save(random, IMAGE_SIZE);
    both.look(random);
    let mut expected = both.model.lines();
    for (kind, refusal) in KINDS.into_iter().zip(refusals) {
        expected[0] = refusal;
        for value in (1..0x800).step_by(2) {
            let noise = Event::new(kind, value);
            assert_eq!(both.refusal(noise), refusal, "{name}, {noise:?}");
            let answer = both.event(random, noise);
            assert_eq!(answer, expected, "{name}, {noise:?}");
            assert_eq!(both.bytes(), before, "{name}, {noise:?}");
        }
    }
    assert_eq!(both.save(random, IMAGE_SIZE), image, "{name}, saved");
}

/// What refuses a sound frame of each device now, and so noise too.
fn frame_refusals(both: &Both) -> [u8; 2] {
    KINDS.map(|kind| both.refusal(Event::new(kind, model::frame(0x14))))
}

fn prepared(random: &mut Random, settings: Settings, scene: &Scene) -> Both {
    let mut both = Both::started(random, settings);
    for &event in &scene.before {
        let answer = both.event(random, event);
        assert_eq!(answer[0], 0, "{}, {event:?}", scene.name);
    }
    assert!((scene.holds)(&both.model), "{}", scene.name);
    both
}

/// Plays a scene with noise before and after each of the events that come
/// next, and without any.
fn play(random: &mut Random, settings: Settings, scene: &Scene) {
    let mut quiet = prepared(random, settings, scene);
    let mut noisy = prepared(random, settings, scene);
    assert_eq!(frame_refusals(&noisy), scene.refusals, "{}", scene.name);
    feed_noise(&mut noisy, random, scene.refusals, scene.name);
    let mut reads = Vec::new();
    for &event in &scene.next {
        let answer = noisy.event(random, event);
        assert_eq!(answer[0], 0, "{}, {event:?}", scene.name);
        let undisturbed = quiet.event(random, event);
        assert_eq!(answer, undisturbed, "{}, {event:?}", scene.name);
        if event == Event::read() {
            reads.push([answer[1], answer[2]]);
        }
        let refusals = frame_refusals(&noisy);
        feed_noise(&mut noisy, random, refusals, scene.name);
        assert_eq!(noisy.bytes(), quiet.bytes(), "{}, {event:?}", scene.name);
    }
    assert_eq!(reads, scene.reads, "{}", scene.name);
}

fn every_noise_frame_in_every_scene(settings: Settings) {
    let mut random = Random::new(seed(settings, 101));
    for scene in scenes(settings) {
        play(&mut random, settings, &scene);
    }
}

/// Runs a list from fresh by the library alone.
fn run(settings: Settings, list: &[u8]) -> (Vec<u8>, State) {
    let mut state = starts::fresh(settings);
    let mut answers = vec![0; list.len() / EVENT_SIZE * ANSWER_SIZE];
    assert_eq!(
        state.run_fitting(list, &mut answers),
        Ok(list.len() / EVENT_SIZE)
    );
    (answers, state)
}

/// The lines at the start by the library alone.
fn first_lines(settings: Settings) -> [u8; ANSWER_SIZE] {
    let mut lines = [0; ANSWER_SIZE];
    starts::fresh(settings).lines(&mut lines);
    lines
}

/// Counts by the model where the noise that was put in came.
fn note_places(settings: Settings, noisy: &Noisy, coverage: &mut NoiseCoverage) {
    let mut state = Controller::fresh(settings);
    for (event, put_in) in noisy.events() {
        if put_in {
            let refusal = state.refusal(event.kind, event.value);
            coverage.note(&state, event, refusal);
        }
        state.event(event.kind, event.value);
    }
}

/// Noise put into a list changes no answer to the other events, and the state
/// at the end is the same.
fn noise_put_in_changes_no_other_answer(settings: Settings) {
    let mut random = Random::new(seed(settings, 102));
    let mut number = seed(settings, 500_000);
    let mut walked = Coverage::new();
    let mut places = NoiseCoverage::default();
    while walked.events < QUIET_EVENTS * rounds() {
        let length = random.pick(&[10, 200, 2_000, 10_000]);
        let quiet = lists::guided(settings, number, length, &mut walked);
        let percent = random.pick(&[2, 10, 40, 60]);
        let noisy = with_noise(&mut random, &quiet, percent);
        let (expected, end) = run(settings, &quiet);
        let (answers, noisy_end) = run(settings, &noisy.list);
        let others = noisy.answers_to_others(&answers);
        assert!(others == expected, "answers of list {number}");
        assert_eq!(noisy_end.bytes(), end.bytes(), "end of list {number}");
        noisy.assert_lines_stand(settings, &first_lines(settings), &answers);
        note_places(settings, &noisy, &mut places);
        number += 1;
    }
    for (count, place) in places.reached(settings) {
        println!("{count} {place}");
        assert!(count > 50 * rounds(), "{place}: {count}");
    }
}

/// Noise alone saves the image that was loaded.
fn noise_saves_the_image_that_it_was_given(settings: Settings) {
    let mut random = Random::new(seed(settings, 103));
    let mut refusals = Refusals::default();
    for _ in 0..DRAWN_IMAGES * rounds() {
        let image = save(&images::state(&mut random, settings));
        let length = random.below(20);
        let list: Vec<u8> = (0..length)
            .flat_map(|_| unguided::noise(&mut random).to_bytes())
            .collect();
        let bytes = images::behind(&mut random, &image);
        let room = Room::enough(&mut random, &list);
        let given = Given::again(&settings);
        let written = compare::run_image(&mut random, given, &bytes, &list, room);
        assert_eq!(written.saved, image);
        for answer in written.answers.chunks_exact(ANSWER_SIZE) {
            refusals.note(answer[0]);
        }
    }
    println!("{refusals:?}");
    let numbers: &[u8] = if settings.at_mode {
        &[0, 5, 12]
    } else {
        &[0, 5]
    };
    assert!(refusals.least(numbers) > DRAWN_IMAGES / 2);
}

/// A list with noise in it saves the same image as without, from states that
/// no list from fresh may reach.
fn noise_put_in_changes_no_image(settings: Settings) {
    let mut random = Random::new(seed(settings, 104));
    let given = Given::again(&settings);
    let mut walked = Coverage::new();
    for number in 0..(DRAWN_IMAGES * rounds()) as u64 {
        let mut state = images::state(&mut random, settings);
        let image = save(&state);
        let length = random.below(60);
        let list_seed = seed(settings, 600_000 + number);
        let quiet = lists::guided_from(&mut state, list_seed, length, &mut walked);
        let noisy = with_noise(&mut random, &quiet, 30);
        let room = Room::enough(&mut random, &quiet);
        let expected = compare::run_image(&mut random, given, &image, &quiet, room);
        let room = Room::enough(&mut random, &noisy.list);
        let written = compare::run_image(&mut random, given, &image, &noisy.list, room);
        assert_eq!(written.saved, expected.saved, "list {number}");
        let others = noisy.answers_to_others(&written.answers);
        assert!(others == expected.answers, "answers of list {number}");
    }
    assert!(walked.opens > DRAWN_IMAGES / 30, "{}", walked.opens);
}

differential::under_every_setting!(
    every_noise_frame_in_every_scene,
    noise_put_in_changes_no_other_answer,
    noise_saves_the_image_that_it_was_given,
    noise_put_in_changes_no_image,
);
