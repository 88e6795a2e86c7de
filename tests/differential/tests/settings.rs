//! The start settings: the options byte and the version byte of each call that
//! takes or holds them.

use differential::both::Both;
use differential::compare::{self, Room};
use differential::event::{Event, kind};
use differential::fenced::Fenced;
use differential::given::Given;
use differential::guarded::Guarded;
use differential::images;
use differential::random::Random;
use differential::reloads::{refused_images, rest};
use differential::starts;
use differential::under_settings::{AT_MODE, AT_MODE_AND_MOUSE_LOCK, MOUSE_LOCK, all};
use model::{Controller, IMAGE_SIZE, Settings, state_bytes};

/// The mouse on, the key switch turned, a sound mouse frame and a read, which
/// gives 14h unless the mouse lock or AT mode is on; then a byte to the keyboard
/// that times out, and at last A1h and a read, which gives the version byte with
/// the second set and else the FEh of the time-out.
const LIST: [u8; 24] = [
    3, 0xA8, 0, 8, 0x7F, 0, 5, 0x28, 0x06, 0, 0, 0, 1, 0xED, 0, 7, 0, 0, 3, 0xA1, 0, 0, 0, 0,
];

/// Every options byte with every version byte. Bit 3 stands in a state for the
/// leave of D1h, which no start gives.
#[test]
fn only_three_bits_of_the_options_start_anything() {
    let mut random = Random::new(91);
    let ordinary = state_bytes(&Controller::fresh(Settings::ORDINARY));
    let mut fenced = Fenced::new(&mut random);
    for options in 0..=0xFF {
        for version in 0..=0xFF {
            fenced.state_mut().start(options, version);
            let mut expected = ordinary;
            expected[60] = options % 8;
            expected[64] = version;
            let what = format!("a start with {options:02X} and {version:02X}");
            fenced.assert_bytes(&expected, &what);
            assert_eq!(fenced.state().options(), options % 8, "{what}");
            assert_eq!(fenced.state().version_byte(), version, "{what}");
        }
        fenced = Fenced::new(&mut random);
    }
}

#[test]
fn the_library_tells_its_version_and_the_size_of_a_state() {
    assert_eq!(calugnid::library_version(), 3);
    assert_eq!(calugnid::state_bytes(), calugnid::STATE_SIZE);
}

/// The check of the mouse frame, the byte read, the error of the time-out, the
/// byte read at last.
fn told(answers: &[u8; 72]) -> [u8; 4] {
    [answers[18], answers[28], answers[48] & 0xE0, answers[64]]
}

#[test]
fn only_three_bits_of_the_options_change_a_run() {
    let mut random = Random::new(92);
    for options in 0..=0xFF {
        for version in 0..=0xFF {
            let mut answers = Guarded::new(&mut random, 72);
            assert_eq!(calugnid::run(options, version, &LIST, answers.inside()), 0);
            let mut expected = [0; 72];
            let settings = Settings::from_options(options, version);
            model::run(settings, &LIST, &mut expected);
            let what = format!("a run with {options:02X} and {version:02X}");
            answers.assert_begins(&expected, &what);
            let [refusal, read, error] = match options % 4 {
                0 => [0, 0x14, 0x40],
                1 => [0, 0x00, 0x40],
                _ => [12, 0x00, 0x20],
            };
            let last = if options & 4 == 0 { 0xFE } else { version };
            assert_eq!(told(&expected), [refusal, read, error, last], "{what}");
        }
    }
}

const IN_AT_MODE: [Settings; 2] = [AT_MODE, AT_MODE_AND_MOUSE_LOCK];

/// AT mode with the keyboard on, P20 and P25 high and the other latches low, and
/// a transmit time-out whose byte has been read.
fn timed_out(random: &mut Random, settings: Settings) -> Both {
    let mut both = Both::started(random, settings);
    let events = [
        Event::command(0xD1),
        Event::data(0x21),
        Event::data(0xED),
        Event::new(kind::BYTE_TIMED_OUT, 0),
        Event::read(),
    ];
    both.accept(random, &events);
    assert_eq!(both.bytes()[60..], rest_in_at_mode(settings));
    both
}

fn rest_in_at_mode(settings: Settings) -> Vec<u8> {
    let lock = if settings.mouse_lock {
        calugnid::MOUSE_LOCK
    } else {
        calugnid::ORDINARY
    };
    let bytes = [calugnid::AT_MODE | lock, 0x3F, 0x08, 0x01, settings.version];
    rest(bytes, settings.table)
}

/// The status and P2 as they are.
fn lines(both: &Both) -> [u8; 2] {
    let lines = both.model.lines();
    [lines[3], lines[4]]
}

#[test]
fn a_load_restores_at_mode() {
    let mut random = Random::new(98);
    for settings in IN_AT_MODE {
        let saved = timed_out(&mut random, settings).save(&mut random, IMAGE_SIZE);
        let mut both = Both::started(&mut random, MOUSE_LOCK);
        assert_eq!(both.load(Given::again(&settings), &saved), 0);
        assert_eq!(both.bytes()[60..], rest_in_at_mode(settings));
        both.look(&mut random);
        assert_eq!(lines(&both), [0x30, 0xA1]);
        let answer = both.event(&mut random, Event::mouse(0x14));
        assert_eq!(answer[0], 12);
    }
}

/// A9h is an unknown command there, so the old byte is read.
#[test]
fn a_run_from_an_image_is_in_at_mode() {
    let mut random = Random::new(99);
    let list = [Event::command(0xA9), Event::read()].map(Event::to_bytes);
    for settings in IN_AT_MODE {
        let both = timed_out(&mut random, settings);
        let saved = both.save(&mut random, IMAGE_SIZE);
        let room = Room {
            answers: 18,
            saved: IMAGE_SIZE,
        };
        let given = Given::version(settings.version);
        let written = compare::run_image(&mut random, given, &saved, list.as_flattened(), room);
        assert_eq!(written.answers[3..5], [0x38, 0xA1]);
        assert_eq!(written.answers[10..12], [0xFE, 1]);
    }
}

/// Both devices on and the key switch turned, with the mouse lock on.
fn turned(random: &mut Random) -> Both {
    let mut both = Both::started(random, MOUSE_LOCK);
    for event in [Event::command(0xAA), Event::read(), Event::pins(0x7F)] {
        both.event(random, event);
    }
    both
}

/// Feeds a mouse frame; true when its byte was put.
fn puts_mouse_byte(both: &mut Both, random: &mut Random) -> bool {
    let answer = both.event(random, Event::mouse(0x14));
    assert_eq!(answer[0], 0);
    answer[3] & 0x21 == 0x21
}

#[test]
fn a_load_restores_the_mouse_lock_or_its_absence() {
    let mut random = Random::new(93);
    let mut both = turned(&mut random);
    let saved = both.save(&mut random, IMAGE_SIZE);
    let mut without = both.model.clone();
    without.settings = Settings::ORDINARY;
    let given = Given::again(&MOUSE_LOCK);
    assert_eq!(both.load(given, &model::save(&without)), 0);
    assert_eq!(both.bytes()[60], calugnid::ORDINARY);
    assert!(puts_mouse_byte(&mut both, &mut random));
    assert_eq!(both.load(given, &saved), 0);
    assert_eq!(both.bytes()[60], calugnid::MOUSE_LOCK);
    assert!(!puts_mouse_byte(&mut both, &mut random));
}

#[test]
fn a_run_from_an_image_has_the_mouse_lock() {
    let mut random = Random::new(94);
    let saved = turned(&mut random).save(&mut random, IMAGE_SIZE);
    let list = Event::mouse(0x14).to_bytes();
    let room = Room {
        answers: 9,
        saved: IMAGE_SIZE,
    };
    let given = Given::version(0);
    let written = compare::run_image(&mut random, given, &saved, &list, room);
    assert_eq!(written.answers[3] & 0x21, 0);
    assert_eq!(written.saved[60], calugnid::MOUSE_LOCK);
}

#[test]
fn a_refused_load_keeps_the_mouse_lock() {
    let mut random = Random::new(95);
    for image in refused_images(&mut random) {
        let mut both = turned(&mut random);
        for bytes in [&image[..], &image[1..]] {
            assert_ne!(both.load(Given::version(0), bytes), 0);
            assert_eq!(both.bytes()[60], calugnid::MOUSE_LOCK);
        }
        assert!(!puts_mouse_byte(&mut both, &mut random));
    }
}

#[test]
fn a_refused_load_keeps_at_mode_its_latches_and_its_time_out() {
    let mut random = Random::new(95);
    for settings in IN_AT_MODE {
        for image in refused_images(&mut random) {
            let mut both = timed_out(&mut random, settings);
            for bytes in [&image[..], &image[1..]] {
                assert_ne!(both.load(Given::version(0), bytes), 0);
                assert_eq!(both.bytes()[60..], rest_in_at_mode(settings));
            }
            assert_eq!(both.event(&mut random, Event::mouse(0x14))[0], 12);
        }
    }
}

/// Whatever settings the controller had that was there, and whatever it did.
#[test]
fn a_new_start_has_its_own_settings() {
    let mut random = Random::new(96);
    for before in all() {
        for after in all() {
            let fresh = state_bytes(&Controller::fresh(after));
            let mut fenced = Fenced::new(&mut random);
            starts::start(fenced.state_mut(), before);
            starts::start(fenced.state_mut(), after);
            fenced.assert_bytes(&fresh, "a second start");
            let drawn = state_bytes(&images::state(&mut random, before));
            let mut fenced = Fenced::around(&mut random, drawn);
            starts::start(fenced.state_mut(), after);
            fenced.assert_bytes(&fresh, "a start over another state");
        }
    }
}

/// All 2,048 mouse frames with the key switch turned, each on a state of its
/// own, and a time-out of a byte sent to the mouse.
#[test]
fn a_turned_key_keeps_back_every_frame_and_no_time_out() {
    let mut random = Random::new(97);
    for value in 0..0x800 {
        let mut both = turned(&mut random);
        let answer = both.event(&mut random, Event::new(kind::MOUSE_FRAME, value));
        assert_eq!((answer[0], answer[3] & 0x21), (0, 0), "frame {value:03X}");
    }
    let mut both = turned(&mut random);
    for event in [Event::command(0xD4), Event::data(0xF4)] {
        both.event(&mut random, event);
    }
    let answer = both.event(&mut random, Event::new(kind::BYTE_TIMED_OUT, 0));
    assert_eq!((answer[0], answer[3] & 0x61), (0, 0x61));
    assert_eq!(both.event(&mut random, Event::read())[1], 0xFE);
}
