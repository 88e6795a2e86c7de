//! Every command from states with each of the pending codes, then a byte and
//! what shows what it did. In AT mode no events leave codes 3, 5, 6 and 7 or an
//! overlay, and with the second set none leave code 3, so the states are made by
//! hand.

use differential::both::Both;
use differential::event::{Event, kind};
use differential::random::Random;
use differential::refusals::Refusals;
use differential::situations::{
    Errors, OUTPUTS, PENDINGS, error_mixes, fill, overlay_nibble, set_code, set_errors,
    set_input_latches, set_latches,
};
use differential::under_settings::{locks, seed, thinned};
use model::{Controller, Device, Pending, Settings, mode};

/// P1 with bits of either value in both nibbles.
const PINS: u8 = 0xA6;

/// What a command may change or be told by.
#[derive(Clone, Copy)]
struct Standing {
    pending: Pending,
    source: Option<Device>,
    overlay: bool,
    errors: Errors,
    latches: usize,
}

/// A state with something for most commands to change. Its number decides the
/// command byte, the code, the overlay's nibble and what the second set adds.
fn state(settings: Settings, standing: Standing, number: usize) -> Controller {
    let mut state = Controller::fresh(settings);
    state.ram = std::array::from_fn(|cell| 0xC0 ^ cell as u8);
    state.ram[0] = (number * 29) as u8 & !mode::UNUSED;
    state.pins = PINS;
    state.pending = standing.pending;
    let nibble = overlay_nibble(settings, number);
    state.overlay = standing.overlay.then_some(nibble);
    fill(&mut state, standing.source);
    set_errors(&mut state, standing.errors);
    set_latches(&mut state, standing.latches);
    set_input_latches(&mut state, number * 13);
    set_code(&mut state, number);
    state
}

/// The output buffer in each way, with an overlay and without, with each mix of
/// errors, and the latches in turn.
fn lines_in_every_way(settings: Settings, pending: Pending) -> Vec<Standing> {
    let mut all = Vec::new();
    for source in OUTPUTS {
        for overlay in [false, true] {
            for errors in error_mixes(settings) {
                all.push(Standing {
                    pending,
                    source,
                    overlay,
                    errors,
                    latches: all.len(),
                });
            }
        }
    }
    all
}

/// The latches in each way, and the rest in turn.
fn latches_in_every_way(settings: Settings, pending: Pending) -> Vec<Standing> {
    let rest = lines_in_every_way(settings, pending);
    let standing = |latches| Standing {
        latches,
        ..rest[latches * 7 % rest.len()]
    };
    (0..32).map(standing).collect()
}

fn states(settings: Settings) -> Vec<Controller> {
    let mut standings = Vec::new();
    for pending in PENDINGS {
        standings.extend(lines_in_every_way(settings, pending));
        standings.extend(latches_in_every_way(settings, pending));
    }
    let numbered = standings.into_iter().zip(0..);
    numbered
        .map(|(standing, number)| state(settings, standing, number))
        .collect()
}

/// A byte, what waits then, the end of a byte that is being sent, the output
/// port and the input port.
fn what_follows(byte: u8, end: u8) -> [Event; 9] {
    [
        Event::data(byte),
        Event::status(),
        Event::read(),
        Event::new(end, 0),
        Event::read(),
        Event::command(0xD0),
        Event::read(),
        Event::command(0xC0),
        Event::read(),
    ]
}

fn every_command_over_every_pending_code(settings: Settings) {
    let mut random = Random::new(seed(settings, 111));
    let mut refusals = Refusals::default();
    let states = states(settings);
    for (number, state) in thinned(settings, states.iter().enumerate()) {
        Both::of(&mut random, state).look(&mut random);
        for command in 0..=0xFF_u8 {
            let mut both = Both::of(&mut random, state);
            let answer = both.event(&mut random, Event::command(command));
            assert_eq!(answer[0], 0, "{command:02X}");
            let byte = (usize::from(command) * 91 + number * 17) as u8;
            let end = random.pick(&[kind::BYTE_TAKEN, kind::BYTE_TIMED_OUT]);
            for event in what_follows(byte, end) {
                refusals.note(both.event(&mut random, event)[0]);
            }
            both.look(&mut random);
        }
    }
    // The end of a byte that was not being sent, and writes once A6h has locked.
    println!("{refusals:?}");
    let possible: &[u8] = if locks(settings) { &[0, 4, 6] } else { &[0, 6] };
    assert!(refusals.least(possible) > 100);
}

/// A code of every length that is being loaded. A byte goes on with it or ends
/// it before the command comes.
fn every_command_within_a_load(settings: Settings) {
    let mut random = Random::new(seed(settings, 112));
    let mut refusals = Refusals::default();
    for length in 0..=16 {
        for command in 0..=0xFF {
            for byte in [0x00, 0x01, 0x7F, 0xFF] {
                let mut state = Controller::fresh(settings);
                state.pending = Pending::Password;
                (0..length).for_each(|at| assert!(state.password.push(0x20 + at)));
                let mut both = Both::of(&mut random, &state);
                for event in [
                    Event::data(byte),
                    Event::command(command),
                    Event::data(byte),
                ] {
                    refusals.note(both.event(&mut random, event)[0]);
                }
            }
        }
    }
    // A6h locks with a code that a zero has ended.
    let possible: &[u8] = if locks(settings) { &[0, 4] } else { &[0] };
    assert!(refusals.least(possible) > 0);
}

/// Each pattern of the latches over each other, by D1h, allowed and forbidden
/// where the set asks for that.
fn every_byte_over_every_latch_pattern(settings: Settings) {
    let mut random = Random::new(seed(settings, 113));
    let sides = if settings.second_set { 2 } else { 1 };
    for number in 0..32 * sides {
        for byte in 0..=0xFF {
            let mut state = Controller::fresh(settings);
            set_latches(&mut state, number % 32);
            set_input_latches(&mut state, number * 2);
            let mut both = Both::of(&mut random, &state);
            let events = [Event::command(0xD1), Event::data(byte)];
            let shown = [Event::command(0xD0), Event::read(), Event::command(byte)];
            both.accept(&mut random, &events);
            both.accept(&mut random, &shown);
        }
    }
}

/// Commands while a byte is being sent, and while locked.
fn refused_commands_change_nothing(settings: Settings) {
    let mut random = Random::new(seed(settings, 114));
    let mut states = Vec::new();
    for device in [Device::Keyboard, Device::Mouse] {
        let mut sending = Controller::fresh(settings);
        sending.sending = Some((device, 0xED));
        states.push((sending, 3));
    }
    let mut locked = Controller::fresh(settings);
    locked.password.push(0x1E);
    locked.locked = true;
    states.push((locked, 4));
    for (state, refusal) in states {
        for pending in PENDINGS {
            let mut state = state.clone();
            if !state.locked {
                state.pending = pending;
            }
            for command in 0..=0xFF {
                let mut both = Both::of(&mut random, &state);
                let answer = both.event(&mut random, Event::command(command));
                assert_eq!(answer[0], refusal, "{command:02X}");
            }
        }
    }
}

differential::under_every_setting!(
    every_command_over_every_pending_code,
    every_command_within_a_load,
    every_byte_over_every_latch_pattern,
    refused_commands_change_nothing,
);
