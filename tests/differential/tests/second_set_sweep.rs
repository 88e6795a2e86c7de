//! Every command byte in each mode with each set, over every pending code; every
//! pattern of P1's latches with every pattern of its pins.

use calugnid::{Answer, STATE_SIZE};
use differential::both::Both;
use differential::event::{Event, kind};
use differential::random::Random;
use differential::situations::{
    OUTPUTS, PENDINGS, fill, overlay_nibble, set_code, set_input_latches, set_latches,
};
use differential::under_settings::{
    AT_MODE, MODES_AND_SETS, ORDINARY, SECOND_SET, SECOND_SET_IN_AT_MODE, seed,
};
use model::{Controller, Pending, Settings, mode};
use std::collections::BTreeSet;

/// Bits of either value for each latch of P2 and for the command byte.
const BYTES: [u8; 5] = [0x00, 0x25, 0x5A, 0x6F, 0xFF];

/// P1 as it is in turn.
const PINS: [u8; 3] = [0xA6, 0x59, 0xFF];

/// The commands that both sets have in both modes: cells, the keyboard, tests,
/// P1, P2, pulses.
fn common() -> Vec<u8> {
    let mut all: Vec<u8> = (0x20..=0x3F).chain(0x60..=0x7F).collect();
    all.extend([0xAA, 0xAB, 0xAD, 0xAE, 0xC0, 0xD0, 0xD1, 0xE0]);
    all.extend(0xF0..=0xFF);
    all
}

/// Those that PS/2 mode adds with both sets: A4h, the mouse, polls of P1, the
/// output buffer.
const OF_PS2_MODE: [u8; 9] = [0xA4, 0xA7, 0xA8, 0xA9, 0xC1, 0xC2, 0xD2, 0xD3, 0xD4];

/// Those for the lock, in PS/2 mode with the first set.
const OF_THE_LOCK: [u8; 2] = [0xA5, 0xA6];

/// Those that the second set adds in both modes.
fn of_second_set() -> Vec<u8> {
    let mut all: Vec<u8> = (0x90..=0x9F).chain(0xB0..=0xBF).collect();
    all.extend([0xA1, 0xAF, 0xC8, 0xC9, 0xCA]);
    all.extend(0xE1..=0xEF);
    all
}

/// The commands that do something more than an unknown one. Of the pulses FFh
/// pulses nothing, and with two lines to pulse so do F3h, F7h and FBh.
fn acting(settings: Settings) -> BTreeSet<u8> {
    let lines = if settings.at_mode { 0x0F } else { 0x03 };
    let pulses = |command: &u8| *command < 0xF0 || !command & lines != 0;
    let mut all: BTreeSet<u8> = common().into_iter().filter(pulses).collect();
    if !settings.at_mode {
        all.extend(OF_PS2_MODE);
    }
    if !settings.at_mode && !settings.second_set {
        all.extend(OF_THE_LOCK);
    }
    if settings.second_set {
        all.extend(of_second_set());
    }
    all
}

/// A state with something for every command to change. Its number decides all
/// that may differ.
fn state(settings: Settings, pending: Pending, number: usize) -> Controller {
    let mut state = Controller::fresh(settings);
    state.ram = std::array::from_fn(|cell| 0xC0 ^ cell as u8);
    state.ram[0] = (number * 29) as u8 & !mode::UNUSED;
    state.pins = PINS[number % 3];
    state.pending = pending;
    let nibble = overlay_nibble(settings, number * 5);
    state.overlay = (number % 2 == 1).then_some(nibble);
    fill(&mut state, OUTPUTS[number / 2 % 3]);
    set_latches(&mut state, number * 11);
    set_input_latches(&mut state, number * 37);
    set_code(&mut state, number);
    state
}

/// A byte, then what shows what it and the command did. The events that would be
/// refused now are left in: a lock that A6h shuts refuses the writes.
fn what_follows(byte: u8) -> [Event; 12] {
    [
        Event::data(byte),
        Event::status(),
        Event::read(),
        Event::new(kind::BYTE_TAKEN, 0),
        Event::command(0xD0),
        Event::read(),
        Event::command(0xC0),
        Event::read(),
        Event::command(0xC2),
        Event::pins(0x5A),
        Event::command(0x20),
        Event::read(),
    ]
}

/// The answer to a command and the bytes that it leaves.
fn at_once(random: &mut Random, state: &Controller, command: u8) -> (Answer, [u8; STATE_SIZE]) {
    let mut both = Both::of(random, state);
    let answer = both.event(random, Event::command(command));
    assert_eq!(answer[0], 0, "{command:02X}");
    (answer, both.bytes())
}

fn follow(random: &mut Random, state: &Controller, command: u8, byte: u8) {
    let mut both = Both::of(random, state);
    both.event(random, Event::command(command));
    for event in what_follows(byte) {
        both.event(random, event);
        both.look(random);
    }
}

/// One after the other all states of a mode and a set.
fn states(settings: Settings) -> Vec<Controller> {
    let mut all = Vec::new();
    for round in 0..6 {
        for pending in PENDINGS {
            all.push(state(settings, pending, round + all.len()));
        }
    }
    all
}

/// A command that does not act leaves just the bytes and lines that 00h leaves,
/// which no rule gives a meaning. One that acts leaves others somewhere.
#[test]
fn every_command_by_mode_and_set() {
    for settings in MODES_AND_SETS {
        let mut random = Random::new(seed(settings, 141));
        let mut differing = BTreeSet::new();
        for state in states(settings) {
            let unknown = at_once(&mut random, &state, 0x00);
            for command in 0..=0xFF {
                if at_once(&mut random, &state, command) != unknown {
                    differing.insert(command);
                }
                for byte in BYTES {
                    follow(&mut random, &state, command, byte);
                }
            }
        }
        assert_eq!(differing, acting(settings), "{settings:?}");
    }
}

/// Line by line: the pin, and for P10-P15 the latch.
fn read_as(pins: u8, latches: u8) -> u8 {
    let line = |number: u8| {
        let latched = number < 6 && latches >> number & 1 == 0;
        if latched { 0 } else { pins >> number & 1 }
    };
    (0..8).map(|number| line(number) << number).sum()
}

/// The bytes of a controller whose latches of P1 have a pattern.
fn latched(random: &mut Random, settings: Settings, latches: u8) -> Both {
    let mut state = Controller::fresh(settings);
    state.latches_1 = latches;
    Both::of(random, &state)
}

/// The status and C0h, by the pins that come and the latches that there are.
fn read_port(random: &mut Random, both: &mut Both, pins: u8, latches: u8) {
    let answer = both.event(random, Event::pins(pins));
    assert_eq!(answer[3] & 0xF0, pins >> 7 << 4);
    assert_eq!(both.event(random, Event::status())[1], answer[3]);
    both.event(random, Event::command(0xC0));
    let read = both.event(random, Event::read())[1];
    assert_eq!(read, read_as(pins, latches), "{pins:02X} {latches:02X}");
    assert_eq!([both.bytes()[2], both.bytes()[61]], [pins, latches]);
}

/// C1h and C2h, and the status with the key switch as it is and as it is not.
fn poll_port(random: &mut Random, both: &mut Both, shown: [u8; 2], pins: u8, key_beside: bool) {
    for (command, upper) in [0xC1, 0xC2].into_iter().zip(shown) {
        let key = |pins: u8| if key_beside { pins >> 7 << 4 } else { 0 };
        let answer = both.event(random, Event::command(command));
        assert_eq!(answer[3] & 0xF0, upper | key(pins), "{command:02X}");
        assert_eq!(both.event(random, Event::status())[1], answer[3]);
        let moved = both.event(random, Event::pins(!pins));
        assert_eq!(moved[3] & 0xF0, upper | key(!pins), "{command:02X}");
        both.event(random, Event::pins(pins));
    }
    // Ended, so that the next status is without it.
    both.event(random, Event::command(0x00));
}

#[test]
fn every_latch_pattern_with_every_pin_pattern_in_ps2_mode() {
    let mut random = Random::new(142);
    for latches in 0..0x40 {
        let mut both = latched(&mut random, SECOND_SET, latches);
        for pins in 0..=0xFF {
            read_port(&mut random, &mut both, pins, latches);
            let read = read_as(pins, latches);
            // P11-P13 and P15-P17 in bits 5-7.
            let shown = [read << 4 & 0xE0, read & 0xE0];
            poll_port(&mut random, &mut both, shown, pins, true);
        }
    }
}

#[test]
fn every_latch_pattern_with_every_pin_pattern_in_at_mode() {
    let mut random = Random::new(143);
    for latches in 0..0x40 {
        let mut both = latched(&mut random, SECOND_SET_IN_AT_MODE, latches);
        for pins in 0..=0xFF {
            read_port(&mut random, &mut both, pins, latches);
        }
    }
}

/// All latches are 1 there, and the overlay has all of the upper half.
#[test]
fn every_pin_pattern_with_the_first_set() {
    let mut random = Random::new(144);
    for settings in [ORDINARY, AT_MODE] {
        let mut both = Both::started(&mut random, settings);
        for pins in 0..=0xFF {
            read_port(&mut random, &mut both, pins, 0x3F);
            if !settings.at_mode {
                let shown = [pins << 4, pins & 0xF0];
                poll_port(&mut random, &mut both, shown, pins, false);
            }
        }
    }
}

/// Each of the commands over each pattern of the latches that it may write, and
/// P2 and C0h after it.
#[test]
fn every_latch_command_over_every_pattern() {
    for settings in [SECOND_SET, SECOND_SET_IN_AT_MODE] {
        let mut random = Random::new(seed(settings, 145));
        for number in 0..0x40 {
            for command in of_second_set() {
                let mut state = Controller::fresh(settings);
                set_latches(&mut state, number % 32);
                set_input_latches(&mut state, number);
                let mut both = Both::of(&mut random, &state);
                let events = [
                    Event::command(command),
                    Event::command(0xD0),
                    Event::read(),
                    Event::command(0xC0),
                    Event::read(),
                ];
                both.accept(&mut random, &events);
            }
        }
    }
}
