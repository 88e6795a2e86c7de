//! The states that noise could spoil in AT mode, where that of the mouse is
//! refused by 12 wherever it comes.

use crate::event::{Event, kind};
use crate::noise_scenes::{
    BROKEN, Holds, Read, Scene, TURNED, WRONG_PARITY, key, key_and_read, keyboard, write,
};
use model::{Controller, Device, Pending, Settings, mode};

pub fn scenes(settings: Settings) -> Vec<Scene> {
    let mut all = waiting(settings);
    all.extend(errors(settings));
    all.extend(breaks(settings));
    all.extend(sending(settings));
    all.extend(pending());
    all.extend([off(settings), latches(), key_turned(settings)]);
    all
}

const ACCEPTED: [u8; 2] = [0, 12];
const REFUSED: [u8; 2] = [5, 12];

/// The keyboard switched on, then the given events.
fn on(events: &[Event]) -> Vec<Event> {
    [&[Event::command(0xAE)], events].concat()
}

/// The same with D1h allowed to write P22 and P23, for which the second set asks.
/// The first set does not know the command.
fn on_and_allowed(events: &[Event]) -> Vec<Event> {
    [&[Event::command(0xC8)], &on(events)[..]].concat()
}

/// A byte is sent to the keyboard, which does not take it.
fn time_out() -> [Event; 2] {
    [Event::data(0xED), Event::new(kind::BYTE_TIMED_OUT, 0)]
}

fn waiting(settings: Settings) -> Vec<Scene> {
    let scene = |name, events: &[Event], byte| Scene {
        name,
        before: on(events),
        holds: |state| state.full,
        refusals: REFUSED,
        next: vec![Event::status(), Event::read()],
        reads: vec![[byte, 0]],
    };
    vec![
        scene("a key waits", &[key(settings, 0x1E)], 0x1E),
        scene("FFh waits", &[keyboard(BROKEN)], 0xFF),
        scene("FEh waits", &time_out(), 0xFE),
    ]
}

fn errors(settings: Settings) -> Vec<Scene> {
    let scene = |name, events: &[Event], byte, holds: Holds| Scene {
        name,
        before: [on(events), vec![Event::read()]].concat(),
        holds,
        refusals: ACCEPTED,
        next: [vec![Event::status(), Event::read()], key_and_read(settings)].concat(),
        reads: vec![[byte, 1], [0x1E, 0]],
    };
    vec![
        scene("transmit time-out", &time_out(), 0xFE, |state| {
            state.transmit_timeout
        }),
        scene("receive time-out", &[keyboard(BROKEN)], 0xFF, |state| {
            state.timeout_error
        }),
        scene("parity error", &[keyboard(WRONG_PARITY)], 0xFF, |state| {
            state.parity_error
        }),
    ]
}

/// F0h has come, with the command byte and the pins given. The key after it
/// gives a break code once they are as they were.
fn breaks(settings: Settings) -> Vec<Scene> {
    let scene = |name, bits, pins| Scene {
        name,
        before: [
            on(&[Event::key(0xF0)]),
            write(0x60, bits).to_vec(),
            vec![Event::pins(pins)],
        ]
        .concat(),
        holds: |state| state.break_flag,
        refusals: ACCEPTED,
        next: [
            write(0x60, mode::TRANSLATE).to_vec(),
            vec![Event::pins(0xFF)],
            key_and_read(settings),
        ]
        .concat(),
        reads: vec![[0x9E, 0]],
    };
    let overridden = mode::TRANSLATE | mode::INHIBIT_OVERRIDE;
    vec![
        scene("after F0h", mode::TRANSLATE, 0xFF),
        scene("after F0h, untranslated", 0, 0xFF),
        scene("after F0h, inhibited", mode::TRANSLATE, TURNED),
        scene("after F0h, inhibit overridden", overridden, TURNED),
    ]
}

fn sending(settings: Settings) -> Vec<Scene> {
    let scene = |name, end, first: Read| Scene {
        name,
        before: on(&[Event::data(0xED)]),
        holds: |state| matches!(state.sending, Some((Device::Keyboard, 0xED))),
        refusals: REFUSED,
        next: [
            vec![Event::new(end, 0), Event::status(), Event::read()],
            key_and_read(settings),
        ]
        .concat(),
        reads: vec![first, [0x1E, 0]],
    };
    vec![
        scene("sending, taken", kind::BYTE_TAKEN, [0, 1]),
        scene("sending, timed out", kind::BYTE_TIMED_OUT, [0xFE, 0]),
    ]
}

fn pending() -> Vec<Scene> {
    let scene = |name, command, holds: Holds, next: &[Event], read: Read| Scene {
        name,
        before: on_and_allowed(&[Event::command(command)]),
        holds,
        refusals: ACCEPTED,
        next: [next, &[Event::read()]].concat(),
        reads: vec![read],
    };
    let port_written = |state: &Controller| state.pending == Pending::OutputPort;
    let cell_written = |state: &Controller| state.pending == Pending::Cell(1);
    let nothing_pending = |state: &Controller| state.command_flag && state.pending == Pending::None;
    vec![
        scene(
            "the output port to be written",
            0xD1,
            port_written,
            &[Event::data(0x26), Event::command(0xD0)],
            [0xA6, 0],
        ),
        scene(
            "a cell to be written",
            0x61,
            cell_written,
            &[Event::data(0x77), Event::command(0x21)],
            [0x77, 0],
        ),
        scene(
            "a command that is switched off",
            0xA5,
            nothing_pending,
            // The byte goes to the keyboard.
            &[Event::data(0x1E), Event::new(kind::BYTE_TIMED_OUT, 0)],
            [0xFE, 0],
        ),
    ]
}

fn off(settings: Settings) -> Scene {
    Scene {
        name: "the keyboard off",
        before: Vec::new(),
        holds: |state| state.mode(mode::KEYBOARD_OFF),
        refusals: REFUSED,
        next: on(&key_and_read(settings)),
        reads: vec![[0x1E, 0]],
    }
}

/// P25 high and the others low, which none of them is when fresh.
fn latches() -> Scene {
    Scene {
        name: "latches written",
        before: on_and_allowed(&write(0xD1, 0x20)),
        holds: |state| state.latch_25 && !state.latch_22 && !state.latch_23,
        refusals: ACCEPTED,
        next: vec![Event::command(0xD0), Event::read()],
        reads: vec![[0xA0, 0]],
    }
}

fn key_turned(settings: Settings) -> Scene {
    let then = [Event::read(), Event::pins(TURNED)];
    Scene {
        name: "the key turned, transmit time-out",
        before: on(&[&time_out()[..], &then].concat()),
        holds: |state| state.inhibited() && state.transmit_timeout,
        refusals: ACCEPTED,
        // The key is swallowed, and clears the flag all the same.
        next: vec![Event::status(), key(settings, 0x1E), Event::read()],
        reads: vec![[0xFE, 1]],
    }
}
