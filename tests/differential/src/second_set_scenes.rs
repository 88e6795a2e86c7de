//! The states that noise could spoil with the second command set, in either mode.

use crate::event::{Event, kind};
use crate::noise_scenes::{Holds, Read, Scene, TURNED, key, write};
use model::{Controller, Pending, Settings};

/// Those of both modes, and in PS/2 mode overlays.
pub fn scenes(settings: Settings) -> Vec<Scene> {
    let accepted = [0, if settings.at_mode { 12 } else { 0 }];
    let mut all = vec![
        input_latches(accepted),
        allowed(settings, accepted),
        forbidden(settings, accepted),
        no_code(accepted),
        version(settings),
    ];
    if !settings.at_mode {
        all.extend(overlays(settings));
    }
    all
}

/// Both devices switched on, in AT mode the keyboard alone, then the given
/// events.
fn on(events: &[Event]) -> Vec<Event> {
    let on = [Event::command(0xAE), Event::command(0xA8)];
    [&on, events].concat()
}

fn input_latches(refusals: [u8; 2]) -> Scene {
    let latches = [Event::command(0x95), Event::command(0xB6)];
    Scene {
        name: "latches of P1 written",
        before: on(&[&latches[..], &[Event::pins(0xBB)]].concat()),
        holds: |state| state.latches_1 == 0b10_0101,
        refusals,
        next: vec![Event::command(0xC0), Event::read()],
        reads: vec![[0xA1, 0]],
    }
}

fn port_awaited(state: &Controller) -> bool {
    state.pending == Pending::OutputPort
}

/// Both lines are written, which AT mode shows.
fn allowed(settings: Settings, refusals: [u8; 2]) -> Scene {
    let before = [Event::command(0xC8), Event::command(0xD1)];
    let port = if settings.at_mode { 0x80 } else { 0x00 };
    Scene {
        name: "D1h allowed to write P22 and P23",
        before: on(&before),
        holds: |state| port_awaited(state) && state.output_port_allowed,
        refusals,
        next: vec![Event::data(0x00), Event::command(0xD0), Event::read()],
        reads: vec![[port, 0]],
    }
}

/// The lines stay 1, which AT mode shows; in PS/2 mode bit 3 is the mouse's.
fn forbidden(settings: Settings, refusals: [u8; 2]) -> Scene {
    let port = if settings.at_mode { 0x8C } else { 0x00 };
    Scene {
        name: "D1h forbidden to write P22 and P23",
        before: on(&[Event::command(0xD1)]),
        holds: |state| port_awaited(state) && !state.output_port_allowed,
        refusals,
        next: vec![Event::data(0x00), Event::command(0xD0), Event::read()],
        reads: vec![[port, 0]],
    }
}

fn no_code(refusals: [u8; 2]) -> Scene {
    Scene {
        name: "A5h, which is switched off",
        before: on(&[Event::command(0xA5)]),
        holds: |state| state.command_flag && state.pending == Pending::None,
        refusals,
        // The byte goes to the keyboard.
        next: vec![
            Event::data(0x1E),
            Event::new(kind::BYTE_TIMED_OUT, 0),
            Event::read(),
        ],
        reads: vec![[0xFE, 0]],
    }
}

fn version(settings: Settings) -> Scene {
    Scene {
        name: "the version byte waits",
        before: on(&[Event::command(0xA1)]),
        holds: |state| state.full && state.output == state.settings.version,
        refusals: [5, if settings.at_mode { 12 } else { 5 }],
        next: vec![Event::status(), Event::read()],
        reads: vec![[settings.version, 0]],
    }
}

/// The key is turned under them, and back.
fn overlays(settings: Settings) -> Vec<Scene> {
    let scene = |name, command, holds: Holds, reads: Vec<Read>| Scene {
        name,
        before: on(&[Event::pins(0xAB), Event::command(command)]),
        holds,
        refusals: [0, 0],
        next: [
            &[Event::status(), Event::pins(TURNED), Event::status()][..],
            &[Event::pins(0xFF), key(settings, 0x1E), Event::read()],
            &write(0xD2, 0x77),
            &[Event::read()],
        ]
        .concat(),
        reads,
    };
    let reads = || vec![[0x1E, 0], [0x77, 0]];
    vec![
        scene(
            "an overlay of P11-P13",
            0xC1,
            |state| state.overlay == Some(0x0A),
            reads(),
        ),
        scene(
            "an overlay of P15-P17",
            0xC2,
            |state| state.overlay == Some(0x0A),
            reads(),
        ),
    ]
}
