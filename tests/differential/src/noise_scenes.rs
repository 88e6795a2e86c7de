//! States that noise could spoil, made by events, and what comes after them.

use crate::at_mode_scenes;
use crate::event::{Event, kind};
use crate::keys;
use crate::second_set_scenes;
use crate::under_settings::locks;
use model::{Controller, Device, Pending, Settings, mode};

pub(crate) const BROKEN: u16 = 1022;
pub(crate) const WRONG_PARITY: u16 = 0x428;
/// P1 with the key switch turned.
pub(crate) const TURNED: u8 = 0x7F;
/// What the lock puts when it opens.
const OPENED: u8 = 0x99;

/// A byte that a read gives, and its old mark.
pub type Read = [u8; 2];

pub type Holds = fn(&Controller) -> bool;

pub struct Scene {
    pub name: &'static str,
    /// The events that lead there, each of them accepted.
    pub before: Vec<Event>,
    /// What must then hold.
    pub holds: Holds,
    /// What refuses noise of the keyboard, and of the mouse.
    pub refusals: [u8; 2],
    /// What comes next, accepted too.
    pub next: Vec<Event>,
    /// What the reads of port 60h among it give.
    pub reads: Vec<Read>,
}

pub fn scenes(settings: Settings) -> Vec<Scene> {
    let mut all = if settings.at_mode {
        at_mode_scenes::scenes(settings)
    } else {
        scenes_in_ps2_mode(settings)
    };
    if settings.second_set {
        all.extend(second_set_scenes::scenes(settings));
    }
    all
}

fn scenes_in_ps2_mode(settings: Settings) -> Vec<Scene> {
    let mut all = waiting(settings);
    all.extend(errors(settings));
    all.extend(breaks(settings));
    all.extend(sending());
    all.extend(off(settings));
    all.extend([key_turned(settings), byte_to_be_put()]);
    if locks(settings) {
        let of_first_set = [code_being_loaded, overlay, notice];
        all.extend(of_first_set.map(|scene| scene(settings)));
        all.extend(within_a_code(settings));
    }
    all
}

pub(crate) fn keyboard(value: u16) -> Event {
    Event::new(kind::KEYBOARD_FRAME, value)
}

fn mouse(value: u16) -> Event {
    Event::new(kind::MOUSE_FRAME, value)
}

pub(crate) fn write(command: u8, data: u8) -> [Event; 2] {
    [Event::command(command), Event::data(data)]
}

/// Both devices switched on, then the given events.
fn on(events: &[Event]) -> Vec<Event> {
    let on = [Event::command(0xAE), Event::command(0xA8)];
    [&on, events].concat()
}

/// The key that gives a code.
pub(crate) fn key(settings: Settings, code: u8) -> Event {
    Event::key(keys::giving(settings, code))
}

/// The key that gives 1Eh, and a read of it.
pub(crate) fn key_and_read(settings: Settings) -> Vec<Event> {
    vec![key(settings, 0x1E), Event::read()]
}

fn waiting(settings: Settings) -> Vec<Scene> {
    let scene = |name, event, byte| Scene {
        name,
        before: on(&[event]),
        holds: |state| state.full,
        refusals: [5, 5],
        next: vec![Event::status(), Event::read()],
        reads: vec![[byte, 0]],
    };
    vec![
        scene("a key waits", key(settings, 0x1E), 0x1E),
        scene("a mouse byte waits", Event::mouse(0x14), 0x14),
        scene("FFh of the keyboard waits", keyboard(BROKEN), 0xFF),
        scene("FFh of the mouse waits", mouse(WRONG_PARITY), 0xFF),
    ]
}

fn errors(settings: Settings) -> Vec<Scene> {
    let scene = |name, events: &[Event], byte, holds: Holds| Scene {
        name,
        before: [on(events), vec![Event::read()]].concat(),
        holds,
        refusals: [0, 0],
        next: [vec![Event::status(), Event::read()], key_and_read(settings)].concat(),
        reads: vec![[byte, 1], [0x1E, 0]],
    };
    let time_out = [Event::data(0xED), Event::new(kind::BYTE_TIMED_OUT, 0)];
    let terr: Holds = |state| state.timeout_error;
    let perr: Holds = |state| state.parity_error;
    vec![
        scene("TERR by the keyboard", &[keyboard(BROKEN)], 0xFF, terr),
        scene("TERR by the mouse", &[mouse(BROKEN)], 0xFF, terr),
        scene("TERR by a time-out", &time_out, 0xFE, terr),
        scene(
            "PERR by the keyboard",
            &[keyboard(WRONG_PARITY)],
            0xFF,
            perr,
        ),
        scene("PERR by the mouse", &[mouse(WRONG_PARITY)], 0xFF, perr),
    ]
}

/// F0h has come. The key after it gives a break code.
fn breaks(settings: Settings) -> Vec<Scene> {
    let prefix = Event::key(0xF0);
    let turned = Event::pins(TURNED);
    let untranslated = write(0x60, 0);
    let scene = |name, before, first: &[Event]| Scene {
        name,
        before,
        holds: |state| state.break_flag,
        refusals: [0, 0],
        next: [first, &key_and_read(settings)].concat(),
        reads: vec![[0x9E, 0]],
    };
    vec![
        scene("after F0h", on(&[prefix]), &[]),
        scene(
            "after F0h, untranslated",
            on(&[&[prefix], &untranslated[..]].concat()),
            &write(0x60, mode::TRANSLATE),
        ),
        scene(
            "after F0h, inhibited",
            on(&[turned, prefix]),
            &[Event::pins(0xFF)],
        ),
        scene(
            "after F0h, inhibit overridden",
            [
                &write(0x60, mode::TRANSLATE | mode::INHIBIT_OVERRIDE)[..],
                &[turned, prefix],
            ]
            .concat(),
            &[],
        ),
    ]
}

fn sending() -> Vec<Scene> {
    let scene = |name, events: &[Event], holds: Holds, end, first| Scene {
        name,
        before: on(events),
        holds,
        refusals: [5, 5],
        next: vec![
            Event::new(end, 0),
            Event::read(),
            Event::mouse(0x14),
            Event::read(),
        ],
        reads: vec![first, [0x14, 0]],
    };
    vec![
        scene(
            "sending to the keyboard",
            &[Event::data(0xED)],
            |state| matches!(state.sending, Some((Device::Keyboard, 0xED))),
            kind::BYTE_TAKEN,
            [0, 1],
        ),
        scene(
            "sending to the mouse",
            &write(0xD4, 0xF4),
            |state| matches!(state.sending, Some((Device::Mouse, 0xF4))),
            kind::BYTE_TIMED_OUT,
            [0xFE, 0],
        ),
    ]
}

fn off(settings: Settings) -> Vec<Scene> {
    let scene = |name, before: &[Event], refusals| Scene {
        name,
        before: before.to_vec(),
        holds: |state| !state.full && state.sending.is_none(),
        refusals,
        next: on(&key_and_read(settings)),
        reads: vec![[0x1E, 0]],
    };
    vec![
        scene("both devices off", &[], [5, 5]),
        scene("the mouse off", &[Event::command(0xAE)], [0, 5]),
        scene("the keyboard off", &[Event::command(0xA8)], [5, 0]),
    ]
}

fn code_being_loaded(settings: Settings) -> Scene {
    let rest_of_code = [Event::data(0x30), Event::data(0), Event::command(0xA6)];
    let keys = [key(settings, 0x1E), key(settings, 0x30)];
    Scene {
        name: "a code being loaded",
        before: on(&write(0xA5, 0x1E)),
        holds: |state| state.pending == Pending::Password,
        refusals: [0, 0],
        // The code is whole, so its keys open, and the next key is put.
        next: [&rest_of_code[..], &keys, &key_and_read(settings)].concat(),
        reads: vec![[0x1E, 0]],
    }
}

fn byte_to_be_put() -> Scene {
    Scene {
        name: "a byte to be put",
        before: on(&[Event::command(0xD2)]),
        holds: |state| state.pending == Pending::Output,
        refusals: [0, 0],
        next: vec![Event::data(0x77), Event::read()],
        reads: vec![[0x77, 0]],
    }
}

/// The first set's; that of the second is another.
fn overlay(settings: Settings) -> Scene {
    Scene {
        name: "an overlay",
        before: on(&[Event::pins(0xA5), Event::command(0xC1)]),
        holds: |state| state.overlay == Some(5),
        refusals: [0, 0],
        next: [vec![Event::status()], key_and_read(settings)].concat(),
        reads: vec![[0x1E, 0]],
    }
}

/// Locked with 1Eh 30h 2Eh and a notice for when it opens.
fn lock() -> Vec<Event> {
    let code = [Event::data(0x30), Event::data(0x2E), Event::data(0)];
    let notice = write(0x74, OPENED);
    [
        &notice[..],
        &write(0xA5, 0x1E),
        &code,
        &[Event::command(0xA6)],
    ]
    .concat()
}

/// The first two keys have come, so that the third opens.
fn within_a_code(settings: Settings) -> Vec<Scene> {
    let keys = [key(settings, 0x1E), key(settings, 0x30)];
    let scene = |name, mode, then: &[Event], holds: Holds, next: &[Event]| Scene {
        name,
        before: [&write(0x60, mode)[..], &lock(), &keys, then].concat(),
        holds,
        refusals: [0, 0],
        next: [next, &[key(settings, 0x2E), Event::read()]].concat(),
        reads: vec![[OPENED, 0]],
    };
    let turned = [Event::pins(TURNED)];
    let back = [Event::pins(0xFF)];
    vec![
        scene("within a code", mode::TRANSLATE, &[], within, &[]),
        scene("within a code, untranslated", 0, &[], within, &[]),
        scene(
            "within a code, after a mismatch",
            mode::TRANSLATE,
            &keys,
            within,
            &[],
        ),
        scene(
            "within a code, TERR by the mouse",
            mode::TRANSLATE,
            &[mouse(BROKEN)],
            |state| within(state) && state.timeout_error,
            &[],
        ),
        scene(
            "within a code, PERR by the mouse",
            mode::TRANSLATE,
            &[mouse(WRONG_PARITY)],
            |state| within(state) && state.parity_error,
            &[],
        ),
        scene(
            "within a code, after F0h",
            mode::TRANSLATE,
            &[Event::key(0xF0)],
            |state| within(state) && state.break_flag,
            // A break code is ignored.
            &[key(settings, 0x1E)],
        ),
        scene(
            "within a code, inhibited",
            mode::TRANSLATE,
            &turned,
            |state| within(state) && state.inhibited(),
            &back,
        ),
        scene(
            "within a code, inhibit overridden",
            mode::TRANSLATE | mode::INHIBIT_OVERRIDE,
            &turned,
            |state| within(state) && state.key_turned(),
            &[],
        ),
    ]
}

fn within(state: &Controller) -> bool {
    state.position() == 2
}

/// The mouse has set an error before the key was turned. Its next byte is put
/// unless the mouse lock keeps it back, and the one after the key is turned
/// back is put in any case.
fn key_turned(settings: Settings) -> Scene {
    let before = [mouse(BROKEN), Event::read(), Event::pins(TURNED)];
    let first = if settings.mouse_lock {
        [0xFF, 1]
    } else {
        [0x14, 0]
    };
    Scene {
        name: "the key turned, TERR by the mouse",
        before: on(&before),
        holds: |state| state.key_turned() && state.timeout_error,
        refusals: [0, 0],
        next: vec![
            Event::mouse(0x14),
            Event::read(),
            Event::pins(0xFF),
            Event::mouse(0x15),
            Event::read(),
        ],
        reads: vec![first, [0x15, 0]],
    }
}

fn notice(settings: Settings) -> Scene {
    let keys = [
        key(settings, 0x1E),
        key(settings, 0x30),
        key(settings, 0x2E),
    ];
    Scene {
        name: "locked, its notice waits",
        before: on(&[&write(0x73, 0xC3)[..], &lock()].concat()),
        holds: |state| state.locked && state.full,
        refusals: [5, 5],
        next: [&[Event::read()], &keys[..], &[Event::read()]].concat(),
        reads: vec![[0xC3, 0], [OPENED, 0]],
    }
}
