//! Every frame of both devices, and the ends of a byte being sent, from states
//! with each mix of the error flags.

use differential::both::Both;
use differential::event::{Event, kind};
use differential::random::Random;
use differential::refusals::Refusals;
use differential::situations::{Errors, OUTPUTS, error_mixes, fill, set_errors};
use differential::under_settings::{seed, thinned};
use model::{Controller, Device, Settings, mode};

/// P1 with the key switch turned.
const TURNED: u8 = 0x7F;

/// What may refuse a frame or keep its byte back.
#[derive(Clone, Copy, Debug)]
struct Way {
    device_off: bool,
    full: bool,
    sending: bool,
    key_turned: bool,
    override_on: bool,
}

fn ways() -> impl Iterator<Item = Way> {
    (0..32).map(|bits| Way {
        device_off: bits & 1 != 0,
        full: bits & 2 != 0,
        sending: bits & 4 != 0,
        key_turned: bits & 8 != 0,
        override_on: bits & 16 != 0,
    })
}

/// The devices that there are frames of, with their kinds and bits.
const DEVICES: [(u8, Device, u8); 2] = [
    (kind::KEYBOARD_FRAME, Device::Keyboard, mode::KEYBOARD_OFF),
    (kind::MOUSE_FRAME, Device::Mouse, mode::MOUSE_OFF),
];

/// EKI is on, so that a byte shows on P2.
fn standing(settings: Settings, off_bit: u8, way: Way, errors: Errors) -> Controller {
    let mut state = Controller::fresh(settings);
    state.ram[0] = mode::EKI | mode::TRANSLATE;
    if way.device_off {
        state.set_mode(off_bit);
    }
    if way.override_on {
        state.set_mode(mode::INHIBIT_OVERRIDE);
    }
    if way.key_turned {
        state.pins = TURNED;
    }
    if way.full {
        state.put(0x4B, Device::Keyboard);
    }
    state.sending = way.sending.then_some((Device::Keyboard, 0xED));
    set_errors(&mut state, errors);
    state
}

/// In PS/2 mode the mouse is refused by 5 as the keyboard is.
fn expected_refusal(settings: Settings, device: Device, way: Way) -> u8 {
    if settings.at_mode && device == Device::Mouse {
        12
    } else if way.device_off || way.full || way.sending {
        5
    } else {
        0
    }
}

fn every_frame_over_every_mix_of_errors(settings: Settings) {
    let mut random = Random::new(seed(settings, 121));
    for (kind, device, off_bit) in DEVICES {
        let with_errors = |way| error_mixes(settings).into_iter().map(move |mix| (way, mix));
        for (way, errors) in thinned(settings, ways().flat_map(with_errors)) {
            let refusal = expected_refusal(settings, device, way);
            let state = standing(settings, off_bit, way, errors);
            let mut both = Both::of(&mut random, &state);
            for value in 0..0x800 {
                let answer = both.event(&mut random, Event::new(kind, value));
                assert_eq!(answer[0], refusal, "{way:?} frame {value:03X}");
                if both.model != state {
                    both = Both::of(&mut random, &state);
                }
            }
        }
    }
}

/// The same with a break flag, at the lock and within its code, where one key
/// opens and another leaves the position. In AT mode and with the second set no
/// events shut it.
fn every_keyboard_frame_at_the_lock_and_after_f0h(settings: Settings) {
    let mut random = Random::new(seed(settings, 122));
    let way = ways().next().expect("nothing in the way");
    for errors in error_mixes(settings) {
        for bits in 0..8 {
            let mut state = standing(settings, mode::KEYBOARD_OFF, way, errors);
            state.break_flag = bits & 1 != 0;
            if bits & 2 != 0 {
                for byte in [0x1E, 0x1E, 0x30] {
                    state.password.push(byte);
                }
                state.locked = true;
                state.count_first(2);
            }
            if bits & 4 != 0 {
                state.clear_mode(mode::TRANSLATE);
            }
            for value in 0..0x800 {
                let mut both = Both::of(&mut random, &state);
                let frame = Event::new(kind::KEYBOARD_FRAME, value);
                assert_eq!(both.event(&mut random, frame)[0], 0);
            }
        }
    }
}

/// The command byte shows on P2 what is put, and the key switch must not matter.
fn sending(settings: Settings, bits: u8, source: Option<Device>, errors: Errors) -> Controller {
    let mut state = Controller::fresh(settings);
    state.ram[0] = bits;
    state.pins = if bits.is_multiple_of(3) { TURNED } else { 0xFF };
    fill(&mut state, source);
    set_errors(&mut state, errors);
    state
}

/// A byte taken and one that timed out, sent to either device or to nobody.
fn every_end_of_sending_over_every_mix_of_errors(settings: Settings) {
    let mut random = Random::new(seed(settings, 123));
    let mut refusals = Refusals::default();
    for errors in error_mixes(settings) {
        for source in OUTPUTS {
            for bits in 0..0x80 {
                let mut state = sending(settings, bits, source, errors);
                for to in [None, Some(Device::Keyboard), Some(Device::Mouse)] {
                    state.sending = to.map(|device| (device, bits));
                    for end in [kind::BYTE_TAKEN, kind::BYTE_TIMED_OUT] {
                        let mut both = Both::of(&mut random, &state);
                        let answer = both.event(&mut random, Event::new(end, 0));
                        refusals.note(answer[0]);
                        both.event(&mut random, Event::read());
                    }
                }
            }
        }
    }
    assert!(refusals.least(&[0, 6]) > 1_000);
}

differential::under_every_setting!(
    every_frame_over_every_mix_of_errors,
    every_keyboard_frame_at_the_lock_and_after_f0h,
    every_end_of_sending_over_every_mix_of_errors,
);
