//! Counts noise frames by what they could spoil where they came, and by what
//! refused them.

use crate::event::Event;
use crate::under_settings::locks;
use model::{Controller, Device, Pending, Settings, mode};

const DEVICES: [Device; 2] = [Device::Keyboard, Device::Mouse];

type Holds = fn(&Controller) -> bool;

/// Whether events from fresh bring it about under some settings.
type Possible = fn(Settings) -> bool;

const EVER: Possible = |_| true;
/// It takes a mouse or a polled P1.
const PS2: Possible = |settings| !settings.at_mode;
/// It takes a loaded code.
const LOCKS: Possible = locks;
const AT: Possible = |settings| settings.at_mode;

/// What may hold where noise comes; more than one of these at a time.
const STANDINGS: [(&str, Possible, Holds); 21] = [
    ("no error", EVER, |state| !has_error(state)),
    ("TERR", EVER, |state| state.timeout_error),
    ("PERR", EVER, |state| state.parity_error),
    ("transmit time-out", AT, |state| state.transmit_timeout),
    ("break flag", EVER, |state| state.break_flag),
    ("translated", EVER, |state| state.mode(mode::TRANSLATE)),
    ("untranslated", EVER, |state| !state.mode(mode::TRANSLATE)),
    ("untranslated, break flag", EVER, |state| {
        !state.mode(mode::TRANSLATE) && state.break_flag
    }),
    ("key not turned", EVER, |state| !state.key_turned()),
    ("key turned", EVER, |state| state.key_turned()),
    ("inhibited", EVER, |state| state.inhibited()),
    ("inhibit overridden", EVER, overridden),
    ("a code being loaded", LOCKS, |state| {
        state.pending == Pending::Password
    }),
    ("another code pending", EVER, other_pending),
    ("overlay", PS2, |state| state.overlay.is_some()),
    ("locked before a code", LOCKS, |state| {
        state.locked && !within(state)
    }),
    ("within a code", LOCKS, within),
    ("within a code, TERR", LOCKS, |state| {
        within(state) && state.timeout_error
    }),
    ("within a code, PERR", LOCKS, |state| {
        within(state) && state.parity_error
    }),
    ("within a code, break flag", LOCKS, |state| {
        within(state) && state.break_flag
    }),
    ("within a code, inhibited", LOCKS, |state| {
        within(state) && state.inhibited()
    }),
];

fn has_error(state: &Controller) -> bool {
    state.transmit_timeout || state.timeout_error || state.parity_error
}

fn overridden(state: &Controller) -> bool {
    state.key_turned() && !state.inhibited()
}

fn other_pending(state: &Controller) -> bool {
    !matches!(state.pending, Pending::None | Pending::Password)
}

/// Locked, with a start of the code typed.
fn within(state: &Controller) -> bool {
    state.position() > 0
}

const CAUSES: [&str; 3] = ["device off", "full", "sending"];

/// Which of the causes for refusal 5 there are.
fn causes(state: &Controller, device: Device) -> [bool; CAUSES.len()] {
    let off = match device {
        Device::Keyboard => mode::KEYBOARD_OFF,
        Device::Mouse => mode::MOUSE_OFF,
    };
    [state.mode(off), state.full, state.sending.is_some()]
}

#[derive(Clone, Debug, Default)]
struct Counts {
    /// Accepted, or refused by 12, for which the state does not matter.
    came: [usize; STANDINGS.len()],
    /// The same while the mouse lock kept the mouse from the host.
    kept_back: usize,
    /// Refused with this cause for refusal 5 and no other.
    refused: [usize; CAUSES.len()],
}

/// The keyboard's counts and the mouse's.
#[derive(Clone, Debug, Default)]
pub struct NoiseCoverage([Counts; DEVICES.len()]);

impl NoiseCoverage {
    /// Counts an event, where it is noise, by the state before it.
    pub fn note(&mut self, before: &Controller, event: Event, refusal: u8) {
        let device = event.frame_from().filter(|_| event.is_noise());
        for (counts, of) in self.0.iter_mut().zip(DEVICES) {
            if device == Some(of) {
                counts.note(before, of, refusal);
            }
        }
    }

    /// How often each situation came that can come under some settings, with
    /// its name.
    pub fn reached(&self, settings: Settings) -> Vec<(usize, String)> {
        let counts = self.0.iter().zip(DEVICES);
        counts
            .flat_map(|(counts, device)| counts.reached(settings, device))
            .collect()
    }
}

impl Counts {
    fn note(&mut self, before: &Controller, device: Device, refusal: u8) {
        if refusal != 5 {
            for (count, (_, _, holds)) in self.came.iter_mut().zip(STANDINGS) {
                *count += usize::from(holds(before));
            }
            self.kept_back += usize::from(before.mouse_inhibited());
        }
        if refusal == 0 {
            return;
        }
        let causes = causes(before, device);
        let alone = causes.iter().filter(|&&cause| cause).count() == 1;
        for (count, cause) in self.refused.iter_mut().zip(causes) {
            *count += usize::from(cause && alone);
        }
    }

    fn reached(&self, settings: Settings, device: Device) -> Vec<(usize, String)> {
        let came = self.came.iter().zip(STANDINGS);
        let mut all: Vec<_> = came
            .filter(|(_, (_, possible, _))| possible(settings))
            .map(|(&count, (name, _, _))| (count, format!("{device:?} noise, {name}")))
            .collect();
        if settings.mouse_lock {
            let name = format!("{device:?} noise, mouse lock and key turned");
            all.push((self.kept_back, name));
        }
        let refused = self.refused.iter().zip(CAUSES);
        all.extend(
            refused.map(|(&count, name)| (count, format!("{device:?} noise refused, {name}"))),
        );
        all
    }
}

#[cfg(test)]
mod tests {
    use super::*;
    use crate::event::kind;
    use crate::under_settings::{AT_MODE, MOUSE_LOCK, ORDINARY};

    fn on() -> Controller {
        on_under(ORDINARY)
    }

    fn on_under(settings: Settings) -> Controller {
        let mut state = Controller::fresh(settings);
        state.clear_mode(mode::KEYBOARD_OFF | mode::MOUSE_OFF);
        state
    }

    /// The names of all situations that one event counts in.
    fn reached(state: &Controller, event: Event) -> Vec<String> {
        let mut coverage = NoiseCoverage::default();
        let refusal = state.refusal(event.kind, event.value);
        coverage.note(state, event, refusal);
        let counts = coverage.reached(state.settings).into_iter();
        let reached = counts.filter(|&(count, _)| count == 1);
        reached.map(|(_, name)| name).collect()
    }

    fn keyboard_noise() -> Event {
        Event::new(kind::KEYBOARD_FRAME, 0x629)
    }

    fn mouse_noise() -> Event {
        Event::new(kind::MOUSE_FRAME, 0x7FF)
    }

    #[test]
    fn noise_counts_in_every_situation_that_holds() {
        let mut state = on();
        let expected = ["no error", "translated", "key not turned"];
        let named = |device: &str, names: &[&str]| -> Vec<String> {
            let name = |name| format!("{device} noise, {name}");
            names.iter().map(name).collect()
        };
        let of_keyboard = reached(&state, keyboard_noise());
        assert_eq!(of_keyboard, named("Keyboard", &expected));
        assert_eq!(reached(&state, mouse_noise()), named("Mouse", &expected));
        state.parity_error = true;
        state.pins = 0x7F;
        state.password.push(0x1E);
        state.password.push(0x30);
        state.locked = true;
        state.count_first(1);
        let expected = [
            "PERR",
            "translated",
            "key turned",
            "inhibited",
            "within a code",
            "within a code, PERR",
            "within a code, inhibited",
        ];
        assert_eq!(reached(&state, mouse_noise()), named("Mouse", &expected));
    }

    /// What the noise of the mouse is refused by there does not look at the
    /// state, so it counts wherever it comes.
    #[test]
    fn at_mode_counts_by_what_it_has() {
        let mut state = on_under(AT_MODE);
        state.transmit_timeout = true;
        state.put(0x14, Device::Keyboard);
        let of_mouse = [
            "Mouse noise, transmit time-out",
            "Mouse noise, translated",
            "Mouse noise, key not turned",
            "Mouse noise refused, full",
        ];
        assert_eq!(reached(&state, mouse_noise()), of_mouse);
        let full = reached(&state, keyboard_noise());
        assert_eq!(full, ["Keyboard noise refused, full"]);
        state.full = false;
        state.locked = true;
        let of_keyboard = reached(&state, keyboard_noise());
        assert_eq!(of_keyboard.len(), 3, "{of_keyboard:?}");
    }

    #[test]
    fn the_mouse_lock_counts_with_the_key_turned() {
        let name = "Mouse noise, mouse lock and key turned";
        for (settings, pins, expected) in [
            (ORDINARY, 0x7F, false),
            (MOUSE_LOCK, 0xFF, false),
            (MOUSE_LOCK, 0x7F, true),
        ] {
            let mut state = on_under(settings);
            state.pins = pins;
            let reached = reached(&state, mouse_noise());
            assert_eq!(reached.iter().any(|reached| reached == name), expected);
        }
    }

    #[test]
    fn only_noise_counts() {
        for value in [0x628, 0x428, 1022] {
            for kind in [kind::KEYBOARD_FRAME, kind::MOUSE_FRAME] {
                assert!(reached(&on(), Event::new(kind, value)).is_empty());
            }
        }
        for event in [Event::status(), Event::pins(0x7F), Event::data(1)] {
            assert!(reached(&on(), event).is_empty());
        }
        // Too large for a frame, and odd.
        assert!(reached(&on(), Event::new(kind::MOUSE_FRAME, 2049)).is_empty());
    }

    #[test]
    fn a_refusal_counts_where_it_has_one_cause() {
        let mut state = on();
        state.set_mode(mode::MOUSE_OFF);
        let off = reached(&state, mouse_noise());
        assert_eq!(off, ["Mouse noise refused, device off"]);
        state.put(0x14, Device::Mouse);
        assert!(reached(&state, mouse_noise()).is_empty());
        let full = reached(&state, keyboard_noise());
        assert_eq!(full, ["Keyboard noise refused, full"]);
        let mut state = on();
        state.sending = Some((Device::Mouse, 0xF4));
        let sending = reached(&state, keyboard_noise());
        assert_eq!(sending, ["Keyboard noise refused, sending"]);
    }
}
