//! Images that keep the body rules, drawn at random, and ways to mend sums.

use crate::random::Random;
use crate::under_settings::WITH_BUILT_IN_TABLE;
use model::{
    Controller, Device, EDITION_1_BODY_SIZE, EDITION_1_SIZE, Edition, IMAGE_SIZE, Password,
    Pending, Settings, encode, mode, save, seal,
};

/// Writes the sum that the body of an image asks for.
pub fn mend(edition: Edition, image: &mut [u8]) {
    let start = image.len() - edition.image_size();
    let (body, trailer) = image[start..].split_at_mut(edition.body_size());
    trailer[2..4].copy_from_slice(&model::word_sum(body).to_le_bytes());
}

fn pending(random: &mut Random) -> Pending {
    match random.below(8) {
        0 => Pending::None,
        1 => Pending::Mode,
        2 => Pending::Cell(random.byte_in(1..=31)),
        3 => Pending::Password,
        4 => Pending::OutputPort,
        5 => Pending::Output,
        6 => Pending::MouseOutput,
        _ => Pending::SendToMouse,
    }
}

fn device(random: &mut Random) -> Device {
    random.pick(&[Device::Keyboard, Device::Mouse])
}

/// Some have few different bytes, so that a wrong key may be a start of them.
fn password(random: &mut Random) -> Password {
    let mut password = Password::EMPTY;
    let repeats = random.pick(&[0, 0, 75]);
    for _ in 0..random.below(17) {
        let last = if random.chance(95) { 0x7F } else { 0xFF };
        let again = !password.is_empty() && random.chance(repeats);
        password.push(if again {
            random.pick(password.bytes())
        } else {
            random.byte_in(0x01..=last)
        });
    }
    password
}

/// Locks where the rules allow it, with the keyboard mostly on.
fn maybe_lock(state: &mut Controller, random: &mut Random) {
    if state.password.is_empty() || random.chance(40) {
        return;
    }
    state.locked = true;
    state.pending = Pending::None;
    state.sending = None;
    let position = random.below(state.password.len());
    state.count_first(position);
    if random.chance(80) {
        state.clear_mode(mode::KEYBOARD_OFF);
    }
}

/// What only AT mode changes.
fn draw_at_mode(state: &mut Controller, random: &mut Random) {
    state.latch_22 = random.chance(50);
    state.latch_23 = random.chance(50);
    state.latch_25 = random.chance(50);
    state.transmit_timeout = random.chance(50);
}

/// What only the second set changes, and what it leaves out of an overlay.
fn draw_second_set(state: &mut Controller, random: &mut Random) {
    state.latches_1 = random.byte_in(0..=0x3F);
    state.latch_22 = random.chance(50);
    state.latch_23 = random.chance(50);
    state.output_port_allowed = random.chance(50);
    state.overlay = state.overlay.map(|nibble| nibble & !1);
}

/// Any state that keeps the body rules, reachable by events or not.
pub fn state(random: &mut Random, settings: Settings) -> Controller {
    let full = random.chance(50);
    let mut ram = [0; 32];
    ram.copy_from_slice(&random.bytes(32));
    ram[0] &= 0x7F;
    let mut state = Controller {
        output: random.byte(),
        full,
        source: if full {
            device(random)
        } else {
            Device::Keyboard
        },
        command_flag: random.chance(50),
        timeout_error: random.chance(50),
        parity_error: random.chance(50),
        break_flag: random.chance(30),
        locked: false,
        pins: random.byte(),
        latch_20: random.chance(50),
        latch_21: random.chance(50),
        pending: pending(random),
        overlay: random.chance(30).then(|| random.byte_in(0..=15)),
        sending: random.chance(30).then(|| (device(random), random.byte())),
        password: password(random),
        ram,
        ..Controller::fresh(settings)
    };
    if settings.at_mode {
        draw_at_mode(&mut state, random);
    }
    if settings.second_set {
        draw_second_set(&mut state, random);
    }
    maybe_lock(&mut state, random);
    state
}

/// An image behind other bytes.
pub fn behind(random: &mut Random, image: &[u8]) -> Vec<u8> {
    let lead = random.pick(&[0, 0, 1, 2, 4, 7, 60, 68, 72, 200]);
    let mut bytes = random.bytes(lead);
    bytes.extend_from_slice(image);
    bytes
}

/// A random sound image.
pub fn image(random: &mut Random) -> [u8; IMAGE_SIZE] {
    let settings = random.pick(&WITH_BUILT_IN_TABLE);
    save(&state(random, settings))
}

/// A state as an image of edition 1, which has no place for its settings.
pub fn as_edition_1(state: &Controller) -> [u8; EDITION_1_SIZE] {
    let body = &encode(state)[..EDITION_1_BODY_SIZE];
    let image = seal(Edition::First, body);
    image.try_into().expect("a body and its trailer")
}

/// A random sound image of edition 1.
pub fn edition_1_image(random: &mut Random) -> [u8; EDITION_1_SIZE] {
    as_edition_1(&state(random, Settings::ORDINARY))
}

/// A random sound image of the edition that is asked for.
pub fn image_of(random: &mut Random, edition: Edition) -> Vec<u8> {
    match edition {
        Edition::First => edition_1_image(random).to_vec(),
        Edition::Second => image(random).to_vec(),
    }
}

#[cfg(test)]
mod tests {
    use super::*;
    use crate::under_settings::all;
    use model::keeps_state_rules;

    #[test]
    fn drawn_states_keep_the_rules() {
        let mut random = Random::new(8);
        for settings in all() {
            for _ in 0..2_000 {
                assert!(keeps_state_rules(&state(&mut random, settings)));
            }
        }
    }

    #[test]
    fn mended_images_are_those_that_are_drawn() {
        let mut random = Random::new(9);
        for edition in Edition::ALL {
            for _ in 0..100 {
                let image = image_of(&mut random, edition);
                let mut mended = image.clone();
                let at = edition.body_size() + 2;
                mended[at] ^= 1;
                mend(edition, &mut mended);
                assert_eq!(mended, image);
                assert_eq!(model::find(&image).len(), edition.body_size());
            }
        }
    }
}
