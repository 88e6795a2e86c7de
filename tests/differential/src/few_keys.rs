//! Codes of few different bytes, so that a wrong key is often a start of the
//! code, and locks that are shut with them.

use crate::random::Random;
use model::{Controller, PASSWORD_LIMIT, Settings, cell, mode};

/// Two or three different bytes that keys give.
pub fn draw_bytes(random: &mut Random) -> Vec<u8> {
    let number = random.pick(&[2, 2, 3]);
    let mut bytes = Vec::new();
    while bytes.len() < number {
        let byte = random.byte_in(0x01..=0x7F);
        if !bytes.contains(&byte) {
            bytes.push(byte);
        }
    }
    bytes
}

pub fn draw_length(random: &mut Random) -> usize {
    1 + random.below(PASSWORD_LIMIT)
}

/// A code of the given bytes. Every other one begins with a shorter one that is
/// repeated, so that much of it is kept at a mismatch.
pub fn draw_code(random: &mut Random, bytes: &[u8], length: usize) -> Vec<u8> {
    let period = if random.chance(50) {
        1 + random.below(length)
    } else {
        length
    };
    let until = period + random.below(length - period + 1);
    draw_repeating(random, bytes, length, period, until)
}

/// A code whose first bytes are repeated with the given period up to a place,
/// or to the end. The byte there is another than the repetition's, which keeps
/// all but one period of what came before.
pub fn draw_repeating(
    random: &mut Random,
    bytes: &[u8],
    length: usize,
    period: usize,
    until: usize,
) -> Vec<u8> {
    let mut code: Vec<u8> = Vec::new();
    for at in 0..length {
        let mut byte = random.pick(bytes);
        if at >= period && at < until {
            byte = code[at - period];
        }
        while at >= period && at == until && byte == code[at - period] {
            byte = random.pick(bytes);
        }
        code.push(byte);
    }
    code
}

/// Every code of two given bytes that has the length.
pub fn every_code(bytes: [u8; 2], length: usize) -> impl Iterator<Item = Vec<u8>> {
    let code = move |number: usize| (0..length).map(|at| bytes[number >> at & 1]).collect();
    (0..1 << length).map(code)
}

/// Shut with a code, whose first bytes are the keys counted, and with both
/// devices on. The cells that a key is ignored for hold nothing, and 99h is put
/// when it opens.
pub fn locked(settings: Settings, code: &[u8], position: usize) -> Controller {
    let mut state = Controller::fresh(settings);
    state.clear_mode(mode::KEYBOARD_OFF | mode::MOUSE_OFF);
    state.ram[cell::UNLOCK_NOTICE] = 0x99;
    for &byte in code {
        assert!(state.password.push(byte));
    }
    state.locked = true;
    state.count_first(position);
    state
}

/// The same with a drawn code and position, drawn pins and command byte, and
/// keys to be ignored that are none of the code's.
pub fn draw_locked(random: &mut Random, settings: Settings) -> Controller {
    let bytes = draw_bytes(random);
    let length = draw_length(random);
    let code = draw_code(random, &bytes, length);
    let position = random.below(length);
    let mut state = locked(settings, &code, position);
    state.ram[cell::MODE] = random.byte() & !(mode::UNUSED | mode::KEYBOARD_OFF);
    state.ram[cell::UNLOCK_NOTICE] = random.pick(&[0, 0x99]);
    state.pins = random.byte() | 0x80;
    state.break_flag = random.chance(20);
    for number in cell::IGNORED {
        state.ram[number] = draw_other(random, &bytes);
    }
    state
}

/// A byte that a key gives and that is none of those given.
pub fn draw_other(random: &mut Random, bytes: &[u8]) -> u8 {
    loop {
        let byte = random.byte_in(0x01..=0x7F);
        if !bytes.contains(&byte) {
            return byte;
        }
    }
}

#[cfg(test)]
mod tests {
    use super::*;
    use model::keeps_state_rules;
    use std::collections::BTreeSet;

    #[test]
    fn every_code_comes_once() {
        for length in 1..=6 {
            let codes: BTreeSet<_> = every_code([0x1E, 0x30], length).collect();
            assert_eq!(codes.len(), 1 << length);
            assert!(codes.iter().all(|code| code.len() == length));
        }
    }

    #[test]
    fn a_code_repeats_up_to_a_place() {
        let mut random = Random::new(10);
        for period in 1..16 {
            for until in period..16 {
                let code = draw_repeating(&mut random, &[0x1E, 0x30], 16, period, until);
                assert_eq!(code.len(), 16);
                assert_eq!(code[period..until], code[..until - period]);
                assert_ne!(code[until], code[until - period]);
            }
        }
    }

    #[test]
    fn locks_keep_the_body_rules() {
        let mut random = Random::new(9);
        let mut lengths = BTreeSet::new();
        for settings in Settings::ALL {
            for _ in 0..1_000 {
                let state = draw_locked(&mut random, settings);
                assert!(keeps_state_rules(&state));
                let bytes: BTreeSet<_> = state.password.bytes().iter().collect();
                assert!(bytes.len() <= 3);
                lengths.insert(state.password.len());
            }
        }
        assert_eq!(lengths.len(), PASSWORD_LIMIT);
    }
}
