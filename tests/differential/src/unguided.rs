//! Events drawn without a look at the state.

use crate::event::{Event, kind};
use crate::random::Random;

/// Any three bytes; most of them malformed.
fn any_bytes(random: &mut Random) -> Event {
    Event::new(random.byte(), random.word())
}

/// A kind that exists with any 16-bit value.
fn wild_value(random: &mut Random) -> Event {
    Event::new(random.byte_in(0..=8), random.word())
}

/// The largest values and their neighbours, and the largest frames without a
/// stop bit.
const EDGES: [u16; 14] = [
    0, 1, 255, 256, 257, 511, 1022, 1023, 2046, 2047, 2048, 2049, 4095, 65535,
];

/// A value right at the largest one that its kind takes, or just past it.
fn edge(random: &mut Random) -> Event {
    let kind = random.byte_in(0..=10);
    let value = random.pick(&EDGES);
    Event::new(kind, value)
}

/// An event that is well formed.
pub fn well_formed(random: &mut Random) -> Event {
    let kind = random.byte_in(0..=8);
    let value = match kind {
        kind::WRITE_DATA | kind::WRITE_COMMAND | kind::PINS => random.byte().into(),
        kind::KEYBOARD_FRAME | kind::MOUSE_FRAME => random.word() & 0x7FF,
        _ => 0,
    };
    Event::new(kind, value)
}

/// An event that is malformed, or nearly so.
pub fn malformed(random: &mut Random) -> Event {
    match random.below(3) {
        0 => any_bytes(random),
        1 => wild_value(random),
        _ => edge(random),
    }
}

/// An event of either sort.
pub fn any(random: &mut Random) -> Event {
    match random.below(3) {
        0 => malformed(random),
        _ => well_formed(random),
    }
}

const START: u16 = 0x001;
const PARITY: u16 = 0x200;
const STOP: u16 = 0x400;

/// A frame that is broken or has wrong parity, with the start bit right.
pub fn damaged_frame(random: &mut Random) -> u16 {
    let sound = model::frame(random.byte());
    match random.below(5) {
        0 => sound ^ STOP,
        1 => sound ^ STOP ^ PARITY,
        2 => random.pick(&[0x000, 0x3FE]),
        _ => sound ^ PARITY,
    }
}

/// The value of a noise frame: the start bit is wrong, and the rest as in a
/// sound frame, at its ends or anything.
pub fn noise_value(random: &mut Random) -> u16 {
    match random.below(4) {
        0 => model::frame(random.byte()) | START,
        1 => random.pick(&[0x001, 0x3FF, 0x401, 0x7FF]),
        _ => random.word() & 0x7FF | START,
    }
}

/// Noise from either device.
pub fn noise(random: &mut Random) -> Event {
    let kind = random.pick(&[kind::KEYBOARD_FRAME, kind::MOUSE_FRAME]);
    Event::new(kind, noise_value(random))
}

#[cfg(test)]
mod tests {
    use super::*;
    use model::{Verdict, judge};

    const DRAWS: usize = 20_000;

    #[test]
    fn damage_is_broken_or_wrong_parity() {
        let mut random = Random::new(5);
        let mut broken = 0;
        for _ in 0..DRAWS {
            match judge(damaged_frame(&mut random)) {
                Verdict::Broken => broken += 1,
                Verdict::WrongParity => {}
                verdict => panic!("{verdict:?} drawn as damage"),
            }
        }
        assert!((DRAWS / 4..DRAWS * 3 / 4).contains(&broken), "{broken}");
    }

    /// With the stop bit and the parity right and wrong, and every value.
    #[test]
    fn noise_is_every_frame_with_a_wrong_start_bit() {
        let mut random = Random::new(6);
        let mut drawn = [0; 0x800];
        let mut mouse = 0;
        for _ in 0..DRAWS {
            let event = noise(&mut random);
            assert!(event.is_noise(), "{event:?} drawn as noise");
            drawn[usize::from(event.value)] += 1;
            mouse += usize::from(event.kind == kind::MOUSE_FRAME);
        }
        let missing = (1..0x800).step_by(2).find(|&value| drawn[value] == 0);
        assert_eq!(missing, None);
        assert!((DRAWS / 4..DRAWS * 3 / 4).contains(&mouse), "{mouse}");
    }
}
