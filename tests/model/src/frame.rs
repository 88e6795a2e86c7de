//! The 11-bit serial frame: start bit, data byte, odd parity, stop bit.

/// What a received frame turns out to be.
#[derive(Clone, Copy, Debug, PartialEq, Eq)]
pub enum Verdict {
    Sound(u8),
    WrongParity,
    Broken,
    /// The start bit is wrong: a disturbance of the line.
    Noise,
}

const START: u16 = 1;
const PARITY: u16 = 1 << 9;
const STOP: u16 = 1 << 10;
const DATA_AND_PARITY: u16 = 0x3FE;
const LARGEST: u16 = 0x7FF;

/// The frame that carries `byte` on the wire.
pub fn frame(byte: u8) -> u16 {
    let even = byte.count_ones().is_multiple_of(2);
    let parity = if even { PARITY } else { 0 };
    STOP | parity | u16::from(byte) << 1
}

/// The start bit is looked at first, then the stop bit, then parity. A number
/// of more than eleven bits is no frame, so it counts as broken whatever its
/// bits.
pub fn judge(frame: u16) -> Verdict {
    if frame > LARGEST {
        return Verdict::Broken;
    }
    if frame & START != 0 {
        return Verdict::Noise;
    }
    if frame & STOP == 0 {
        return Verdict::Broken;
    }
    if (frame & DATA_AND_PARITY).count_ones().is_multiple_of(2) {
        return Verdict::WrongParity;
    }
    Verdict::Sound((frame >> 1 & 0xFF) as u8)
}
