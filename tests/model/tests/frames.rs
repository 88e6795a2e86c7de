//! Frames and their verdicts.

use model::{Verdict, frame, judge};

#[test]
fn worked_frames() {
    assert_eq!(frame(0x14), 0x628);
    assert_eq!(judge(0x628), Verdict::Sound(0x14));
    assert_eq!(judge(0x7E0), Verdict::Sound(0xF0));
    assert_eq!(judge(0x428), Verdict::WrongParity);
    assert_eq!(judge(2047), Verdict::Noise);
    assert_eq!(judge(1023), Verdict::Noise);
    assert_eq!(judge(1022), Verdict::Broken);
}

#[test]
fn the_start_bit_comes_before_the_stop_bit_and_parity() {
    // The start bit is wrong alone, with the parity, with the stop bit, with both.
    for frame in [0x629, 0x429, 0x229, 0x029] {
        assert_eq!(judge(frame), Verdict::Noise, "{frame:03X}");
    }
}

#[test]
fn the_stop_bit_comes_before_parity() {
    assert_eq!(judge(0x228), Verdict::Broken);
    assert_eq!(judge(0x028), Verdict::Broken);
}

/// Even and odd numbers, so whatever would be the start bit.
#[test]
fn more_than_eleven_bits_is_broken() {
    assert_eq!(judge(0x628 | 0x800), Verdict::Broken);
    assert_eq!(judge(0x629 | 0x800), Verdict::Broken);
    for number in 2048..=u16::MAX {
        assert_eq!(judge(number), Verdict::Broken, "{number}");
    }
}

#[test]
fn each_byte_goes_there_and_back() {
    for byte in 0..=0xFF {
        assert_eq!(judge(frame(byte)), Verdict::Sound(byte));
        assert_eq!(judge(frame(byte) ^ 0x200), Verdict::WrongParity);
        assert_eq!(judge(frame(byte) ^ 0x400), Verdict::Broken);
        assert_eq!(judge(frame(byte) ^ 0x600), Verdict::Broken);
        for others in [0, 0x200, 0x400, 0x600] {
            assert_eq!(judge(frame(byte) ^ 0x001 ^ others), Verdict::Noise);
        }
    }
}

#[test]
fn verdicts_of_all_frames_in_number() {
    let count = |wanted: fn(Verdict) -> bool| (0..2048).filter(|&n| wanted(judge(n))).count();
    assert_eq!(count(|v| matches!(v, Verdict::Sound(_))), 256);
    assert_eq!(count(|v| v == Verdict::WrongParity), 256);
    assert_eq!(count(|v| v == Verdict::Broken), 512);
    assert_eq!(count(|v| v == Verdict::Noise), 1024);
}
