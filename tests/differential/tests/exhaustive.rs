//! The small functions over every argument.

use model::Verdict;

#[test]
fn every_number_is_judged_alike() {
    for number in 0..=u16::MAX {
        let expected = match model::judge(number) {
            Verdict::Sound(byte) => u16::from(byte),
            Verdict::WrongParity => calugnid::WRONG_PARITY,
            Verdict::Broken => calugnid::BROKEN,
            Verdict::Noise => calugnid::NOISE,
        };
        assert_eq!(calugnid::judge(number), expected, "frame {number:03X}");
    }
}

#[test]
fn worked_frames() {
    for number in [2047, 1023] {
        assert_eq!(calugnid::judge(number), 258, "frame {number}");
    }
    for number in [1022, 2048, 2049, 65_534, 65_535] {
        assert_eq!(calugnid::judge(number), 257, "frame {number}");
    }
    assert_eq!(calugnid::judge(0x428), 256);
    assert_eq!(calugnid::judge(0x7E0), 0xF0);
    assert_eq!(calugnid::judge(0x628), 0x14);
}

/// Past the frames every number is broken, odd ones too.
#[test]
fn verdicts_in_number() {
    let count = |wanted: fn(u16) -> bool| {
        let judged = (0..=u16::MAX).map(calugnid::judge);
        judged.filter(|&verdict| wanted(verdict)).count()
    };
    assert_eq!(count(|verdict| verdict <= 0xFF), 256);
    assert_eq!(count(|verdict| verdict == 256), 256);
    assert_eq!(count(|verdict| verdict == 257), 512 + 63_488);
    assert_eq!(count(|verdict| verdict == 258), 1024);
}

#[test]
fn every_byte_is_framed_alike() {
    for byte in 0..=0xFF {
        assert_eq!(calugnid::frame(byte), model::frame(byte), "byte {byte:02X}");
    }
}

#[test]
fn every_byte_is_translated_alike() {
    for flag in [false, true] {
        for byte in 0..=0xFF {
            let (code, flag_after) = model::translate(byte, flag);
            let yielded = code.map_or(0, |code| 0x100 | u16::from(code));
            let expected = yielded | u16::from(flag_after) << 9;
            assert_eq!(
                calugnid::translate(byte, flag),
                expected,
                "byte {byte:02X} flag {flag}"
            );
        }
    }
}
