//! The trackball: moves, packets, bytes from the host, reports.

use model::{Movement, REPLY_LIMIT, Trackball, Verdict, judge};

const ENABLE: u8 = 0xF4;
const DISABLE: u8 = 0xF5;
const PACKET: u8 = 0xEB;
const IDENTITY: u8 = 0xF2;
const RESET: u8 = 0xFF;

/// Steps along one axis, and what a packet then holds for that axis alone: its
/// sign, overflow and bit 3 as they stand for x, and the low byte.
const ROWS: [(&[i16], u8, u8); 26] = [
    (&[], 0x08, 0x00),
    (&[0], 0x08, 0x00),
    (&[1], 0x08, 0x01),
    (&[-1], 0x18, 0xFF),
    (&[127], 0x08, 0x7F),
    (&[128], 0x08, 0x80),
    (&[-128], 0x18, 0x80),
    (&[-129], 0x18, 0x7F),
    (&[254], 0x08, 0xFE),
    (&[255], 0x08, 0xFF),
    (&[256], 0x48, 0xFF),
    (&[-255], 0x18, 0x01),
    (&[-256], 0x18, 0x00),
    (&[-257], 0x58, 0x00),
    (&[255, 0], 0x08, 0xFF),
    (&[255, 1], 0x48, 0xFF),
    (&[-256, 0], 0x18, 0x00),
    (&[-256, -1], 0x58, 0x00),
    (&[256, -10], 0x48, 0xF5),
    (&[-257, 256], 0x48, 0x00),
    (&[-257, 10], 0x58, 0x0A),
    (&[256, -257], 0x58, 0xFE),
    (&[i16::MAX], 0x48, 0xFF),
    (&[i16::MIN], 0x58, 0x00),
    (&[-256, i16::MIN], 0x58, 0x00),
    (&[255, i16::MAX], 0x48, 0xFF),
];

fn enabled() -> Trackball {
    Trackball {
        reporting: true,
        ..Trackball::FRESH
    }
}

/// Enabled, with a button down and an overflow of each axis.
fn moved() -> Trackball {
    Trackball {
        buttons: 0x05,
        reporting: true,
        x: Movement {
            sum: -20,
            overflow: true,
        },
        y: Movement {
            sum: 255,
            overflow: true,
        },
    }
}

const MOVED_PACKET: [u8; 3] = [0xDD, 0xEC, 0xFF];

/// The same without its movement.
fn still() -> Trackball {
    Trackball {
        x: Movement::NONE,
        y: Movement::NONE,
        ..moved()
    }
}

fn sent(trackball: &mut Trackball, bytes: &[u8]) -> Vec<u8> {
    let replies = bytes.iter().map(|&byte| trackball.send(byte));
    replies.flat_map(|reply| reply.bytes().to_vec()).collect()
}

#[test]
fn fresh_is_disabled_and_still() {
    assert_eq!(Trackball::FRESH.bytes(), [0; 6]);
    let mut fresh = Trackball::FRESH;
    assert_eq!(fresh.report().bytes(), []);
    assert_eq!(fresh.send(PACKET).bytes(), [0xFA, 0x08, 0x00, 0x00]);
    assert_eq!(fresh, Trackball::FRESH);
}

#[test]
fn packets_along_x_alone() {
    for (steps, first, low) in ROWS {
        let mut trackball = enabled();
        for &step in steps {
            trackball.move_by(0, step, 0);
        }
        let report = trackball.report();
        assert_eq!(report.bytes(), [first, low, 0x00], "{steps:?}");
    }
}

/// Sign and overflow stand one bit higher, and the low byte comes last.
#[test]
fn packets_along_y_alone() {
    for (steps, first, low) in ROWS {
        let mut trackball = enabled();
        for &step in steps {
            trackball.move_by(0, 0, step);
        }
        let first = 0x08 | (first & 0x50) << 1;
        let report = trackball.report();
        assert_eq!(report.bytes(), [first, 0x00, low], "{steps:?}");
    }
}

#[test]
fn x_stands_before_y() {
    let mut trackball = enabled();
    trackball.move_by(0, 1, -2);
    assert_eq!(trackball.report().bytes(), [0x28, 0x01, 0xFE]);
    trackball.move_by(0, -300, 300);
    assert_eq!(trackball.report().bytes(), [0xD8, 0x00, 0xFF]);
}

/// The first byte's sign above the low byte, in nine bits of two's complement.
#[test]
fn every_sum_in_range_is_read_back_from_its_packet() {
    for x in -256..=255 {
        for y in -256..=255 {
            let mut trackball = enabled();
            trackball.move_by(7, x, y);
            let report = trackball.report();
            let [first, low_x, low_y] = report.bytes().try_into().expect("a packet");
            let back = |sign: u8, low: u8| i16::from(low) - if first & sign == 0 { 0 } else { 256 };
            assert_eq!([back(0x10, low_x), back(0x20, low_y)], [x, y]);
            assert_eq!(first & 0xCF, 0x0F, "{x} {y}");
        }
    }
}

#[test]
fn every_step_stops_at_the_ends() {
    for sum in [-256, -255, -1, 0, 1, 254, 255] {
        for overflow in [false, true] {
            for step in i16::MIN..=i16::MAX {
                let mut movement = Movement { sum, overflow };
                movement.add(step);
                let exact = i32::from(sum) + i32::from(step);
                let (stopped, past) = match exact {
                    ..-256 => (-256, true),
                    256.. => (255, true),
                    _ => (exact, false),
                };
                assert_eq!(i32::from(movement.sum), stopped, "{sum} and {step}");
                assert_eq!(movement.overflow, overflow || past, "{sum} and {step}");
            }
        }
    }
}

#[test]
fn every_buttons_byte_sets_the_three_buttons() {
    for before in 0..8 {
        for byte in 0..=0xFF {
            let mut trackball = Trackball {
                buttons: before,
                ..enabled()
            };
            trackball.move_by(byte, 0, 0);
            assert_eq!(trackball.report().bytes(), [0x08 + byte % 8, 0, 0]);
            assert_eq!(trackball.buttons, byte % 8);
        }
    }
}

#[test]
fn after_a_packet_only_the_movement_is_gone() {
    let mut reported = moved();
    assert_eq!(reported.report().bytes(), MOVED_PACKET);
    assert_eq!(reported, still());
    let mut asked = moved();
    assert_eq!(asked.send(PACKET).bytes()[1..], MOVED_PACKET);
    assert_eq!(asked, still());
}

#[test]
fn a_second_report_at_once_is_a_packet_without_movement() {
    let mut trackball = moved();
    trackball.report();
    for _ in 0..3 {
        assert_eq!(trackball.report().bytes(), [0x0D, 0x00, 0x00]);
        assert_eq!(trackball, still());
    }
}

#[test]
fn an_overflow_does_not_outlive_its_packet() {
    let mut trackball = enabled();
    trackball.move_by(0, 256, -257);
    assert_eq!(trackball.report().bytes(), [0xE8, 0xFF, 0x00]);
    trackball.move_by(0, 255, -256);
    assert_eq!(trackball.report().bytes(), [0x28, 0xFF, 0x00]);
}

#[test]
fn a_report_while_disabled_gives_no_bytes_and_changes_nothing() {
    let mut trackball = moved();
    trackball.reporting = false;
    let before = trackball;
    assert_eq!(trackball.report().bytes(), []);
    assert_eq!(trackball, before);
}

#[test]
fn moves_count_while_disabled() {
    let mut trackball = Trackball::FRESH;
    trackball.move_by(0x02, 100, -100);
    assert_eq!(trackball.report().bytes(), []);
    trackball.move_by(0x02, 100, -200);
    assert_eq!(trackball.send(ENABLE).bytes(), [0xFA]);
    assert_eq!(trackball.report().bytes(), [0xAA, 0xC8, 0x00]);
}

#[test]
fn a_packet_is_given_when_asked_for_enabled_or_not() {
    for reporting in [true, false] {
        let mut trackball = moved();
        trackball.reporting = reporting;
        assert_eq!(trackball.send(PACKET).bytes(), [0xFA, 0xDD, 0xEC, 0xFF]);
        assert_eq!(trackball.reporting, reporting);
        assert_eq!(trackball.send(PACKET).bytes(), [0xFA, 0x0D, 0x00, 0x00]);
    }
}

#[test]
fn enabling_and_disabling_leave_the_rest() {
    for before in [true, false] {
        for (byte, after) in [(ENABLE, true), (DISABLE, false)] {
            let mut trackball = moved();
            trackball.reporting = before;
            assert_eq!(trackball.send(byte).bytes(), [0xFA]);
            assert_eq!(trackball.reporting, after);
            trackball.reporting = true;
            assert_eq!(trackball, moved());
        }
    }
}

#[test]
fn a_reset_leaves_the_buttons_alone() {
    for reporting in [true, false] {
        let mut trackball = moved();
        trackball.reporting = reporting;
        assert_eq!(trackball.send(RESET).bytes(), [0xFA, 0xAA, 0x00]);
        assert_eq!(trackball.bytes(), [0x05, 0, 0, 0, 0, 0]);
        assert_eq!(trackball.report().bytes(), []);
    }
}

#[test]
fn identity() {
    let mut trackball = moved();
    assert_eq!(trackball.send(IDENTITY).bytes(), [0xFA, 0x00]);
    assert_eq!(trackball, moved());
}

#[test]
fn every_other_byte_gives_feh_and_changes_nothing() {
    let known = [PACKET, IDENTITY, ENABLE, DISABLE, RESET];
    let others = (0..=0xFF).filter(|byte| !known.contains(byte));
    for reporting in [true, false] {
        for byte in others.clone() {
            let mut trackball = moved();
            trackball.reporting = reporting;
            let before = trackball;
            assert_eq!(trackball.send(byte).bytes(), [0xFE], "{byte:02X}");
            assert_eq!(trackball, before, "{byte:02X}");
        }
    }
    assert_eq!(others.count(), 251);
}

#[test]
fn no_byte_is_an_argument() {
    let mut trackball = Trackball::FRESH;
    assert_eq!(sent(&mut trackball, &[0xF3, 0x64]), [0xFE, 0xFE]);
    assert_eq!(sent(&mut trackball, &[0xE8, 0x03]), [0xFE, 0xFE]);
    assert_eq!(trackball, Trackball::FRESH);
    assert_eq!(sent(&mut trackball, &[0xF3, ENABLE]), [0xFE, 0xFA]);
    assert!(trackball.reporting);
}

#[test]
fn each_byte_given_is_a_sound_frame_in_its_place() {
    let untouched = [0xFFFF; REPLY_LIMIT];
    for (byte, given) in [
        (0x00, &[0xFE][..]),
        (ENABLE, &[0xFA]),
        (IDENTITY, &[0xFA, 0x00]),
        (RESET, &[0xFA, 0xAA, 0x00]),
        (PACKET, &[0xFA, 0xDD, 0xEC, 0xFF]),
    ] {
        let mut frames = untouched;
        let count = moved().send(byte).write_frames(&mut frames);
        assert_eq!(count, given.len());
        let judged: Vec<_> = frames[..count].iter().map(|&frame| judge(frame)).collect();
        let sound: Vec<_> = given.iter().map(|&byte| Verdict::Sound(byte)).collect();
        assert_eq!(judged, sound);
        assert_eq!(frames[count..], untouched[count..]);
    }
}

#[test]
fn frames_of_a_report() {
    let mut frames = [0xFFFF; REPLY_LIMIT];
    let mut disabled = moved();
    disabled.reporting = false;
    assert_eq!(disabled.report().write_frames(&mut frames), 0);
    assert_eq!(frames, [0xFFFF; REPLY_LIMIT]);
    assert_eq!(enabled().report().write_frames(&mut frames), 3);
    assert_eq!(frames, [0x410, 0x600, 0x600, 0xFFFF]);
}

#[test]
fn where_each_part_stands_in_the_six_bytes() {
    assert_eq!(moved().bytes(), [0x05, 0x07, 0xEC, 0xFF, 0xFF, 0x00]);
    let mut trackball = Trackball::FRESH;
    trackball.move_by(0x02, 255, -256);
    assert_eq!(trackball.bytes(), [0x02, 0x00, 0xFF, 0x00, 0x00, 0xFF]);
    trackball.move_by(0x04, 1, 0);
    assert_eq!(trackball.bytes(), [0x04, 0x02, 0xFF, 0x00, 0x00, 0xFF]);
    trackball.move_by(0x01, -257, -1);
    assert_eq!(trackball.bytes(), [0x01, 0x06, 0xFE, 0xFF, 0x00, 0xFF]);
    trackball.send(ENABLE);
    assert_eq!(trackball.bytes(), [0x01, 0x07, 0xFE, 0xFF, 0x00, 0xFF]);
}

#[test]
fn bits_that_stand_for_nothing_are_not_read_and_come_back_zero() {
    for first in 0..=0xFF {
        for second in 0..=0xFF {
            let bytes = [first, second, 0x12, 0x34, 0x56, 0xF8];
            let expected = [first % 8, second % 8, 0x12, 0x34, 0x56, 0xF8];
            assert_eq!(Trackball::from_bytes(bytes).bytes(), expected);
        }
    }
}

#[test]
fn every_sum_of_sixteen_bits_goes_there_and_back() {
    for sum in i16::MIN..=i16::MAX {
        let [low, high] = sum.to_le_bytes();
        let x = Trackball::from_bytes([0, 0, low, high, 0, 0]);
        assert_eq!((x.x.sum, x.y.sum), (sum, 0));
        let y = Trackball::from_bytes([0, 0, 0, 0, low, high]);
        assert_eq!((y.x.sum, y.y.sum), (0, sum));
        assert_eq!(x.bytes(), [0, 0, low, high, 0, 0]);
        assert_eq!(y.bytes(), [0, 0, 0, 0, low, high]);
    }
}

/// Sums that no call makes: a step leads to an end or inside, and only a new sum
/// past an end is an overflow.
#[test]
fn a_move_from_a_sum_out_of_range() {
    for (sum, step, after, overflow) in [
        (300, 0, 255, true),
        (300, -45, 255, false),
        (300, -44, 255, true),
        (300, -556, -256, false),
        (300, -557, -256, true),
        (-300, 0, -256, true),
        (-300, 44, -256, false),
        (-300, 300, 0, false),
        (i16::MAX, i16::MAX, 255, true),
        (i16::MAX, i16::MIN, -1, false),
        (i16::MIN, i16::MIN, -256, true),
        (i16::MIN, i16::MAX, -1, false),
    ] {
        let mut movement = Movement {
            sum,
            overflow: false,
        };
        movement.add(step);
        let expected = Movement {
            sum: after,
            overflow,
        };
        assert_eq!(movement, expected, "{sum} and {step}");
    }
}

#[test]
fn a_packet_of_sums_out_of_range() {
    let bytes = [0x02, 0x00, 0x34, 0x12, 0x78, 0x80];
    let mut trackball = Trackball::from_bytes(bytes);
    for byte in [ENABLE, DISABLE, IDENTITY, 0x00] {
        trackball.send(byte);
    }
    assert_eq!(trackball.report().bytes(), []);
    assert_eq!(trackball.bytes(), bytes);
    assert_eq!(trackball.send(PACKET).bytes(), [0xFA, 0x2A, 0x34, 0x78]);
    assert_eq!(trackball.bytes(), [0x02, 0, 0, 0, 0, 0]);
}
