//! The body rules that edition 2 adds, each at its edges, by bytes of a body.

mod host;

use host::saved::{fresh_body, sealed, sealed_as_edition_1, with_bytes};
use model::{Body, Settings, keeps_body_rules, load, save};

/// A fresh body with the options byte and others changed.
fn kept(options: u8, changes: &[(usize, u8)]) -> bool {
    let body = with_bytes(fresh_body(Settings::ORDINARY), &[(60, options)]);
    let body = with_bytes(body, changes);
    let refusal = load(0, &sealed(&body)).map_or_else(|refusal| refusal, |_| 0);
    let kept = keeps_body_rules(&body);
    assert_eq!(refusal, if kept { 0 } else { 11 });
    kept
}

/// The choices under which some bytes are let in, by their options byte.
fn kept_under(changes: &[(usize, u8)]) -> Vec<u8> {
    (0..8).filter(|&options| kept(options, changes)).collect()
}

const EVERY: [u8; 8] = [0, 1, 2, 3, 4, 5, 6, 7];
const SECOND_SET: [u8; 4] = [4, 5, 6, 7];
const AT_MODE: [u8; 4] = [2, 3, 6, 7];

#[test]
fn every_choice_is_let_in_as_when_fresh() {
    assert_eq!(kept_under(&[]), EVERY);
}

#[test]
fn bits_4_to_7_of_the_options_are_unused() {
    for bit in 4..8 {
        for options in 0..16 {
            assert!(!kept(options | 1 << bit, &[]), "{options} {bit}");
        }
    }
}

#[test]
fn permission_is_the_second_sets() {
    let allowed: Vec<u8> = (8..16).filter(|&options| kept(options, &[])).collect();
    assert_eq!(allowed, [12, 13, 14, 15]);
}

#[test]
fn latches_of_p1_are_the_second_sets() {
    for latches in 0..=0xFF {
        let expected: &[u8] = match latches {
            0x3F => &EVERY,
            0x00..0x3F => &SECOND_SET,
            _ => &[],
        };
        assert_eq!(kept_under(&[(61, latches)]), expected, "{latches:02X}");
    }
}

/// P22 and P23 of the second set or of AT mode, P25 of AT mode, and no P24.
#[test]
fn upper_latches_of_p2_by_mode_and_set() {
    for latches in 0..=0xFF {
        let expected: &[u8] = match latches {
            0x03 => &EVERY,
            0x00..=0x02 => &[2, 3, 4, 5, 6, 7],
            0x08..=0x0B => &AT_MODE,
            _ => &[],
        };
        assert_eq!(kept_under(&[(62, latches)]), expected, "{latches:02X}");
    }
}

#[test]
fn transmit_time_out_is_at_modes() {
    assert_eq!(kept_under(&[(63, 0)]), EVERY);
    assert_eq!(kept_under(&[(63, 1)]), AT_MODE);
    for value in 2..=0xFF {
        assert!(kept_under(&[(63, value)]).is_empty(), "{value:02X}");
    }
}

#[test]
fn the_second_set_leaves_the_lowest_bit_of_an_overlay() {
    for nibble in 0..16 {
        let expected = if nibble % 2 == 0 {
            &EVERY[..]
        } else {
            &[0, 1, 2, 3]
        };
        assert_eq!(kept_under(&[(6, 1), (7, nibble)]), expected, "{nibble}");
    }
}

/// Nothing is asked of them together beyond what is asked of each.
#[test]
fn parts_of_the_second_set_in_at_mode_together() {
    assert!(kept(15, &[(61, 0), (62, 0x08), (63, 1), (6, 1), (7, 0x0E)]));
}

#[test]
fn the_rules_of_edition_1_hold_under_every_choice() {
    let broken: [&[(usize, u8)]; 12] = [
        &[(1, 0x80)],
        &[(1, 0x02)],
        &[(3, 4)],
        &[(4, 8)],
        &[(5, 1)],
        &[(6, 2)],
        &[(7, 2)],
        &[(8, 3)],
        &[(9, 1)],
        &[(10, 1)],
        &[(11, 1)],
        &[(28, 0x80)],
    ];
    for changes in broken {
        assert!(kept_under(changes).is_empty(), "{changes:02X?}");
    }
}

/// A code, whole, being loaded or locked with; a mouse byte; an overlay; each
/// pending code; a byte for the mouse.
#[test]
fn what_no_list_makes_breaks_no_rule() {
    let let_in: [&[(usize, u8)]; 11] = [
        &[(10, 1), (12, 0x1E)],
        &[(4, 3)],
        &[(4, 3), (10, 1), (12, 0x1E)],
        &[(1, 0x40), (10, 2), (12, 0x1E), (13, 0x30), (11, 1)],
        &[(1, 0x03), (0, 0x14)],
        &[(6, 1), (7, 0x0E)],
        &[(4, 5)],
        &[(4, 6)],
        &[(4, 7)],
        &[(8, 2), (9, 0xF4)],
        &[(1, 0x63), (10, 1), (12, 0x9E), (6, 1), (7, 2)],
    ];
    for changes in let_in {
        assert_eq!(kept_under(changes), EVERY, "{changes:02X?}");
    }
}

/// An accepted body comes back as it was, whatever made it.
#[test]
fn what_is_let_in_is_saved_again_as_it_was() {
    let bodies: [Body; 3] = [
        &[(60, 13), (61, 0x15), (62, 1), (4, 3)][..],
        &[(60, 2), (62, 0x0A), (63, 1), (1, 0x43), (10, 1), (12, 1)],
        &[(60, 15), (61, 0), (62, 0), (6, 1), (7, 8), (8, 2), (9, 7)],
    ]
    .map(|changes| with_bytes(fresh_body(Settings::ORDINARY), changes));
    for body in bodies {
        let image = sealed(&body);
        let loaded = load(0x5A, &image).expect("an image");
        assert_eq!(save(&loaded).to_vec(), image);
    }
}

#[test]
fn the_rules_of_edition_1_are_asked_of_edition_1() {
    let fresh = fresh_body(Settings::ORDINARY);
    for (changes, refused) in [
        (&[][..], false),
        (&[(6, 1), (7, 15)], false),
        (&[(28, 0x80)], true),
        (&[(1, 0x40)], true),
        (&[(59, 0xFF)], false),
    ] {
        let image = sealed_as_edition_1(&with_bytes(fresh, changes));
        let loaded = load(0, &image);
        assert_eq!(loaded.err(), refused.then_some(11), "{changes:02X?}");
    }
}
