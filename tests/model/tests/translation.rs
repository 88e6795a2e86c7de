//! Set 2 to set 1, alone and through the controller.

mod host;

use host::Host;
use model::{KeyTable, mode, translate};

/// What the host reads for a row of keyboard bytes.
fn typed(host: &mut Host, bytes: &[u8]) -> Vec<u8> {
    let mut read = Vec::new();
    for &byte in bytes {
        host.key(byte);
        if host.state.full {
            read.push(host.read().byte);
        }
    }
    read
}

#[test]
fn worked_bytes() {
    let pairs = [
        (0x14, 0x1D),
        (0x11, 0x38),
        (0x79, 0x4E),
        (0x7B, 0x4A),
        (0x1C, 0x1E),
        (0x32, 0x30),
    ];
    for (from, to) in pairs {
        assert_eq!(translate(from, false), (Some(to), false));
    }
    assert_eq!(typed(&mut Host::ready(), &[0xF0, 0x79]), [0xCE]);
    assert_eq!(typed(&mut Host::ready(), &[0xAB, 0x83]), [0xAB, 0x41]);
    assert_eq!(
        typed(&mut Host::ready(), &[0x84, 0xE0, 0x00]),
        [0x54, 0xE0, 0xFF]
    );
}

#[test]
fn make_codes_are_a_permutation() {
    let mut seen: Vec<u8> = KeyTable::BUILT_IN.0[0x01..=0x7F].to_vec();
    seen.sort_unstable();
    assert_eq!(seen, (0x01..=0x7F).collect::<Vec<u8>>());
}

#[test]
fn break_prefix_yields_nothing_and_holds() {
    assert_eq!(translate(0xF0, false), (None, true));
    assert_eq!(translate(0xF0, true), (None, true));
    assert_eq!(
        typed(&mut Host::ready(), &[0xF0, 0xF0, 0x1C, 0x1C]),
        [0x9E, 0x1E]
    );
}

#[test]
fn untranslated_bytes_pass_and_clear_the_break_flag() {
    let mut host = Host::ready();
    host.key(0xF0);
    assert!(host.state.break_flag);
    host.command_with(0x60, 0);
    assert_eq!(typed(&mut host, &[0xF0, 0x83]), [0xF0, 0x83]);
    assert!(!host.state.break_flag);
    host.command_with(0x60, mode::TRANSLATE);
    assert_eq!(typed(&mut host, &[0x83]), [0x41]);
}
