//! Key tables of the caller's: the checks in their order, and what goes by the
//! table once it is loaded.

mod host;

use host::Host;
use host::tables::{FIXED, reversed};
use model::{
    Controller, KeyTable, Settings, load, mode, run_with_table, save, state_bytes, table_refusal,
};

/// What refuses a table with one entry changed.
fn refusal_with(changes: &[(usize, u8)]) -> u8 {
    let mut table = reversed().0;
    for &(byte, code) in changes {
        table[byte] = code;
    }
    table_refusal(&table)
}

fn is_fixed(byte: usize) -> bool {
    FIXED.iter().any(|&(fixed, _)| fixed == byte)
}

#[test]
fn the_built_in_table_and_another_are_accepted() {
    for table in [KeyTable::BUILT_IN, reversed()] {
        assert_eq!(table_refusal(&table.0), 0);
        assert_eq!(KeyTable::checked(&table.0), Ok(table));
    }
}

#[test]
fn every_length_but_256_is_refused_by_13() {
    let bytes = [reversed().0, reversed().0].concat();
    for length in (0..=512).filter(|&length| length != 256) {
        assert_eq!(table_refusal(&bytes[..length]), 13, "{length}");
    }
    assert_eq!(table_refusal(&bytes[..256]), 0);
}

/// Each key's entry changed to each other value leaves one value out.
#[test]
fn a_key_changed_alone_is_refused_by_14() {
    for key in 0x01..=0x7F {
        for code in (0x00..=0xFF).filter(|&code| code != reversed().0[key]) {
            assert_eq!(refusal_with(&[(key, code)]), 14, "{key:02X} {code:02X}");
        }
    }
}

#[test]
fn two_keys_may_change_places() {
    let table = reversed().0;
    for key in 0x02..=0x7F {
        let places = [(0x01, table[key]), (key, table[0x01])];
        assert_eq!(refusal_with(&places), 0, "{key:02X}");
    }
}

#[test]
fn a_fixed_entry_changed_alone_is_refused_by_15() {
    for (byte, fixed) in FIXED {
        for code in (0x00..=0xFF).filter(|&code| code != fixed) {
            assert_eq!(refusal_with(&[(byte, code)]), 15, "{byte:02X} {code:02X}");
        }
    }
}

#[test]
fn the_other_entries_are_free() {
    for byte in (0x80..=0xFF).filter(|&byte| !is_fixed(byte)) {
        for code in 0x00..=0xFF {
            assert_eq!(refusal_with(&[(byte, code)]), 0, "{byte:02X} {code:02X}");
        }
    }
}

#[test]
fn the_length_is_asked_before_the_keys_and_these_before_the_fixed_entries() {
    assert_eq!(refusal_with(&[(0x01, 0), (0x00, 0)]), 14);
    assert_eq!(table_refusal(&[0; 256]), 14);
    assert_eq!(table_refusal(&[0; 255]), 13);
    assert_eq!(table_refusal(&[0; 257]), 13);
}

/// One of each refused kind.
fn refused_tables() -> [(Vec<u8>, u8); 3] {
    let [mut keys, mut fixed] = [reversed().0, reversed().0];
    keys[0x7F] = 0x02;
    fixed[0xE1] = 0xE0;
    [
        (reversed().0[1..].to_vec(), 13),
        (keys.to_vec(), 14),
        (fixed.to_vec(), 15),
    ]
}

/// The list is of no length that is run, and there is no room.
#[test]
fn the_table_is_asked_before_the_list() {
    for (table, refusal) in refused_tables() {
        for (length, room) in [(4, 0), (3, 8), (21_003, 63_009), (3, 9), (0, 0)] {
            let mut answers = vec![0xA5; room];
            let list = vec![2; length];
            let result = run_with_table(Settings::ORDINARY, &table, &list, &mut answers);
            assert_eq!(result, refusal, "{length} {room}");
            assert!(answers.iter().all(|&byte| byte == 0xA5));
        }
    }
    let run = |list: &[u8], answers: &mut [u8]| {
        run_with_table(Settings::ORDINARY, &reversed().0, list, answers)
    };
    assert_eq!(run(&[2; 4], &mut []), 7);
    assert_eq!(run(&[2, 0, 0], &mut [0; 8]), 8);
    assert_eq!(run(&[2, 0, 0], &mut [0; 9]), 0);
}

#[test]
fn a_refused_start_keeps_the_state_and_its_table() {
    for (table, refusal) in refused_tables() {
        for kept in [KeyTable::BUILT_IN, reversed()] {
            let mut host = Host::ready_under(Settings::MOUSE_LOCK.with_table(kept));
            host.key(0x1C);
            let before = state_bytes(&host.state);
            let result = host.state.start_with_table(Settings::AT_MODE, &table);
            assert_eq!(result, refusal);
            assert_eq!(state_bytes(&host.state), before);
            assert_eq!(before[65..], kept.0);
        }
    }
}

#[test]
fn a_start_takes_the_table_whatever_was_there() {
    let settings = Settings::SECOND_SET.with_version(0x42);
    for kept in [KeyTable::BUILT_IN, reversed()] {
        let mut host = Host::ready_under(Settings::MOUSE_LOCK.with_table(kept));
        assert_eq!(host.state.start_with_table(settings, &reversed().0), 0);
        let fresh = Controller::fresh(settings.with_table(reversed()));
        assert_eq!(host.state, fresh);
        let bytes = state_bytes(&fresh);
        assert_eq!(bytes[..65], state_bytes(&Controller::fresh(settings))[..65]);
        assert_eq!(bytes[65..], reversed().0);
    }
}

fn ready() -> Host {
    Host::ready_under(Settings::ORDINARY.with_table(reversed()))
}

/// What the host reads for a key, if anything.
fn read_for(host: &mut Host, byte: u8) -> Option<u8> {
    host.key(byte);
    host.state.full.then(|| host.read().byte)
}

#[test]
fn every_byte_gives_its_entry_and_f0h_marks_the_next() {
    for byte in (0x00..=0xFF).filter(|&byte| byte != 0xF0) {
        let code = reversed().entry(byte);
        assert_eq!(read_for(&mut ready(), byte), Some(code), "{byte:02X}");
        let mut host = ready();
        assert_eq!(read_for(&mut host, 0xF0), None);
        assert_eq!(read_for(&mut host, byte), Some(code | 0x80), "{byte:02X}");
    }
}

#[test]
fn an_entry_of_f0h_makes_no_prefix() {
    let mut host = ready();
    assert_eq!(read_for(&mut host, 0x91), Some(0xF0));
    assert!(!host.state.break_flag);
    assert_eq!(read_for(&mut host, 0x62), Some(0x1E));
}

#[test]
fn untranslated_bytes_pass_the_table_by() {
    let mut host = ready();
    host.command_with(0x60, 0);
    for byte in [0x62, 0x90, 0x91, 0x00] {
        assert_eq!(read_for(&mut host, byte), Some(byte));
    }
}

/// 1Eh 30h are the keys 62h and 50h here, and 90h is 1Eh too. What the built-in
/// table has for them is wrong.
#[test]
fn the_lock_goes_by_the_table() {
    for bits in [mode::TRANSLATE, 0] {
        for (keys, opens) in [
            ([0x62, 0x50], true),
            ([0x90, 0x50], true),
            ([0x1C, 0x32], false),
        ] {
            let mut host = ready();
            host.command_with(0x60, bits);
            host.lock(&[0x1E, 0x30]);
            host.keys(&keys);
            assert_eq!(host.state.locked, !opens, "{keys:02X?}");
        }
    }
}

/// An image has no place for a table, so it is given again or is the built-in
/// one.
#[test]
fn a_load_goes_by_the_table_that_it_is_given() {
    let mut host = ready();
    host.key(0x62);
    let mut restored = host.restored();
    assert_eq!(restored.read().byte, 0x1E);
    assert_eq!(read_for(&mut restored, 0x62), Some(0x1E));
    let state = load(0, &save(&host.state)).expect("an image");
    assert_eq!(state.settings.table, KeyTable::BUILT_IN);
    let mut loaded = Host { state };
    assert_eq!(loaded.read().byte, 0x1E);
    assert_eq!(read_for(&mut loaded, 0x1C), Some(0x1E));
}
