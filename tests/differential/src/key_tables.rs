//! Key tables drawn at random, and ways to damage them.

use crate::random::Random;
use model::{KeyTable, TABLE_SIZE};
use std::ops::RangeInclusive;

/// The keys, whose codes are the same bytes in another order.
pub const KEYS: RangeInclusive<usize> = 0x01..=0x7F;

/// The entries that no table may change, each a byte and what it gives.
pub const FIXED: [(usize, u8); 7] = [
    (0x00, 0xFF),
    (0xE0, 0xE0),
    (0xE1, 0xE1),
    (0xEE, 0xEE),
    (0xF0, 0xF0),
    (0xFA, 0xFA),
    (0xFE, 0xFE),
];

/// The bytes whose entries may be anything.
pub fn free() -> impl Iterator<Item = usize> {
    (0x80..TABLE_SIZE).filter(|&byte| FIXED.iter().all(|&(fixed, _)| fixed != byte))
}

/// A table with the built-in one's keys in another order, and the free entries
/// in another order among themselves.
pub fn shuffled(random: &mut Random) -> KeyTable {
    let mut table = KeyTable::BUILT_IN;
    random.shuffle(&mut table.0[KEYS]);
    let mut codes: Vec<u8> = free().map(|byte| table.0[byte]).collect();
    random.shuffle(&mut codes);
    for (byte, code) in free().zip(codes) {
        table.0[byte] = code;
    }
    table
}

/// The same with anything in the free entries: codes of keys, F0h, the same one
/// twice.
pub fn with_anything_free(random: &mut Random) -> KeyTable {
    let mut table = shuffled(random);
    for byte in free() {
        table.0[byte] = match random.below(8) {
            0 => 0xF0,
            1..=4 => random.byte_in(0x01..=0x7F),
            _ => random.byte(),
        };
    }
    table
}

/// A table of either sort.
pub fn draw(random: &mut Random) -> KeyTable {
    if random.chance(30) {
        shuffled(random)
    } else {
        with_anything_free(random)
    }
}

/// One or two entries changed to others. What they were may stand elsewhere, so
/// that the table can still be sound.
pub fn damaged(random: &mut Random, mut table: KeyTable) -> KeyTable {
    let byte = place(random);
    if random.chance(30) {
        let other = place(random);
        table.0.swap(byte, other);
        return table;
    }
    table.0[byte] ^= random.byte_in(0x01..=0xFF);
    if random.chance(50) {
        let other = place(random);
        table.0[other] = table.0[place(random)];
    }
    table
}

/// Any entry, the fixed ones and the ends of the keys more often than others.
fn place(random: &mut Random) -> usize {
    match random.below(5) {
        0 => random.pick(&FIXED).0,
        1 => random.pick(&[0x01, 0x7F, 0x80, 0xFF]),
        _ => random.below(TABLE_SIZE),
    }
}

#[cfg(test)]
mod tests {
    use super::*;
    use model::table_refusal;
    use std::collections::BTreeSet;

    #[test]
    fn drawn_tables_can_be_loaded() {
        let mut random = Random::new(14);
        for _ in 0..1_000 {
            assert_eq!(table_refusal(&draw(&mut random).0), 0);
        }
    }

    /// Each entry but the fixed ones has another code now and then.
    #[test]
    fn a_shuffle_only_moves_what_the_built_in_table_has() {
        let mut random = Random::new(15);
        let sorted = |table: KeyTable| {
            let mut codes = table.0;
            codes.sort_unstable();
            codes
        };
        let mut moved = BTreeSet::new();
        for _ in 0..100 {
            let table = shuffled(&mut random);
            assert_eq!(sorted(table), sorted(KeyTable::BUILT_IN));
            let changed = |&byte: &usize| table.0[byte] != KeyTable::BUILT_IN.0[byte];
            moved.extend((0..TABLE_SIZE).filter(changed));
        }
        assert_eq!(moved.len(), TABLE_SIZE - FIXED.len());
    }

    #[test]
    fn anything_stands_in_the_free_entries() {
        let mut random = Random::new(16);
        let mut codes = BTreeSet::new();
        for _ in 0..100 {
            let table = with_anything_free(&mut random);
            codes.extend(free().map(|byte| table.0[byte]));
            assert!(free().any(|byte| table.0[byte] == 0xF0));
        }
        assert_eq!(codes.len(), 256);
    }

    #[test]
    fn damage_breaks_each_rule_and_at_times_none() {
        let mut random = Random::new(17);
        let mut refusals = [0; 16];
        for _ in 0..2_000 {
            let table = draw(&mut random);
            let damaged = damaged(&mut random, table);
            let changed = (0..TABLE_SIZE).filter(|&at| table.0[at] != damaged.0[at]);
            assert!(changed.count() <= 2);
            refusals[usize::from(table_refusal(&damaged.0))] += 1;
        }
        for refusal in [0, 14, 15] {
            assert!(refusals[refusal] > 200, "{refusals:?}");
        }
    }
}
