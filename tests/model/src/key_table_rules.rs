//! Which key tables a panel may load. The first check that fails is the one
//! whose number is given.

use crate::key_table::{KeyTable, TABLE_SIZE};

/// Entries that no table may change, each a byte and what it gives. The first
/// stands for a buffer that ran over in the keyboard, the others for bytes that
/// are prefixes or answers and no keys.
const FIXED: [(u8, u8); 7] = [
    (0x00, 0xFF),
    (0xE0, 0xE0),
    (0xE1, 0xE1),
    (0xEE, 0xEE),
    (0xF0, 0xF0),
    (0xFA, 0xFA),
    (0xFE, 0xFE),
];

impl KeyTable {
    /// The table that these bytes are, or the refusal number 13, 14 or 15.
    pub fn checked(bytes: &[u8]) -> Result<KeyTable, u8> {
        let table = KeyTable(bytes.try_into().map_err(|_| 13)?);
        if !table.has_each_key_once() {
            Err(14)
        } else if !table.has_fixed_entries() {
            Err(15)
        } else {
            Ok(table)
        }
    }

    /// Entries 01h-7Fh hold each of 01h-7Fh. There are as many of the ones as of
    /// the others, so none is there twice.
    fn has_each_key_once(&self) -> bool {
        let mut held = [false; TABLE_SIZE];
        for &code in &self.0[0x01..=0x7F] {
            held[usize::from(code)] = true;
        }
        held[0x01..=0x7F].iter().all(|&held| held)
    }

    fn has_fixed_entries(&self) -> bool {
        FIXED.iter().all(|&(byte, code)| self.entry(byte) == code)
    }
}

/// The refusal number of a table, 0 when it can be loaded.
pub fn table_refusal(bytes: &[u8]) -> u8 {
    KeyTable::checked(bytes).map_or_else(|refusal| refusal, |_| 0)
}
