//! Scan code set 2 to set 1.

use crate::key_table::KeyTable;

/// Set-2 prefix of a break code.
const BREAK_PREFIX: u8 = 0xF0;
/// Set-1 mark of a break code.
const BREAK_BIT: u8 = 0x80;

impl KeyTable {
    /// Translates one byte: what it yields, and the break flag afterwards. The
    /// prefix is known by the byte that comes, before the table is looked at, so
    /// no entry makes another byte a prefix.
    pub fn translate(&self, byte: u8, break_flag: bool) -> (Option<u8>, bool) {
        if byte == BREAK_PREFIX {
            return (None, true);
        }
        let mark = if break_flag { BREAK_BIT } else { 0 };
        (Some(self.entry(byte) | mark), false)
    }
}

/// The same by the built-in table.
pub fn translate(byte: u8, break_flag: bool) -> (Option<u8>, bool) {
    KeyTable::BUILT_IN.translate(byte, break_flag)
}
