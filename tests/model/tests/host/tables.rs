//! A key table that differs from the built-in one wherever a table may.

use model::KeyTable;

/// What every table gives, a byte and its entry.
pub const FIXED: [(usize, u8); 7] = [
    (0x00, 0xFF),
    (0xE0, 0xE0),
    (0xE1, 0xE1),
    (0xEE, 0xEE),
    (0xF0, 0xF0),
    (0xFA, 0xFA),
    (0xFE, 0xFE),
];

/// The keys in reverse order, so that 01h gives 7Fh. Of the bytes above, 90h is
/// another 1Eh, 91h gives F0h, and the other free ones give 55h.
pub fn reversed() -> KeyTable {
    let mut entries = [0x55; 256];
    let codes = (0x01..=0x7F).rev();
    for (entry, code) in entries[0x01..=0x7F].iter_mut().zip(codes) {
        *entry = code;
    }
    entries[0x90] = 0x1E;
    entries[0x91] = 0xF0;
    for (byte, code) in FIXED {
        entries[byte] = code;
    }
    KeyTable(entries)
}
