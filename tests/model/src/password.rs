//! The stored code that opens the key lock.

pub const PASSWORD_LIMIT: usize = 16;

#[derive(Clone, Copy, Debug, PartialEq, Eq)]
pub struct Password {
    bytes: [u8; PASSWORD_LIMIT],
    length: usize,
}

impl Password {
    pub const EMPTY: Password = Password {
        bytes: [0; PASSWORD_LIMIT],
        length: 0,
    };

    /// Appends a byte; false when there is no room for it.
    pub fn push(&mut self, byte: u8) -> bool {
        if self.length == PASSWORD_LIMIT {
            return false;
        }
        self.bytes[self.length] = byte;
        self.length += 1;
        true
    }

    pub fn bytes(&self) -> &[u8] {
        &self.bytes[..self.length]
    }

    pub fn len(&self) -> usize {
        self.length
    }

    pub fn is_empty(&self) -> bool {
        self.length == 0
    }
}
