//! The two editions of a saved image.

use crate::trailer::TRAILER_SIZE;

/// What a save writes has the second; both can be loaded.
#[derive(Clone, Copy, Debug, PartialEq, Eq)]
pub enum Edition {
    First,
    Second,
}

impl Edition {
    pub const ALL: [Edition; 2] = [Edition::First, Edition::Second];

    pub const fn number(self) -> u8 {
        match self {
            Edition::First => 1,
            Edition::Second => 2,
        }
    }

    pub fn numbered(number: u8) -> Option<Edition> {
        Edition::ALL
            .into_iter()
            .find(|edition| edition.number() == number)
    }

    pub const fn body_size(self) -> usize {
        match self {
            Edition::First => 60,
            Edition::Second => 64,
        }
    }

    pub const fn image_size(self) -> usize {
        self.body_size() + TRAILER_SIZE
    }
}
