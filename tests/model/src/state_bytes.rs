//! The bytes of a state that a caller keeps: the body, the version byte, and the
//! key table.

use crate::body::BODY_SIZE;
use crate::controller::Controller;
use crate::encode::encode;
use crate::key_table::TABLE_SIZE;

pub const STATE_SIZE: usize = TABLE_PLACE + TABLE_SIZE;
/// Where the version byte stands.
pub const VERSION_PLACE: usize = BODY_SIZE;
/// Where the key table stands, to the end.
pub const TABLE_PLACE: usize = VERSION_PLACE + 1;

pub fn state_bytes(state: &Controller) -> [u8; STATE_SIZE] {
    let mut bytes = [0; STATE_SIZE];
    bytes[..BODY_SIZE].copy_from_slice(&encode(state));
    bytes[VERSION_PLACE] = state.settings.version;
    bytes[TABLE_PLACE..].copy_from_slice(&state.settings.table.0);
    bytes
}

/// The bytes have a place for every part of a state. What they leave out is how
/// the counted keys came to the position, and no rule asks for that.
impl PartialEq for Controller {
    fn eq(&self, other: &Controller) -> bool {
        state_bytes(self) == state_bytes(other)
    }
}

impl Eq for Controller {}
