//! The bytes that the trackball gives at once.

use crate::frame::frame;

/// FAh and a packet are the most.
pub const REPLY_LIMIT: usize = 4;

#[derive(Clone, Copy, Debug, PartialEq, Eq)]
pub struct Reply {
    /// Zeros past the count.
    bytes: [u8; REPLY_LIMIT],
    count: usize,
}

impl Reply {
    pub const NOTHING: Reply = Reply {
        bytes: [0; REPLY_LIMIT],
        count: 0,
    };

    pub fn of(given: &[u8]) -> Reply {
        let mut bytes = [0; REPLY_LIMIT];
        bytes[..given.len()].copy_from_slice(given);
        Reply {
            bytes,
            count: given.len(),
        }
    }

    pub fn bytes(&self) -> &[u8] {
        &self.bytes[..self.count]
    }

    /// Writes the frame of each byte, in order, and hands back how many there
    /// are. The places past them stay.
    pub fn write_frames(&self, frames: &mut [u16; REPLY_LIMIT]) -> usize {
        for (place, &byte) in frames.iter_mut().zip(self.bytes()) {
            *place = frame(byte);
        }
        self.count
    }
}
