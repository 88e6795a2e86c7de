//! The trailer that closes an image.

use crate::edition::Edition;

pub(crate) const TRAILER_SIZE: usize = 8;
const EDITION_PLACE: usize = 4;
const MARK: [u8; 3] = [0x4B, 0x42, 0x43];

pub(crate) type Trailer = [u8; TRAILER_SIZE];

/// The sum of a body's little-endian words.
pub fn word_sum(body: &[u8]) -> u16 {
    body.chunks_exact(2).fold(0, |sum: u16, word| {
        sum.wrapping_add(u16::from_le_bytes([word[0], word[1]]))
    })
}

/// What stands behind a body of this edition.
fn trailer(edition: Edition, body: &[u8]) -> Trailer {
    let distance = (edition.body_size() as u16).to_le_bytes();
    let sum = word_sum(body).to_le_bytes();
    [
        distance[0],
        distance[1],
        sum[0],
        sum[1],
        edition.number(),
        MARK[0],
        MARK[1],
        MARK[2],
    ]
}

/// A body with its trailer behind it.
pub fn seal(edition: Edition, body: &[u8]) -> Vec<u8> {
    assert_eq!(body.len(), edition.body_size());
    [body, &trailer(edition, body)].concat()
}

/// The body inside `bytes`, which end in an image of either edition. It is a part
/// of them, and an empty one at their end where there is no image.
pub fn find(bytes: &[u8]) -> &[u8] {
    body_at_the_end(bytes).unwrap_or(&bytes[bytes.len()..])
}

/// The trailer names the edition, and that says how long the body is.
fn body_at_the_end(bytes: &[u8]) -> Option<&[u8]> {
    let (before, end): (&[u8], &Trailer) = bytes.split_last_chunk()?;
    let edition = Edition::numbered(end[EDITION_PLACE])?;
    let start = before.len().checked_sub(edition.body_size())?;
    let body = &before[start..];
    (*end == trailer(edition, body)).then_some(body)
}
