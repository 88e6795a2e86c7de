//! Images of one edition made into those of the other.

use crate::body::{BODY_SIZE, Body, EDITION_1_BODY_SIZE};
use crate::body_rules::keeps_body_rules;
use crate::edition::Edition;
use crate::trailer::{find, seal};

/// What stands behind a body of edition 1 when it becomes one of edition 2: no
/// option, and latches as when fresh.
const ADDED: [u8; BODY_SIZE - EDITION_1_BODY_SIZE] = [0, 0x3F, 0x03, 0];

/// A body of edition 1 as one of edition 2.
pub(crate) fn completed(body: &[u8; EDITION_1_BODY_SIZE]) -> Body {
    let mut whole = [0; BODY_SIZE];
    whole[..EDITION_1_BODY_SIZE].copy_from_slice(body);
    whole[EDITION_1_BODY_SIZE..].copy_from_slice(&ADDED);
    whole
}

/// Writes an image of edition 1 as one of edition 2 to the front of a buffer.
/// Nothing is written when refused.
pub fn move_to_edition_2(image: &[u8], moved: &mut [u8]) -> u8 {
    write(forward(image), moved)
}

/// The way back. Nothing is written when refused.
pub fn move_to_edition_1(image: &[u8], moved: &mut [u8]) -> u8 {
    write(back(image), moved)
}

/// An image of the other edition has no body of this length.
fn forward(image: &[u8]) -> Result<Vec<u8>, u8> {
    let old = find(image).try_into().map_err(|_| 10)?;
    let body = completed(old);
    if !keeps_body_rules(&body) {
        return Err(11);
    }
    Ok(seal(Edition::Second, &body))
}

fn back(image: &[u8]) -> Result<Vec<u8>, u8> {
    let body: &Body = find(image).try_into().map_err(|_| 10)?;
    if !keeps_body_rules(body) {
        return Err(11);
    }
    match body.strip_suffix(&ADDED) {
        Some(old) => Ok(seal(Edition::First, old)),
        None => Err(16),
    }
}

/// The space is looked at last.
fn write(image: Result<Vec<u8>, u8>, space: &mut [u8]) -> u8 {
    let image = match image {
        Ok(image) => image,
        Err(refusal) => return refusal,
    };
    match space.get_mut(..image.len()) {
        Some(front) => {
            front.copy_from_slice(&image);
            0
        }
        None => 9,
    }
}
