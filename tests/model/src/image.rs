//! Saves and loads.

use crate::body::{BODY_SIZE, Body};
use crate::body_rules::keeps_body_rules;
use crate::controller::Controller;
use crate::decode::decode;
use crate::edition::Edition;
use crate::encode::encode;
use crate::key_table::KeyTable;
use crate::moves::completed;
use crate::trailer::{find, seal};

/// What a save writes.
pub const IMAGE_SIZE: usize = Edition::Second.image_size();
/// An image of edition 1.
pub const EDITION_1_SIZE: usize = Edition::First.image_size();

pub fn save(state: &Controller) -> [u8; IMAGE_SIZE] {
    let image = seal(Edition::Second, &encode(state));
    image.try_into().expect("a body and its trailer")
}

/// Saves to the front of a buffer; refusal 9 writes nothing.
pub fn store(state: &Controller, saved: &mut [u8]) -> u8 {
    match saved.first_chunk_mut() {
        Some(image) => {
            *image = save(state);
            0
        }
        None => 9,
    }
}

/// The state in an image of either edition, with the version byte given and the
/// built-in table, or the refusal number 10 or 11.
pub fn load(version: u8, image: &[u8]) -> Result<Controller, u8> {
    load_with_table(version, &KeyTable::BUILT_IN.0, image)
}

/// The same with a table, which is looked at last, by 13 to 15.
pub fn load_with_table(version: u8, table: &[u8], image: &[u8]) -> Result<Controller, u8> {
    let body = body_of_either(image)?;
    let table = KeyTable::checked(table)?;
    Ok(decode(&body, version, table))
}

/// The body in an image, that of edition 1 as a move makes it. It keeps the rules.
fn body_of_either(image: &[u8]) -> Result<Body, u8> {
    let found = find(image);
    let body = match found.len() {
        0 => return Err(10),
        BODY_SIZE => found.try_into().expect("a body of edition 2"),
        _ => completed(found.try_into().expect("a body of edition 1")),
    };
    if keeps_body_rules(&body) {
        Ok(body)
    } else {
        Err(11)
    }
}
