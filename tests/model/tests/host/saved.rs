//! Images made, changed and loaded again.

use super::Host;
use model::{
    BODY_SIZE, Body, Controller, EDITION_1_BODY_SIZE, Edition, Settings, encode, load_with_table,
    save, seal, state_bytes,
};

impl Host {
    /// Saves and loads with the version byte and the table that it has, which
    /// loses nothing.
    pub fn restored(&self) -> Host {
        let settings = self.state.settings;
        let image = save(&self.state);
        let loaded = load_with_table(settings.version, &settings.table.0, &image);
        let state = loaded.expect("an image");
        assert_eq!(state_bytes(&state), state_bytes(&self.state));
        assert_eq!(save(&state), image);
        Host { state }
    }
}

pub fn fresh_body(settings: Settings) -> Body {
    encode(&Controller::fresh(settings))
}

/// A body with some of its bytes changed.
pub fn with_bytes(mut body: Body, changes: &[(usize, u8)]) -> Body {
    for &(at, value) in changes {
        body[at] = value;
    }
    body
}

/// An image of edition 2.
pub fn sealed(body: &Body) -> Vec<u8> {
    assert_eq!(body.len(), BODY_SIZE);
    seal(Edition::Second, body)
}

/// An image of edition 1, without the last four bytes of the body.
pub fn sealed_as_edition_1(body: &Body) -> Vec<u8> {
    seal(Edition::First, &body[..EDITION_1_BODY_SIZE])
}
