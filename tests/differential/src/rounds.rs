//! How long a run lasts.

/// `CALUGNID_ROUNDS` multiplies the length of the random tests.
pub fn rounds() -> usize {
    match std::env::var("CALUGNID_ROUNDS") {
        Err(_) => 1,
        Ok(text) => text.parse().expect("CALUGNID_ROUNDS is a number"),
    }
}
