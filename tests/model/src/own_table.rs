//! The calls that are given a key table of the caller's.

use crate::controller::Controller;
use crate::key_table::KeyTable;
use crate::list::run;
use crate::settings::Settings;

impl Controller {
    /// Starts afresh with a table, whatever was there. A refused table leaves
    /// the state as it was, its own table too.
    pub fn start_with_table(&mut self, settings: Settings, table: &[u8]) -> u8 {
        match KeyTable::checked(table) {
            Ok(table) => {
                *self = Controller::fresh(settings.with_table(table));
                0
            }
            Err(refusal) => refusal,
        }
    }
}

/// Runs a list from fresh with a table, which is looked at before the list is.
/// Nothing is written when refused.
pub fn run_with_table(settings: Settings, table: &[u8], list: &[u8], answers: &mut [u8]) -> u8 {
    match KeyTable::checked(table) {
        Ok(table) => run(settings.with_table(table), list, answers),
        Err(refusal) => refusal,
    }
}
