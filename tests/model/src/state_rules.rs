//! Which states a controller can be in: its body and its key table are such as
//! can be loaded. Every event keeps that.

use crate::body_rules::keeps_body_rules;
use crate::controller::Controller;
use crate::encode::encode;
use crate::key_table_rules::table_refusal;

pub fn keeps_state_rules(state: &Controller) -> bool {
    keeps_body_rules(&encode(state)) && table_refusal(&state.settings.table.0) == 0
}
