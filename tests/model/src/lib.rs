//! A plain model of the 8042 keyboard controller in PS/2 mode and in AT mode,
//! with the first command set and with that of the VT82C42, and with the built-in
//! key table or another; and of a trackball to test it with.
//!
//! It follows the written rules and nothing else, and serves as the yardstick
//! for the library under test.

mod added_rules;
mod body;
mod body_rules;
mod command;
mod command_set;
mod controller;
mod counted;
mod data;
mod decode;
mod edition;
mod encode;
mod errors;
mod event;
mod frame;
mod image;
mod input_port;
mod key_table;
mod key_table_rules;
mod latches;
mod lines;
mod list;
mod lock;
mod movement;
mod moves;
mod own_table;
mod password;
mod receive;
mod refusal;
mod reply;
mod second_set;
mod settings;
mod state_bytes;
mod state_rules;
mod stored_run;
mod trackball;
mod trackball_bytes;
mod trailer;
mod translation;

pub use body::{BODY_SIZE, Body, EDITION_1_BODY_SIZE};
pub use body_rules::keeps_body_rules;
pub use controller::{Controller, Device, Pending, cell, mode};
pub use counted::Counted;
pub use edition::Edition;
pub use encode::encode;
pub use frame::{Verdict, frame, judge};
pub use image::{EDITION_1_SIZE, IMAGE_SIZE, load, load_with_table, save, store};
pub use key_table::{KeyTable, TABLE_SIZE};
pub use key_table_rules::table_refusal;
pub use list::{ANSWER_SIZE, EVENT_SIZE, LIST_LIMIT, list_refusal, run};
pub use movement::Movement;
pub use moves::{move_to_edition_1, move_to_edition_2};
pub use own_table::run_with_table;
pub use password::{PASSWORD_LIMIT, Password};
pub use reply::{REPLY_LIMIT, Reply};
pub use settings::Settings;
pub use state_bytes::{STATE_SIZE, TABLE_PLACE, VERSION_PLACE, state_bytes};
pub use state_rules::keeps_state_rules;
pub use stored_run::{run_image, run_image_with_table};
pub use trackball::Trackball;
pub use trackball_bytes::TRACKBALL_SIZE;
pub use trailer::{find, seal, word_sum};
pub use translation::translate;
