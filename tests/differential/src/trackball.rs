//! The trackball of the library and that of the model, driven together.

pub mod act;
pub mod coverage;
pub mod draws;
pub mod lent;
pub mod misreadings;
pub mod situations;
pub mod trackballs;
