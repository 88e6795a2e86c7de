//! What is pending as a body numbers it.

use model::Pending;

pub fn code(pending: Pending) -> u8 {
    match pending {
        Pending::None => 0,
        Pending::Mode => 1,
        Pending::Cell(_) => 2,
        Pending::Password => 3,
        Pending::OutputPort => 4,
        Pending::Output => 5,
        Pending::MouseOutput => 6,
        Pending::SendToMouse => 7,
    }
}
