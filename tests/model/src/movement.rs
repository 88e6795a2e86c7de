//! The trackball's movement along one axis: a sum of steps that stops at its
//! ends.

/// What nine bits hold in two's complement.
const LEAST: i32 = -256;
const MOST: i32 = 255;

#[derive(Clone, Copy, Debug, PartialEq, Eq)]
pub struct Movement {
    /// From -256 to 255 in a trackball that only calls have changed.
    pub sum: i16,
    /// The sum was stopped at an end. That stays though it comes back.
    pub overflow: bool,
}

impl Movement {
    pub const NONE: Movement = Movement {
        sum: 0,
        overflow: false,
    };

    /// Adds in more than sixteen bits, since a step may be as large as these
    /// hold.
    pub fn add(&mut self, step: i16) {
        let sum = i32::from(self.sum) + i32::from(step);
        let stopped = sum.clamp(LEAST, MOST);
        self.sum = stopped as i16;
        self.overflow |= stopped != sum;
    }

    pub fn is_negative(&self) -> bool {
        self.sum < 0
    }

    /// The sum's lowest eight bits, without the sign.
    pub fn low_byte(&self) -> u8 {
        self.sum as u8
    }
}
