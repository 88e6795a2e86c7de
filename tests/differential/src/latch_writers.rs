//! Which latches the commands of the second set write.

use model::Controller;

/// The latches that the added commands write, by their lines.
#[derive(Clone, Copy, Debug, PartialEq, Eq, PartialOrd, Ord)]
pub enum Latch {
    P1(u8),
    P2(u8),
}

impl Latch {
    pub fn of(self, state: &Controller) -> bool {
        match self {
            Latch::P1(line) => state.latches_1 >> line & 1 != 0,
            Latch::P2(1) => state.latch_21,
            Latch::P2(2) => state.latch_22,
            Latch::P2(_) => state.latch_23,
        }
    }
}

/// The commands that write latches: a nibble, one line, three lines.
#[derive(Clone, Copy, Debug, PartialEq, Eq, PartialOrd, Ord)]
pub enum Writer {
    Nibble,
    One,
    Three,
}

pub const WRITERS: [Writer; 3] = [Writer::Nibble, Writer::One, Writer::Three];

impl Writer {
    pub fn of(command: u8) -> Option<Writer> {
        match command {
            0x90..=0x9F => Some(Writer::Nibble),
            0xB0..=0xBF => Some(Writer::One),
            0xE1..=0xEF => Some(Writer::Three),
            _ => None,
        }
    }

    /// All latches that its commands write, in their order.
    pub fn latches(self) -> &'static [Latch] {
        use Latch::{P1, P2};
        match self {
            Writer::Nibble => &[P1(0), P1(1), P1(2), P1(3)],
            Writer::One => &[P1(0), P1(1), P1(2), P1(3), P2(2), P2(3), P1(4), P1(5)],
            Writer::Three => &[P2(1), P2(2), P2(3)],
        }
    }

    /// Those that one of them writes.
    pub fn written(self, command: u8) -> &'static [Latch] {
        let all = self.latches();
        let place = usize::from(command % 8);
        match self {
            Writer::One => &all[place..=place],
            _ => all,
        }
    }
}

#[cfg(test)]
mod tests {
    use super::*;
    use crate::event::kind;
    use crate::under_settings::SECOND_SET;

    /// The order in which one command each writes them.
    #[test]
    fn one_command_writes_one_latch() {
        for command in 0xB0..=0xBF_u8 {
            let written = Writer::One.written(command);
            let mut state = Controller::fresh(SECOND_SET);
            if command >= 0xB8 {
                state.latches_1 = 0;
                (state.latch_22, state.latch_23) = (false, false);
            }
            let before = state.clone();
            state.event(kind::WRITE_COMMAND, command.into());
            let all = Writer::One.latches().iter();
            let moved: Vec<Latch> = all
                .filter(|latch| latch.of(&before) != latch.of(&state))
                .copied()
                .collect();
            assert_eq!(moved, written, "{command:02X}");
        }
    }

    #[test]
    fn other_commands_write_none() {
        let writers = (0..=0xFF).filter(|&command| Writer::of(command).is_some());
        assert_eq!(writers.count(), 16 + 16 + 15);
        assert_eq!(Writer::of(0xE0), None);
    }
}
