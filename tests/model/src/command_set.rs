//! Which commands act. One that does not is taken like an unknown one, so it
//! ends what was pending and nothing more.

use crate::settings::Settings;

/// The commands for the mouse, for the lock and for polling P1, which only
/// PS/2 mode has, with either set.
fn only_in_ps2_mode(command: u8) -> bool {
    matches!(command, 0xA4..=0xA9 | 0xC1 | 0xC2 | 0xD2..=0xD4)
}

/// The commands that load a code and lock with it. The second set has no lock,
/// though its A4h answers that there is no code.
fn only_in_first_set(command: u8) -> bool {
    matches!(command, 0xA5 | 0xA6)
}

/// The commands that the VT82C42 adds: latches of both ports, the version, the
/// leave for D1h, and the mode.
fn only_in_second_set(command: u8) -> bool {
    matches!(
        command,
        0x90..=0x9F | 0xA1 | 0xAF | 0xB0..=0xBF | 0xC8..=0xCA | 0xE1..=0xEF
    )
}

impl Settings {
    /// False for a command that these settings switch off.
    pub(crate) fn command_acts(self, command: u8) -> bool {
        let of_mode = !(self.at_mode && only_in_ps2_mode(command));
        let of_set = if self.second_set {
            !only_in_first_set(command)
        } else {
            !only_in_second_set(command)
        };
        of_mode && of_set
    }
}
