//! What a start chooses. No event changes it.

use crate::key_table::KeyTable;

/// Bits of the options byte; the others are not looked at.
mod option {
    pub const MOUSE_LOCK: u8 = 1 << 0;
    pub const AT_MODE: u8 = 1 << 1;
    pub const SECOND_SET: u8 = 1 << 2;
}

#[derive(Clone, Copy, Debug, PartialEq, Eq)]
pub struct Settings {
    /// The key switch keeps mouse bytes from the host too.
    pub mouse_lock: bool,
    /// AT mode, in which there is no mouse; else PS/2 mode.
    pub at_mode: bool,
    /// The command set of the VT82C42; else the first set.
    pub second_set: bool,
    /// What the second set puts for the controller's version. It is kept with
    /// the first set too, where nothing shows it.
    pub version: u8,
    /// What translates the keyboard's bytes.
    pub table: KeyTable,
}

impl Settings {
    pub const ORDINARY: Settings = Settings::chosen(0);
    pub const MOUSE_LOCK: Settings = Settings::chosen(1);
    pub const AT_MODE: Settings = Settings::chosen(2);
    pub const AT_MODE_AND_MOUSE_LOCK: Settings = Settings::chosen(3);
    pub const SECOND_SET: Settings = Settings::chosen(4);
    pub const SECOND_SET_AND_MOUSE_LOCK: Settings = Settings::chosen(5);
    pub const SECOND_SET_IN_AT_MODE: Settings = Settings::chosen(6);
    pub const SECOND_SET_IN_AT_MODE_AND_MOUSE_LOCK: Settings = Settings::chosen(7);

    /// Every choice, the ordinary one first, each with version byte 0 and the
    /// built-in table.
    pub const ALL: [Settings; 8] = [
        Settings::ORDINARY,
        Settings::MOUSE_LOCK,
        Settings::AT_MODE,
        Settings::AT_MODE_AND_MOUSE_LOCK,
        Settings::SECOND_SET,
        Settings::SECOND_SET_AND_MOUSE_LOCK,
        Settings::SECOND_SET_IN_AT_MODE,
        Settings::SECOND_SET_IN_AT_MODE_AND_MOUSE_LOCK,
    ];

    const fn chosen(options: u8) -> Settings {
        Settings::from_options(options, 0)
    }

    /// What these two bytes name, with the built-in table.
    pub const fn from_options(options: u8, version: u8) -> Settings {
        Settings {
            mouse_lock: options & option::MOUSE_LOCK != 0,
            at_mode: options & option::AT_MODE != 0,
            second_set: options & option::SECOND_SET != 0,
            version,
            table: KeyTable::BUILT_IN,
        }
    }

    /// The same choice with another version byte.
    pub const fn with_version(self, version: u8) -> Settings {
        Settings { version, ..self }
    }

    /// The same choice with another table.
    pub const fn with_table(self, table: KeyTable) -> Settings {
        Settings { table, ..self }
    }

    /// The options byte that names these settings.
    pub fn options(self) -> u8 {
        let bit = |chosen, bit| if chosen { bit } else { 0 };
        bit(self.mouse_lock, option::MOUSE_LOCK)
            | bit(self.at_mode, option::AT_MODE)
            | bit(self.second_set, option::SECOND_SET)
    }
}
