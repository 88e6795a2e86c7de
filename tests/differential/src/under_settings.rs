//! Tests that run under every choice of start settings. Each choice has a version
//! byte of its own, and comes with the built-in key table and with a drawn one.

use crate::key_tables;
use crate::random::Random;
use model::{KeyTable, Settings};

pub const ORDINARY: Settings = Settings::ORDINARY;
pub const MOUSE_LOCK: Settings = Settings::MOUSE_LOCK.with_version(0x11);
pub const AT_MODE: Settings = Settings::AT_MODE.with_version(0x80);
pub const AT_MODE_AND_MOUSE_LOCK: Settings = Settings::AT_MODE_AND_MOUSE_LOCK.with_version(0xFF);
pub const SECOND_SET: Settings = Settings::SECOND_SET.with_version(0xA5);
pub const SECOND_SET_AND_MOUSE_LOCK: Settings =
    Settings::SECOND_SET_AND_MOUSE_LOCK.with_version(0x3C);
pub const SECOND_SET_IN_AT_MODE: Settings = Settings::SECOND_SET_IN_AT_MODE.with_version(0x42);
pub const SECOND_SET_IN_AT_MODE_AND_MOUSE_LOCK: Settings =
    Settings::SECOND_SET_IN_AT_MODE_AND_MOUSE_LOCK.with_version(0x01);

/// Every choice with the built-in table, the ordinary one first.
pub const WITH_BUILT_IN_TABLE: [Settings; 8] = [
    ORDINARY,
    MOUSE_LOCK,
    AT_MODE,
    AT_MODE_AND_MOUSE_LOCK,
    SECOND_SET,
    SECOND_SET_AND_MOUSE_LOCK,
    SECOND_SET_IN_AT_MODE,
    SECOND_SET_IN_AT_MODE_AND_MOUSE_LOCK,
];

/// One choice for each mode and set.
pub const MODES_AND_SETS: [Settings; 4] = [ORDINARY, AT_MODE, SECOND_SET, SECOND_SET_IN_AT_MODE];

/// The same choice with a table that is drawn for it.
pub fn with_drawn_table(settings: Settings) -> Settings {
    let mut random = Random::new(1_000 + u64::from(settings.options()));
    settings.with_table(key_tables::draw(&mut random))
}

/// Any choice, with a table of its own.
pub fn draw(random: &mut Random) -> Settings {
    let table = key_tables::draw(random);
    random.pick(&WITH_BUILT_IN_TABLE).with_table(table)
}

/// Every choice, with the built-in table and then with a drawn one.
pub fn all() -> Vec<Settings> {
    let drawn = WITH_BUILT_IN_TABLE.map(with_drawn_table);
    [WITH_BUILT_IN_TABLE, drawn].concat()
}

fn has_built_in_table(settings: Settings) -> bool {
    settings.table == KeyTable::BUILT_IN
}

/// Events from fresh load a code and lock with it. They do so in PS/2 mode with
/// the first set only.
pub fn locks(settings: Settings) -> bool {
    !settings.at_mode && !settings.second_set
}

/// The cases of a sweep to which the table matters little: all of them with the
/// built-in one, and every seventh with a drawn one. Seven is odd, so each bit
/// that a sweep counts through still comes both ways.
pub fn thinned<T>(
    settings: Settings,
    cases: impl IntoIterator<Item = T>,
) -> impl Iterator<Item = T> {
    let step = if has_built_in_table(settings) { 1 } else { 7 };
    cases.into_iter().step_by(step)
}

/// Makes a test of each function for every choice, named after the table and the
/// choice.
#[macro_export]
macro_rules! under_every_setting {
    ($($test:ident),+ $(,)?) => {$(
        $crate::under_every_setting! {
            $test under
            ordinary: ORDINARY,
            mouse_lock: MOUSE_LOCK,
            at_mode: AT_MODE,
            at_mode_and_mouse_lock: AT_MODE_AND_MOUSE_LOCK,
            second_set: SECOND_SET,
            second_set_and_mouse_lock: SECOND_SET_AND_MOUSE_LOCK,
            second_set_in_at_mode: SECOND_SET_IN_AT_MODE,
            second_set_in_at_mode_and_mouse_lock: SECOND_SET_IN_AT_MODE_AND_MOUSE_LOCK,
        }
    )+};
    ($test:ident under $($name:ident: $choice:ident,)+) => {
        mod $test {
            pub mod built_in_table {
                use $crate::under_settings;

                $(#[test]
                pub fn $name() {
                    super::super::$test(under_settings::$choice);
                })+
            }

            pub mod drawn_table {
                use $crate::under_settings;

                $(#[test]
                pub fn $name() {
                    let choice = under_settings::$choice;
                    super::super::$test(under_settings::with_drawn_table(choice));
                })+
            }
        }
    };
}

/// A seed of its own for each choice, so that none repeats another's events.
pub fn seed(settings: Settings, seed: u64) -> u64 {
    let drawn = u64::from(!has_built_in_table(settings));
    seed + (u64::from(settings.options()) << 32) + (drawn << 40)
}

#[cfg(test)]
mod tests {
    use super::*;
    use model::table_refusal;
    use std::cell::RefCell;
    use std::collections::BTreeSet;

    #[test]
    fn every_choice_has_a_version_byte_of_its_own() {
        let chosen = WITH_BUILT_IN_TABLE.map(|settings| settings.with_version(0));
        assert_eq!(chosen, Settings::ALL);
        let versions = WITH_BUILT_IN_TABLE.map(|settings| settings.version);
        assert_eq!(BTreeSet::from(versions).len(), versions.len());
    }

    /// Each differs from the built-in one in the keys and above them, and most of
    /// them hold a key's code above the keys as well.
    #[test]
    fn every_choice_has_a_drawn_table_of_its_own() {
        let tables: BTreeSet<[u8; 256]> = all().iter().map(|settings| settings.table.0).collect();
        assert_eq!(tables.len(), 9);
        let built_in = KeyTable::BUILT_IN.0;
        let others = tables.iter().filter(|&&table| table != built_in);
        let mut with_keys_above = 0;
        for table in others {
            assert_eq!(table_refusal(table), 0);
            assert_ne!(table[..0x80], built_in[..0x80]);
            assert_ne!(table[0x80..], built_in[0x80..]);
            let keys_above = table[0x80..].iter().filter(|&&code| code < 0x80).count();
            with_keys_above += usize::from(keys_above > 2);
        }
        assert!(with_keys_above >= 4, "{with_keys_above}");
    }

    #[test]
    fn each_mode_has_each_set() {
        let both = MODES_AND_SETS.map(|settings| (settings.at_mode, settings.second_set));
        let all = [(false, false), (true, false), (false, true), (true, true)];
        assert_eq!(both, all);
    }

    #[test]
    fn seeds_differ() {
        let seeds: BTreeSet<u64> = all().into_iter().map(|choice| seed(choice, 7)).collect();
        assert_eq!(seeds.len(), 16);
    }

    #[test]
    fn a_sweep_is_whole_with_the_built_in_table() {
        assert!(thinned(AT_MODE, 0..12).eq(0..12));
        assert!(thinned(with_drawn_table(AT_MODE), 0..18).eq([0, 7, 14]));
    }

    thread_local! {
        static CALLED: RefCell<Vec<Settings>> = const { RefCell::new(Vec::new()) };
    }

    fn noted(settings: Settings) {
        assert!(all().contains(&settings));
        CALLED.with_borrow_mut(|called| called.push(settings));
    }

    crate::under_every_setting!(noted);

    #[test]
    fn the_tests_are_those_of_every_choice() {
        macro_rules! call_all {
            ($($table:ident),+) => {$(
                noted::$table::ordinary();
                noted::$table::mouse_lock();
                noted::$table::at_mode();
                noted::$table::at_mode_and_mouse_lock();
                noted::$table::second_set();
                noted::$table::second_set_and_mouse_lock();
                noted::$table::second_set_in_at_mode();
                noted::$table::second_set_in_at_mode_and_mouse_lock();
            )+};
        }
        call_all!(built_in_table, drawn_table);
        assert_eq!(CALLED.take(), all());
    }
}
