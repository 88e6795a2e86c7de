//! Keys at the lock while the controller is locked.

use crate::controller::{Controller, Device, cell};
use crate::counted::Counted;

impl Controller {
    /// A notice cell is put only when it holds something.
    pub(crate) fn put_notice(&mut self, number: usize) {
        let byte = self.ram[number];
        if byte != 0 {
            self.put(byte, Device::Keyboard);
        }
    }

    /// Break codes and the two chosen codes (shift keys, say) do not count.
    fn ignored_in_a_try(&self, code: u8) -> bool {
        code & 0x80 != 0 || cell::IGNORED.iter().any(|&number| self.ram[number] == code)
    }

    /// What A4h answers. The second set has no lock, so there it says that there
    /// is no password, whatever the state holds.
    pub(crate) fn password_test(&self) -> u8 {
        if self.settings.second_set || self.password.is_empty() {
            0xF1
        } else {
            0xFA
        }
    }

    /// Without a password there is nothing to lock with.
    pub(crate) fn lock(&mut self) {
        if self.password.is_empty() {
            return;
        }
        self.locked = true;
        self.counted.start_afresh();
        self.put_notice(cell::LOCK_NOTICE);
    }

    pub(crate) fn try_code(&mut self, code: u8) {
        if self.ignored_in_a_try(code) {
            return;
        }
        self.counted.count(code);
        if self.counted.end_with(self.password.bytes()) {
            self.unlock();
        }
    }

    fn unlock(&mut self) {
        self.locked = false;
        self.put_notice(cell::UNLOCK_NOTICE);
    }

    /// How far the counted keys have come in the password, 0 when not locked.
    /// No rule here goes by it; it is all that a body says of the counted keys.
    pub fn position(&self) -> usize {
        if self.locked {
            self.counted.position(self.password.bytes())
        } else {
            0
        }
    }

    /// Takes the password's first bytes for the counted keys, as after a load
    /// of a body with that position.
    pub fn count_first(&mut self, position: usize) {
        self.counted = Counted::first_of(self.password.bytes(), position);
    }
}
