//! The error flags. What changes them clears them all and sets at most one.

use crate::controller::Controller;

#[derive(Clone, Copy, Debug, PartialEq, Eq)]
pub(crate) enum Error {
    /// A device did not take the byte sent to it.
    Transmit,
    /// A frame was broken.
    Receive,
    Parity,
}

impl Controller {
    pub(crate) fn clear_errors(&mut self) {
        self.transmit_timeout = false;
        self.timeout_error = false;
        self.parity_error = false;
    }

    /// Leaves this error alone. PS/2 mode has one flag for both time-outs.
    pub(crate) fn set_error(&mut self, error: Error) {
        self.clear_errors();
        match error {
            Error::Transmit if self.settings.at_mode => self.transmit_timeout = true,
            Error::Transmit | Error::Receive => self.timeout_error = true,
            Error::Parity => self.parity_error = true,
        }
    }
}
