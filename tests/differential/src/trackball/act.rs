//! One call on a trackball.

use model::{Reply, Trackball};

/// The bytes that a trackball knows.
pub mod request {
    pub const PACKET: u8 = 0xEB;
    pub const IDENTITY: u8 = 0xF2;
    pub const ENABLE: u8 = 0xF4;
    pub const DISABLE: u8 = 0xF5;
    pub const RESET: u8 = 0xFF;

    pub const ALL: [u8; 5] = [PACKET, IDENTITY, ENABLE, DISABLE, RESET];
}

#[derive(Clone, Copy, Debug, PartialEq, Eq)]
pub enum Act {
    Move { buttons: u8, x: i16, y: i16 },
    Send(u8),
    Report,
}

impl Act {
    /// Carries it out by the model. A move gives nothing.
    pub fn on(self, trackball: &mut Trackball) -> Reply {
        match self {
            Act::Move { buttons, x, y } => {
                trackball.move_by(buttons, x, y);
                Reply::NOTHING
            }
            Act::Send(byte) => trackball.send(byte),
            Act::Report => trackball.report(),
        }
    }

    /// Whether it gives a packet on a trackball.
    pub fn gives_packet(self, trackball: &Trackball) -> bool {
        match self {
            Act::Move { .. } => false,
            Act::Send(byte) => byte == request::PACKET,
            Act::Report => trackball.reporting,
        }
    }
}

/// Acts on a fresh trackball, each with what it finds by the model.
#[cfg(test)]
pub fn from_fresh(acts: &[Act]) -> Vec<(Trackball, Act)> {
    let mut trackball = Trackball::FRESH;
    let found = |&act: &Act| {
        let before = trackball;
        act.on(&mut trackball);
        (before, act)
    };
    acts.iter().map(found).collect()
}
