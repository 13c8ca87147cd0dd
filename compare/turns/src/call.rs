//! What is asked of a server.

use ours::{Answer, Asked, Held};

use crate::given::Given;

pub enum Call {
    /// With the answer that it is to have.
    Turn(Given, Answer),
    /// Between turns.
    Other(Held),
}

impl Asked for Call {
    fn on_ours(&self) -> ours::Call {
        match self {
            Self::Turn(given, _) => given.on_ours(),
            Self::Other(held) => held.call.clone(),
        }
    }

    fn answer(&self) -> &Answer {
        match self {
            Self::Turn(_, answer) => answer,
            Self::Other(held) => &held.answer,
        }
    }
}
