//! What a run does behind its table, one action after the other.

use circmon::{Unit, REQUEST_BYTES};

#[derive(Clone, Debug, PartialEq, Eq)]
pub enum Action {
    /// a byte string, which need not be a request
    Request(Vec<u8>),
    /// no request: it has no bytes
    TakeBack,
}

impl Action {
    /// The requests that `circmon` reads from bytes, a short last piece counted.
    pub fn all_in(bytes: &[u8]) -> Vec<Action> {
        bytes.chunks(REQUEST_BYTES).map(|piece| Action::Request(piece.to_vec())).collect()
    }

    /// The library's number.
    pub fn carry_out(&self, unit: &mut Unit) -> u8 {
        match self {
            Action::Request(bytes) => unit.ask(bytes),
            Action::TakeBack => unit.take_back(),
        }
    }
}
