//! The record of a live object.

use crate::level::Level;
use crate::mode::Mode;
use crate::wall::{Companies, CONFLICT_CLASSES};

pub const SUBJECTS: usize = 16;
pub const OBJECTS: usize = 64;

const READS: u8 = Mode::Read.bit() | Mode::Write.bit();
const WRITES: u8 = Mode::Write.bit() | Mode::Append.bit();
/// The four modes; a set may be a byte with other bits, which are no modes.
const ANY: u8 = READS | WRITES | Mode::Execute.bit();

#[derive(Clone, Debug, PartialEq, Eq)]
pub struct Object {
    pub owner: usize,
    pub label: Option<Level>,
    pub companies: Companies,
    pub rights: [u8; SUBJECTS],
    pub held: [u8; SUBJECTS],
    /// the object that contains it; an image may name one above 63, which is none of the objects
    pub parent: Option<usize>,
}

impl Object {
    /// Without label, company, right, access or parent.
    pub fn new(owner: usize) -> Object {
        let none = [0; SUBJECTS];
        Object { owner, label: None, companies: [0; CONFLICT_CLASSES], rights: none, held: none, parent: None }
    }

    /// Whether the subject holds any access on it, e too.
    pub fn holds(&self, subject: usize) -> bool {
        self.held[subject] & ANY != 0
    }

    pub fn reads(&self, subject: usize) -> bool {
        self.held[subject] & READS != 0
    }

    pub fn writes(&self, subject: usize) -> bool {
        self.held[subject] & WRITES != 0
    }
}
