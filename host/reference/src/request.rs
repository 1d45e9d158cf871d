//! The six bytes of a request.

use crate::bits::{BitReader, BitWriter};
use crate::level::Level;
use crate::mode::Mode;
use crate::record::{OBJECTS, SUBJECTS};
use crate::wall::{self, Companies};

pub const REQUEST_BYTES: usize = 6;

#[derive(Clone, Copy, Debug, PartialEq, Eq)]
pub enum Kind {
    Get(Mode),
    Release(Mode),
    Give(usize, Mode),
    Rescind(usize, Mode),
    /// under a parent, or under none
    Create {
        execute: bool,
        parent: Option<usize>,
    },
    Delete,
    ChangeLevel(Level),
    SetCompanies(Companies),
}

/// Which modes a kind takes.
#[derive(Clone, Copy)]
enum Takes {
    /// r, w, a or e
    OneMode,
    /// e or none
    Execute,
    NoMode,
}

impl Takes {
    fn allows(self, mode: u32) -> bool {
        match self {
            Takes::OneMode => matches!(mode, 1..=4),
            Takes::Execute => matches!(mode, 0 | 4),
            Takes::NoMode => mode == 0,
        }
    }
}

/// The fields that a kind uses beside actor and object.
struct Row {
    other: bool,
    class: bool,
    needs: bool,
    mode: Takes,
}

/// The row of each kind. A match and no array: looked up in one, a give took some five percent longer, and this is what the
/// proved monitor is compared with.
fn row(kind: u32) -> Option<Row> {
    Some(match kind {
        1 | 2 => Row { other: false, class: false, needs: false, mode: Takes::OneMode },
        3 | 4 => Row { other: true, class: false, needs: false, mode: Takes::OneMode },
        5 => Row { other: false, class: false, needs: true, mode: Takes::Execute },
        6 => Row { other: false, class: false, needs: false, mode: Takes::NoMode },
        7 => Row { other: false, class: true, needs: true, mode: Takes::NoMode },
        8 => Row { other: false, class: false, needs: true, mode: Takes::NoMode },
        _ => return None,
    })
}

/// "Create carries the parent's number plus one in the needs field, 0 for none; above 64 .. it is malformed".
fn parent_in(needs: u16) -> Option<Option<usize>> {
    let number = usize::from(needs);
    (number <= OBJECTS).then(|| number.checked_sub(1))
}

/// A well-formed request.
#[derive(Clone, Copy, Debug, PartialEq, Eq)]
pub struct Request {
    pub actor: usize,
    pub object: usize,
    pub kind: Kind,
}

impl Request {
    /// What six bytes say under the widest profile; nothing where check 2 refuses them.
    pub fn decode(bytes: &[u8]) -> Option<Request> {
        if bytes.len() != REQUEST_BYTES {
            return None;
        }
        let mut bits = BitReader::new(bytes);
        let kind = bits.number(4);
        let actor = bits.number(5) as usize;
        let other = bits.number(5) as usize;
        let object = bits.number(7) as usize;
        let mode = bits.number(3);
        let class = bits.number(4) as u8;
        let needs = bits.number(16) as u16;
        let spare = bits.number(4);
        if actor >= SUBJECTS || other >= SUBJECTS || object >= OBJECTS || spare != 0 {
            return None;
        }
        let row = row(kind)?;
        if (!row.other && other != 0) || (!row.class && class != 0) || (!row.needs && needs != 0) {
            return None;
        }
        if !row.mode.allows(mode) {
            return None;
        }
        let moded = Mode::from_number(mode);
        let kind = match kind {
            1 => Kind::Get(moded?),
            2 => Kind::Release(moded?),
            3 => Kind::Give(other, moded?),
            4 => Kind::Rescind(other, moded?),
            5 => Kind::Create { execute: moded.is_some(), parent: parent_in(needs)? },
            6 => Kind::Delete,
            7 => Kind::ChangeLevel(Level { class, needs }),
            8 => Kind::SetCompanies(wall::from_needs(needs)),
            _ => return None,
        };
        Some(Request { actor, object, kind })
    }

    pub fn encode(&self) -> [u8; REQUEST_BYTES] {
        let (kind, other, mode) = match self.kind {
            Kind::Get(mode) => (1, 0, mode.number()),
            Kind::Release(mode) => (2, 0, mode.number()),
            Kind::Give(other, mode) => (3, other, mode.number()),
            Kind::Rescind(other, mode) => (4, other, mode.number()),
            Kind::Create { execute, .. } => (5, 0, if execute { 4 } else { 0 }),
            Kind::Delete => (6, 0, 0),
            Kind::ChangeLevel(_) => (7, 0, 0),
            Kind::SetCompanies(_) => (8, 0, 0),
        };
        let (class, needs) = match self.kind {
            Kind::ChangeLevel(Level { class, needs }) => (class, needs),
            Kind::SetCompanies(companies) => (0, wall::to_needs(companies)),
            Kind::Create { parent: Some(parent), .. } => (0, parent as u16 + 1),
            _ => (0, 0),
        };
        let mut bytes = [0; REQUEST_BYTES];
        let mut bits = BitWriter::new(&mut bytes);
        bits.number(kind, 4);
        bits.number(self.actor as u32, 5);
        bits.number(other as u32, 5);
        bits.number(self.object as u32, 7);
        bits.number(mode, 3);
        bits.number(class.into(), 4);
        bits.number(needs.into(), 16);
        bytes
    }
}
