//! Why bytes are no request.

use crate::kinds::KINDS;
use crate::level::{level_words, Level};
use crate::profile::{self, Profile};
use std::fmt;

/// One reason why bytes are no request.
#[derive(Clone, Debug, PartialEq, Eq)]
pub enum Malformed {
    Length(usize),
    Kind(u32),
    Actor(u32),
    Other(u32),
    Object(u32),
    /// a mode that the kind of this name does not allow
    Mode(u32, &'static str),
    Unused(&'static str, u32),
    /// the field of a parent, which is the number of an object plus one
    Parent(u32),
    ActorBeyond(u32, Profile),
    OtherBeyond(u32, Profile),
    ObjectBeyond(u32, Profile),
    ParentBeyond(u32, Profile),
    LevelOutside(Level, Profile),
}

impl Malformed {
    /// Whether the widest profile would not exclude it.
    pub fn is_by_profile(&self) -> bool {
        use Malformed::{ActorBeyond, LevelOutside, ObjectBeyond, OtherBeyond, ParentBeyond};
        matches!(self, ActorBeyond(..) | OtherBeyond(..) | ObjectBeyond(..) | ParentBeyond(..) | LevelOutside(..))
    }
}

impl fmt::Display for Malformed {
    fn fmt(&self, out: &mut fmt::Formatter) -> fmt::Result {
        match self {
            Malformed::Length(1) => write!(out, "1 byte, not 6"),
            Malformed::Length(found) => write!(out, "{found} bytes, not 6"),
            Malformed::Kind(kind) => write!(out, "kind {kind} is not 1 to {}", KINDS.len()),
            Malformed::Actor(actor) => write!(out, "actor {actor} is above 15"),
            Malformed::Other(other) => write!(out, "other subject {other} is above 15"),
            Malformed::Object(object) => write!(out, "object {object} is above 63"),
            Malformed::Mode(mode, kind) => write!(out, "mode {mode} is not allowed in {kind}"),
            Malformed::Unused(name, number) => write!(out, "the unused field {name} is {number}, not 0"),
            Malformed::Parent(field) => {
                write!(out, "the field of the parent, its number plus one, is {field}, above 64")
            }
            Malformed::ActorBeyond(actor, it) => write!(out, "subject s{actor} {}", profile::beyond_subjects(*it)),
            Malformed::OtherBeyond(other, it) => {
                write!(out, "other subject s{other} {}", profile::beyond_subjects(*it))
            }
            Malformed::ObjectBeyond(object, it) => write!(out, "object o{object} {}", profile::beyond_objects(*it)),
            Malformed::ParentBeyond(parent, it) => write!(out, "parent o{parent} {}", profile::beyond_objects(*it)),
            Malformed::LevelOutside(level, it) => {
                write!(out, "{} {}", level_words(*level), profile::outside(*it, *level))
            }
        }
    }
}

/// All reasons on one line.
pub fn reasons_words(reasons: &[Malformed]) -> String {
    reasons.iter().map(Malformed::to_string).collect::<Vec<_>>().join("; ")
}
