//! Why a request is refused, found from the state before it. The reply itself is the library's; this finds the cause
//! without knowing the number, and the tests compare the two.

use crate::effect::after;
use crate::level::{level_words, shortfall, Level};
use crate::mode::{Mode, Modes};
use crate::properties::{self, Holding, Pair};
use crate::request::{Kind, Malformed, Request};
use crate::tree::{self, Unruly};
use crate::view::View;
use crate::wall::{self, Breach};
use crate::words::malformed_words;
use circmon::compare;
use std::fmt;

#[derive(Clone, Debug, PartialEq, Eq)]
pub enum Cause {
    Malformed(Vec<Malformed>),
    NotEnrolled { subject: usize },
    NotLive { object: usize },
    Live { object: usize, owner: usize },
    Missing(Missing),
    Lowered { object: usize, old: Level, new: Level },
    NoLabel { object: usize },
    Simple { place: Holding, by: By },
    Star { pair: Pair, by: By },
    Wall { breach: Breach, by: By },
    Parent { object: usize, parent: usize },
    ParentLabel { unruly: Unruly, changed: usize },
}

/// What would break a property: an access that comes to those held, or another label or other companies below them.
#[derive(Clone, Copy, Debug, PartialEq, Eq)]
pub enum By {
    Access,
    Level,
    Companies,
}

/// Ownership or a right that the actor does not have.
#[derive(Clone, Debug, PartialEq, Eq)]
pub struct Missing {
    pub actor: usize,
    pub object: usize,
    pub owner: usize,
    pub rights: Modes,
    pub needs_ownership: bool,
    pub needs_right: Option<Mode>,
}

#[derive(Clone, Debug, PartialEq, Eq)]
pub enum Verdict {
    Changed,
    Already,
    Refused(Cause),
}

impl Verdict {
    pub fn number(&self) -> u8 {
        match self {
            Verdict::Changed => 0,
            Verdict::Already => 1,
            Verdict::Refused(cause) => cause.number(),
        }
    }
}

impl Cause {
    pub fn number(&self) -> u8 {
        match self {
            Cause::Malformed(_) => 2,
            Cause::NotEnrolled { .. } => 3,
            Cause::NotLive { .. } => 4,
            Cause::Live { .. } => 5,
            Cause::Missing(_) => 6,
            Cause::NoLabel { .. } => 7,
            Cause::Simple { .. } => 8,
            Cause::Star { .. } => 9,
            Cause::Lowered { .. } => 14,
            Cause::Wall { .. } => 18,
            Cause::Parent { .. } => 19,
            Cause::ParentLabel { .. } => 20,
        }
    }
}

/// What the rules say of a byte string in a secure state.
pub fn judge(view: &View, bytes: &[u8]) -> Verdict {
    let request = match Request::decode_in(view.profile, bytes) {
        Ok(request) => request,
        Err(reasons) => return Verdict::Refused(Cause::Malformed(reasons)),
    };
    let after = after(view, &request);
    match refusal(view, &after, &request) {
        Some(cause) => Verdict::Refused(cause),
        None if after == *view => Verdict::Already,
        None => Verdict::Changed,
    }
}

/// The first cause in the order 3, then 4 or 5, then 19, 6, 14, 7, 8, 9, 18, 20; no kind has both 14 and 7, or 18 and 20.
fn refusal(view: &View, after: &View, request: &Request) -> Option<Cause> {
    enrolment(view, request)
        .or_else(|| life(view, request))
        .or_else(|| parent(view, request))
        .or_else(|| missing(view, request))
        .or_else(|| lowered(view, request))
        .or_else(|| label(after, request))
        .or_else(|| simple(after, request))
        .or_else(|| star(after, request))
        .or_else(|| wall(after, request))
        .or_else(|| parent_label(after, request))
}

fn enrolment(view: &View, request: &Request) -> Option<Cause> {
    let other = match request.kind {
        Kind::Give(other, _) | Kind::Rescind(other, _) => other,
        _ => request.actor,
    };
    let subject = [request.actor, other].into_iter().find(|&subject| view.subjects[subject].is_none())?;
    Some(Cause::NotEnrolled { subject })
}

fn life(view: &View, request: &Request) -> Option<Cause> {
    let object = request.object;
    match (&view.objects[object], request.kind) {
        (Some(it), Kind::Create { .. }) => Some(Cause::Live { object, owner: it.owner }),
        (None, Kind::Create { .. }) => None,
        (None, _) => Some(Cause::NotLive { object }),
        (Some(_), _) => None,
    }
}

/// An object that is not live is not its own parent either.
fn parent(view: &View, request: &Request) -> Option<Cause> {
    let Kind::Create { parent: Some(parent), .. } = request.kind else { return None };
    view.object(parent).is_none().then_some(Cause::Parent { object: request.object, parent })
}

fn missing(view: &View, request: &Request) -> Option<Cause> {
    let it = view.objects[request.object].as_ref()?;
    let (owning, right) = match request.kind {
        Kind::Get(mode) => (false, Some(mode)),
        Kind::Give(_, mode) | Kind::Rescind(_, mode) => (true, Some(mode)),
        Kind::Delete | Kind::ChangeLevel(_) | Kind::SetCompanies(_) => (true, None),
        Kind::Release(_) | Kind::Create { .. } => (false, None),
    };
    let rights = it.rights[request.actor];
    let missing = Missing {
        actor: request.actor,
        object: request.object,
        owner: it.owner,
        rights,
        needs_ownership: owning && it.owner != request.actor,
        needs_right: right.filter(|&mode| !rights.has(mode)),
    };
    (missing.needs_ownership || missing.needs_right.is_some()).then_some(Cause::Missing(missing))
}

/// A first label is free.
fn lowered(view: &View, request: &Request) -> Option<Cause> {
    let Kind::ChangeLevel(new) = request.kind else { return None };
    let old = view.objects[request.object].as_ref()?.label?;
    (!compare(new, old).dominates()).then_some(Cause::Lowered { object: request.object, old, new })
}

fn label(after: &View, request: &Request) -> Option<Cause> {
    if !matches!(request.kind, Kind::Get(Mode::Read | Mode::Write | Mode::Append)) {
        return None;
    }
    let place = properties::label(after).into_iter().next()?;
    Some(Cause::NoLabel { object: place.object })
}

fn simple(after: &View, request: &Request) -> Option<Cause> {
    if !matches!(request.kind, Kind::Get(Mode::Read | Mode::Write) | Kind::ChangeLevel(_)) {
        return None;
    }
    let place = properties::simple(after).into_iter().next()?;
    Some(Cause::Simple { place, by: by(request) })
}

fn star(after: &View, request: &Request) -> Option<Cause> {
    if !matches!(request.kind, Kind::Get(Mode::Read | Mode::Write | Mode::Append) | Kind::ChangeLevel(_)) {
        return None;
    }
    let pair = properties::star(after).into_iter().next()?;
    Some(Cause::Star { pair, by: by(request) })
}

/// A get of e has this check too.
fn wall(after: &View, request: &Request) -> Option<Cause> {
    if !matches!(request.kind, Kind::Get(_) | Kind::SetCompanies(_)) {
        return None;
    }
    let breach = wall::breaches(after).into_iter().next()?;
    Some(Cause::Wall { breach, by: by(request) })
}

/// Toward the parent of the object or toward one of its children: between others nothing changes.
fn parent_label(after: &View, request: &Request) -> Option<Cause> {
    if !matches!(request.kind, Kind::ChangeLevel(_)) {
        return None;
    }
    let unruly = tree::unruly(after).into_iter().next()?;
    Some(Cause::ParentLabel { unruly, changed: request.object })
}

fn by(request: &Request) -> By {
    match request.kind {
        Kind::SetCompanies(_) => By::Companies,
        Kind::ChangeLevel(_) => By::Level,
        _ => By::Access,
    }
}

impl fmt::Display for Cause {
    fn fmt(&self, out: &mut fmt::Formatter) -> fmt::Result {
        match self {
            Cause::Malformed(reasons) => write!(out, "{}", malformed_words(reasons)),
            Cause::NotEnrolled { subject } => write!(out, "s{subject} is not enrolled"),
            Cause::NotLive { object } => write!(out, "o{object} is not live"),
            Cause::Live { object, owner } => write!(out, "o{object} is live, and s{owner} owns it"),
            Cause::Missing(missing) => missing.fmt(out),
            Cause::Lowered { object, old, new } => {
                let name = format!("the label of o{object} ({})", level_words(*old));
                let why = shortfall(*new, *old, &name).unwrap_or_default();
                write!(out, "the new label ({}) {why}; ", level_words(*new))?;
                write!(
                    out,
                    "no request lowers a label, and only a delete ends it; a taking-back may restore an earlier one"
                )
            }
            Cause::NoLabel { object } => write!(
                out,
                "o{object} has no label; that is not class 0: nobody reads, writes or appends to it before it has one"
            ),
            Cause::Simple { place, by: By::Access } => write!(out, "{}", place.simple_words()),
            Cause::Simple { place, by: By::Level | By::Companies } => {
                let held = place.held.reading();
                write!(out, "s{} holds {held} on o{}, and with the new level ", place.subject, place.object)?;
                write!(out, "{}", place.simple_words())
            }
            Cause::Star { pair, by } => write!(out, "{}", by.said(|verb| pair.words(verb))),
            Cause::Wall { breach, by } => write!(out, "{}", by.said(|verb| breach.words(verb))),
            Cause::Parent { object, parent } if object == parent => {
                write!(out, "o{object} cannot be under itself: a parent is live before its child is created")
            }
            Cause::Parent { object, parent } => {
                write!(out, "o{parent}, under which o{object} would stand, is not live")
            }
            Cause::ParentLabel { unruly, changed } => write!(out, "{}", unruly.words(Some(*changed))),
        }
    }
}

impl By {
    /// What somebody holds who would break a property, behind what changes.
    fn said(self, words: impl Fn(&str) -> String) -> String {
        match self {
            By::Access => words("would hold"),
            By::Level => format!("with the new level {}", words("holds")),
            By::Companies => format!("with the new companies {}", words("holds")),
        }
    }
}

/// What is missing, then who owns the object and what rights the actor has.
impl fmt::Display for Missing {
    fn fmt(&self, out: &mut fmt::Formatter) -> fmt::Result {
        let (actor, object, owner) = (self.actor, self.object, self.owner);
        match (self.needs_ownership, self.needs_right) {
            (true, None) => write!(out, "s{actor} does not own o{object}")?,
            (true, Some(mode)) => write!(out, "s{actor} does not own o{object} and has no right {mode} on it")?,
            (false, Some(mode)) => write!(out, "s{actor} has no right {mode} on o{object}")?,
            (false, None) => {}
        }
        write!(out, "; the owner is s{owner}; the rights of s{actor}: {}", self.rights)
    }
}
