//! Lists of gives and releases, with malformed byte strings among them, in both implementations: orders carried out, what every
//! order must grant and leave, which is computed from the state before the list, and what was met.

use crate::orders::{after_order, after_orders, equal_grants, equal_states, is_granted, same_grants, After, Met};
use crate::{image, rows, Both};
use reference::{reply, Kind, Mode, Monitor, Request, OBJECTS, REQUEST_BYTES, SUBJECTS};

/// Orders of a list carried out on a state, and the reply to each of its byte strings if it came alone.
pub struct Carried {
    pub alone: Vec<u8>,
    pub after: Vec<After>,
}

impl Carried {
    pub fn new(both: &Both, list: &[Vec<u8>], orders: &[Vec<usize>]) -> Carried {
        let alone = |bytes: &Vec<u8>| after_order(both, std::slice::from_ref(bytes), &[0]).replies[0];
        Carried { alone: list.iter().map(alone).collect(), after: after_orders(both, list, orders) }
    }

    /// "Any two orders of one list of gives must leave equal states"
    pub fn leave_equal_states(&self) -> bool {
        equal_states(&self.after)
    }

    /// "each give must be granted in both or refused in both", by its place in the list
    pub fn grant_the_same(&self) -> bool {
        equal_grants(&self.after)
    }

    /// In each order every copy of one byte string is granted, or every copy is refused.
    pub fn treat_copies_alike(&self, list: &[Vec<u8>]) -> bool {
        let alike =
            |a: usize, b: usize| self.after.iter().all(|it| same_grants(&it.replies[a..=a], &it.replies[b..=b]));
        copies(list).into_iter().all(|(first, copy)| alike(first, copy))
    }

    /// Every order grants what is granted alone.
    pub fn grant_as_alone(&self) -> bool {
        self.after.iter().all(|it| same_grants(&it.replies, &self.alone))
    }

    /// What is refused gets the number in every order that it gets alone.
    pub fn refuse_as_alone(&self) -> bool {
        let alike = |it: &After| it.replies.iter().zip(&self.alone).all(|(a, b)| is_granted(*a) || a == b);
        self.after.iter().all(alike)
    }
}

/// The places of each copy: of the first byte string that is the same, and its own.
fn copies(list: &[Vec<u8>]) -> Vec<(usize, usize)> {
    let first = |copy: usize| list[..copy].iter().position(|bytes| *bytes == list[copy]);
    (0..list.len()).filter_map(|copy| Some((first(copy)?, copy))).collect()
}

/// One mode of one subject on one object.
#[derive(Clone, Copy, PartialEq)]
struct Entry {
    object: usize,
    subject: usize,
    mode: Mode,
}

const MALFORMED: &str = "malformed byte string";

/// What a byte string of such a list asks for.
#[derive(Clone, Copy, PartialEq)]
enum Asked {
    Right(Entry),
    Release(Entry),
    /// malformed
    Nothing,
}

impl Asked {
    fn word(self) -> &'static str {
        match self {
            Asked::Right(_) => "give",
            Asked::Release(_) => "release",
            Asked::Nothing => MALFORMED,
        }
    }
}

fn asked(bytes: &[u8]) -> Asked {
    let Some(Request { actor, object, kind }) = Request::decode(bytes) else {
        return Asked::Nothing;
    };
    match kind {
        Kind::Give(other, mode) => Asked::Right(Entry { object, subject: other, mode }),
        Kind::Release(mode) => Asked::Release(Entry { object, subject: actor, mode }),
        _ => panic!("{bytes:02x?} is neither a give nor a release"),
    }
}

/// The state that every order leaves. A right is there where it was there before or a give of it is granted alone; an access is
/// held where it was held and no release of it is granted alone; everything else is as it was. The order of the list does
/// not matter here: what is given and what is released are two sets.
fn expected(before: &Monitor, list: &[Vec<u8>], alone: &[u8]) -> Monitor {
    let (mut given, mut released) = ([[0; SUBJECTS]; OBJECTS], [[0; SUBJECTS]; OBJECTS]);
    for (bytes, _) in list.iter().zip(alone).filter(|(_, &reply)| is_granted(reply)) {
        match asked(bytes) {
            Asked::Right(it) => given[it.object][it.subject] |= it.mode.bit(),
            Asked::Release(it) => released[it.object][it.subject] |= it.mode.bit(),
            Asked::Nothing => panic!("{bytes:02x?} is malformed and granted"),
        }
    }
    let mut after = before.clone();
    for (slot, object) in after.objects.iter_mut().enumerate() {
        let Some(object) = object else {
            assert_eq!(given[slot], [0; SUBJECTS], "a right on object {slot}, which is not live: {list:02x?}");
            continue;
        };
        for subject in 0..SUBJECTS {
            object.rights[subject] |= given[slot][subject];
            object.held[subject] &= !released[slot][subject];
        }
    }
    after
}

/// That these orders of the list obey the law, and leave and grant what is computed from the state before it.
pub fn check(both: &Both, list: &[Vec<u8>], orders: &[Vec<usize>]) -> Carried {
    let carried = Carried::new(both, list, orders);
    let which = || format!("{list:02x?} in the orders {orders:?}");
    assert!(carried.leave_equal_states(), "different states: {}", which());
    assert!(carried.grant_the_same(), "granted in one order and refused in another: {}", which());
    assert!(carried.treat_copies_alike(list), "one copy is granted and another refused: {}", which());
    assert!(carried.grant_as_alone(), "granted alone and refused in the list, or the other way: {}", which());
    assert!(carried.refuse_as_alone(), "refused with another number than alone: {}", which());
    let expected = expected(&both.monitor, list, &carried.alone);
    let unit = rows::unit(&expected);
    for after in &carried.after {
        assert!(after.both.monitor == expected, "another state than the one expected: {}", which());
        assert!(after.both.unit == unit, "another unit than the one expected: {}", which());
    }
    carried
}

/// That the list changes nothing where it comes again, in an order that was not the first.
pub fn check_again(carried: &Carried, list: &[Vec<u8>], order: &[usize]) {
    let before = &carried.after[0].both;
    let again = after_order(before, list, order);
    let left = again.both.unit.rows() == before.unit.rows();
    assert!(left, "{list:02x?} changes something when it comes again in the order {order:?}");
    assert!(
        !again.replies.contains(&reply::CHANGED),
        "{list:02x?}: a reply of 0 when it comes again in the order {order:?}"
    );
}

/// That the images saved after the orders are equal, and that of the second implementation too.
pub fn check_images(carried: &Carried) {
    let saved = image(&carried.after[0].both.monitor);
    assert!(carried.after.iter().all(|it| it.both.unit.image()[..] == saved[..]), "different images");
}

/// What lists on states meet, if there are enough of them.
pub const RIGHTS_LISTS_MET: [&str; 23] = [
    "lists: gives",
    "lists: releases",
    "lists: gives and releases",
    "lists: a right is given and its access released",
    "give: 0",
    "give: 1",
    "give: 4",
    "give: 6",
    "give: 6, the actor is not the owner",
    "give: 6, the owner has no such right",
    "give of the owner to itself: 1",
    "give of the owner to itself: 6",
    "release: 0",
    "release: 1",
    "release: 4",
    "give: 0 in one order and 1 in another",
    "release: 0 in one order and 1 in another",
    "copies of a give: 0 and 1",
    "copies of a give: 1 and 1",
    "copies of a give: refused",
    "copies of a release: 0 and 1",
    "copies of a release: 1 and 1",
    "copies of a release: refused",
];

impl Met {
    /// What is in a list, what each byte string is replied alone, and where replies differ between orders and between copies.
    pub fn note_rights_list(&mut self, before: &Monitor, list: &[Vec<u8>], carried: &Carried) {
        let asked: Vec<Asked> = list.iter().map(|bytes| asked(bytes)).collect();
        self.note_sort(&asked, &carried.alone);
        for (place, bytes) in list.iter().enumerate() {
            self.note_alone(before, bytes, carried.alone[place]);
            let replied = |number: u8| carried.after.iter().any(|it| it.replies[place] == number);
            if replied(reply::CHANGED) && replied(reply::ALREADY) {
                self.note(format!("{}: 0 in one order and 1 in another", asked[place].word()));
            }
        }
        for (first, copy) in copies(list) {
            let replies = &carried.after[0].replies;
            let what = match (replies[first].min(replies[copy]), replies[first].max(replies[copy])) {
                (reply::CHANGED, reply::ALREADY) => "0 and 1",
                (reply::ALREADY, reply::ALREADY) => "1 and 1",
                (low, _) if !is_granted(low) => "refused",
                two => panic!("{two:?}: {list:02x?}"),
            };
            self.note(format!("copies of a {}: {what}", asked[first].word()));
        }
    }

    fn note_sort(&mut self, asked: &[Asked], alone: &[u8]) {
        let has = |what: &str| asked.iter().any(|it| it.word() == what);
        let sort = match (has("give"), has("release")) {
            (true, false) => "gives",
            (false, true) => "releases",
            (true, true) => "gives and releases",
            (false, false) => "neither gives nor releases",
        };
        let malformed = if has(MALFORMED) { ", malformed ones among them" } else { "" };
        self.note(format!("lists: {sort}{malformed}"));
        let granted = || asked.iter().zip(alone).filter(|(_, &reply)| is_granted(reply)).map(|(it, _)| *it);
        let released = |entry| granted().any(|it| it == Asked::Release(entry));
        if granted().any(|it| matches!(it, Asked::Right(entry) if released(entry))) {
            self.note("lists: a right is given and its access released");
        }
    }

    fn note_alone(&mut self, before: &Monitor, bytes: &[u8], alone: u8) {
        let what = asked(bytes).word();
        self.note(format!("{what}: {alone}"));
        let Some(Request { actor, object, kind: Kind::Give(other, _) }) = Request::decode(bytes) else {
            if what == MALFORMED {
                let length = if bytes.len() == REQUEST_BYTES { "of six bytes" } else { "of another length" };
                self.note(format!("{what} {length}"));
            }
            return;
        };
        let by_owner = before.objects[object].as_ref().is_some_and(|it| it.owner == actor);
        if by_owner && actor == other {
            self.note(format!("give of the owner to itself: {alone}"));
        }
        if alone == reply::NO_RIGHT {
            let why = if by_owner { "the owner has no such right" } else { "the actor is not the owner" };
            self.note(format!("give: 6, {why}"));
        }
    }
}
