//! The star property of one subject, in three ways that answer alike.

use crate::mode::Mode;
use crate::record::{Object, OBJECTS};
use Asked::{Both, Held, Neither, Wanted};

/// How the checks of star and wall go over the objects. The wall has no table, so the third way is the first one there.
#[derive(Clone, Copy, Debug, PartialEq, Eq)]
pub enum Star {
    /// every pair of objects, as the text says it
    Plain,
    /// the read and the written objects are listed first, then the pairs of the two lists are tried
    Listed,
    /// every two accesses, each on its object, decided by the table of their two modes
    Tabled,
}

/// Which label must dominate the other, where one mode is held on an object and one wanted on another.
#[derive(Clone, Copy, Debug, PartialEq, Eq)]
pub enum Asked {
    Neither,
    /// the label of the object on which the mode is wanted
    Wanted,
    /// the label of the object on which the mode is held
    Held,
    /// each the other, so they are equal
    Both,
}

/// A row for each mode held and a column for each mode wanted, both in the order r, w, a, e.
#[rustfmt::skip]
const TABLE: [[Asked; 4]; 4] = [
    // r held, which reads: what is written or appended to must dominate it
    [Neither, Wanted,  Wanted,  Neither],
    // w held, which reads and writes: it must dominate what is read, and what is written or appended to must dominate it
    [Held,    Both,    Wanted,  Neither],
    // a held, which appends and does not read: it must dominate what is read or written
    [Held,    Held,    Neither, Neither],
    // e held, of which the star property says nothing
    [Neither, Neither, Neither, Neither],
];

/// The entry of the table.
pub fn entry(held: Mode, wanted: Mode) -> Asked {
    TABLE[held as usize][wanted as usize]
}

/// Where the subject reads P and writes Q, the label of Q dominates that of P.
pub fn kept(star: Star, objects: &[Option<Object>; OBJECTS], subject: usize) -> bool {
    match star {
        Star::Plain => kept_plain(objects, subject),
        Star::Listed => kept_listed(objects, subject),
        Star::Tabled => kept_tabled(objects, subject),
    }
}

fn dominates(above: &Object, below: &Object) -> bool {
    match (&above.label, &below.label) {
        (Some(a), Some(b)) => a.dominates(b),
        _ => false,
    }
}

fn kept_plain(objects: &[Option<Object>; OBJECTS], subject: usize) -> bool {
    for p in objects.iter().flatten() {
        if !p.reads(subject) {
            continue;
        }
        for q in objects.iter().flatten() {
            if q.writes(subject) && !dominates(q, p) {
                return false;
            }
        }
    }
    true
}

fn kept_listed(objects: &[Option<Object>; OBJECTS], subject: usize) -> bool {
    let mut read = [0usize; OBJECTS];
    let mut written = [0usize; OBJECTS];
    let (mut reads, mut writes) = (0, 0);
    for (i, object) in objects.iter().enumerate() {
        if let Some(object) = object {
            read[reads] = i;
            reads += usize::from(object.reads(subject));
            written[writes] = i;
            writes += usize::from(object.writes(subject));
        }
    }
    for &p in &read[..reads] {
        for &q in &written[..writes] {
            if let (Some(p), Some(q)) = (&objects[p], &objects[q]) {
                if !dominates(q, p) {
                    return false;
                }
            }
        }
    }
    true
}

/// Each two accesses are looked at once, the one on the earlier object or in the earlier mode as the one that is held: looked
/// at both ways round, an entry that asks too little would not be noticed, since another one asks the same of the two. An
/// access stands beside itself too, as P and Q may be one object.
fn kept_tabled(objects: &[Option<Object>; OBJECTS], subject: usize) -> bool {
    let mut accesses: Vec<(Mode, &Object)> = Vec::new();
    for object in objects.iter().flatten() {
        for mode in Mode::ALL {
            if object.held[subject] & mode.bit() != 0 {
                accesses.push((mode, object));
            }
        }
    }
    for (at, (held, p)) in accesses.iter().enumerate() {
        for (wanted, q) in &accesses[at..] {
            let as_asked = match entry(*held, *wanted) {
                Neither => true,
                Wanted => dominates(q, p),
                Held => dominates(p, q),
                Both => dominates(q, p) && dominates(p, q),
            };
            if !as_asked {
                return false;
            }
        }
    }
    true
}
