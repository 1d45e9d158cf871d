//! The Chinese Wall of one subject: competing companies are kept apart. In two ways that answer alike.

use crate::record::{Object, OBJECTS};
use crate::star::Star;

pub const CONFLICT_CLASSES: usize = 4;

/// "four 4-bit company numbers, one for each conflict class, 0 for none"
pub type Companies = [u8; CONFLICT_CLASSES];

/// The four in the field of the needs, "first class highest".
pub fn from_needs(needs: u16) -> Companies {
    [needs >> 12, needs >> 8, needs >> 4, needs].map(|number| (number & 15) as u8)
}

pub fn to_needs(companies: Companies) -> u16 {
    companies.iter().fold(0, |needs, &company| needs << 4 | u16::from(company))
}

/// "each class has a 0 or equal numbers"
fn compatible(p: &Companies, q: &Companies) -> bool {
    (0..CONFLICT_CLASSES).all(|class| p[class] == 0 || q[class] == 0 || p[class] == q[class])
}

/// "each nonzero number of P equals that of Q"
fn flows(p: &Companies, q: &Companies) -> bool {
    (0..CONFLICT_CLASSES).all(|class| p[class] == 0 || p[class] == q[class])
}

/// The two rules of the wall, of what one subject holds.
pub fn kept(way: Star, objects: &[Option<Object>; OBJECTS], subject: usize) -> bool {
    match way {
        Star::Plain | Star::Tabled => kept_plain(objects, subject),
        Star::Listed => kept_by_class(objects, subject),
    }
}

/// Every two objects, as the text says it: "For any two accesses held by one subject, each class has a 0 or equal numbers. Where it
/// holds r or w on P and a or w on Q, each nonzero number of P equals that of Q."
fn kept_plain(objects: &[Option<Object>; OBJECTS], subject: usize) -> bool {
    for p in objects.iter().flatten().filter(|it| it.holds(subject)) {
        for q in objects.iter().flatten().filter(|it| it.holds(subject)) {
            if !compatible(&p.companies, &q.companies) {
                return false;
            }
            if p.reads(subject) && q.writes(subject) && !flows(&p.companies, &q.companies) {
                return false;
            }
        }
    }
    true
}

/// One company for each class: the only one that what is held may have there. Where something that is read has it, all that is
/// written has it.
fn kept_by_class(objects: &[Option<Object>; OBJECTS], subject: usize) -> bool {
    let mut met = [0; CONFLICT_CLASSES];
    let mut read = [false; CONFLICT_CLASSES];
    let mut without = [false; CONFLICT_CLASSES];
    for it in objects.iter().flatten().filter(|it| it.holds(subject)) {
        let (reads, writes) = (it.reads(subject), it.writes(subject));
        for class in 0..CONFLICT_CLASSES {
            let company = it.companies[class];
            if company == 0 {
                without[class] |= writes;
                continue;
            }
            if met[class] != 0 && met[class] != company {
                return false;
            }
            met[class] = company;
            read[class] |= reads;
        }
    }
    (0..CONFLICT_CLASSES).all(|class| !(read[class] && without[class]))
}
