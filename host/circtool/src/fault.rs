//! Where a refused table or image is at fault: every place of the first check that refuses it. The number is the
//! library's; the tests compare it with the one found here.

use crate::bits::bit;
use crate::layout::{bit_name, object_at, place, record_of, subject_at, Record};
use crate::layout::{BYTES_WITHOUT_COMPANIES, BYTES_WITHOUT_PARENTS, LABEL_AT, LABEL_BITS, OBJECT_BITS, SUBJECT_BITS};
use crate::level::{level_words, Level};
use crate::mode::Modes;
use crate::profile::{self, Profile};
use crate::properties::{self, Holding, Pair};
use crate::tree::{self, Unruly, Wrong};
use crate::view::{View, OBJECTS, SUBJECTS};
use crate::wall::{self, Breach};
use crate::words::count;
use circmon::{IMAGE_BYTES, TABLE_BYTES};
use std::fmt;

/// One place that is at fault. What is outside the profile is the clearance or the label in a record.
#[derive(Clone, Debug, PartialEq, Eq)]
pub enum Fault {
    Length { found: usize, expected: usize },
    Stray { absent: Absent, bits: Vec<usize> },
    Outside { record: Record, level: Level, profile: Profile },
    NotEnrolled { subject: usize, object: usize, owns: bool, rights: Modes, held: Modes },
    Discretionary(Holding),
    Label(Holding),
    Simple(Holding),
    Star(Pair),
    Wall(Breach),
    Parent(Wrong),
    ParentLabel(Unruly),
}

/// What is absent and has a bit of its own set.
#[derive(Clone, Copy, Debug, PartialEq, Eq)]
pub enum Absent {
    Subject(usize),
    Object(usize),
    LabelOf(usize),
    SubjectBeyond(usize, Profile),
    ObjectBeyond(usize, Profile),
}

/// Checks 10, 11 and 16 of a table.
pub fn of_table(profile: Profile, bytes: &[u8]) -> Vec<Fault> {
    if bytes.len() != TABLE_BYTES {
        return vec![Fault::Length { found: bytes.len(), expected: TABLE_BYTES }];
    }
    let stray: Vec<Fault> = (0..SUBJECTS).filter_map(|subject| stray_in_subject(profile, bytes, subject)).collect();
    if stray.is_empty() {
        outside(&View::new(bytes).under(profile))
    } else {
        stray
    }
}

/// Checks 10, 11, 16, 12, 6, 7, 8, 9, 18, 19, 20 of an image, each over the whole image before the next.
pub fn of_image(profile: Profile, bytes: &[u8]) -> Vec<Fault> {
    if bytes.len() != IMAGE_BYTES {
        return vec![Fault::Length { found: bytes.len(), expected: IMAGE_BYTES }];
    }
    let view = View::new(bytes).under(profile);
    let checks: [&dyn Fn() -> Vec<Fault>; 10] = [
        &|| stray(profile, bytes),
        &|| outside(&view),
        &|| not_enrolled(&view),
        &|| properties::discretionary(&view).into_iter().map(Fault::Discretionary).collect(),
        &|| properties::label(&view).into_iter().map(Fault::Label).collect(),
        &|| properties::simple(&view).into_iter().map(Fault::Simple).collect(),
        &|| properties::star(&view).into_iter().map(Fault::Star).collect(),
        &|| wall::breaches(&view).into_iter().map(Fault::Wall).collect(),
        &|| tree::wrong_parents(&view).into_iter().map(Fault::Parent).collect(),
        &|| tree::unruly(&view).into_iter().map(Fault::ParentLabel).collect(),
    ];
    checks.iter().map(|check| check()).find(|faults| !faults.is_empty()).unwrap_or_default()
}

fn stray(profile: Profile, bytes: &[u8]) -> Vec<Fault> {
    let subjects = (0..SUBJECTS).filter_map(|subject| stray_in_subject(profile, bytes, subject));
    let objects = (0..OBJECTS).filter_map(|object| stray_in_object(profile, bytes, object));
    subjects.chain(objects).collect()
}

/// The bits set in a record, where there are any.
fn bits_set(bytes: &[u8], at: usize, width: usize) -> Option<Vec<usize>> {
    let bits: Vec<usize> = (at..at + width).filter(|&place| bit(bytes, place)).collect();
    (!bits.is_empty()).then_some(bits)
}

/// The bits set in a record whose first bit is 0, where there are any.
fn stray_bits(bytes: &[u8], at: usize, width: usize) -> Option<Vec<usize>> {
    bits_set(bytes, at, width).filter(|bits| bits[0] != at)
}

fn stray_in_subject(profile: Profile, bytes: &[u8], subject: usize) -> Option<Fault> {
    let at = subject_at(subject);
    let (absent, bits) = if profile::has_subject(profile, subject) {
        (Absent::Subject(subject), stray_bits(bytes, at, SUBJECT_BITS)?)
    } else {
        (Absent::SubjectBeyond(subject, profile), bits_set(bytes, at, SUBJECT_BITS)?)
    };
    Some(Fault::Stray { absent, bits })
}

fn stray_in_object(profile: Profile, bytes: &[u8], object: usize) -> Option<Fault> {
    let at = object_at(object);
    let (absent, bits) = if !profile::has_object(profile, object) {
        (Absent::ObjectBeyond(object, profile), bits_set(bytes, at, OBJECT_BITS)?)
    } else if bit(bytes, at) {
        (Absent::LabelOf(object), stray_bits(bytes, at + LABEL_AT, LABEL_BITS)?)
    } else {
        (Absent::Object(object), stray_bits(bytes, at, OBJECT_BITS)?)
    };
    Some(Fault::Stray { absent, bits })
}

/// The clearances and the labels outside the profile.
fn outside(view: &View) -> Vec<Fault> {
    let profile = view.profile;
    let clearances = view.enrolled().map(|(subject, level)| (Record::Subject(subject), level));
    let labels = view.live().filter_map(|(object, it)| Some((Record::Object(object), it.label?)));
    let outside = clearances.chain(labels).filter(|(_, level)| !profile::has_level(profile, *level));
    outside.map(|(record, level)| Fault::Outside { record, level, profile }).collect()
}

fn not_enrolled(view: &View) -> Vec<Fault> {
    let mut faults = Vec::new();
    for (object, it) in view.live() {
        for subject in (0..SUBJECTS).filter(|&subject| view.subjects[subject].is_none()) {
            let (owns, rights, held) = (it.owner == subject, it.rights[subject], it.held[subject]);
            if owns || !rights.is_empty() || !held.is_empty() {
                faults.push(Fault::NotEnrolled { subject, object, owns, rights, held });
            }
        }
    }
    faults
}

impl Fault {
    pub fn number(&self) -> u8 {
        match self {
            Fault::Length { .. } => 10,
            Fault::Stray { .. } => 11,
            Fault::Outside { .. } => 16,
            Fault::NotEnrolled { .. } => 12,
            Fault::Discretionary(_) => 6,
            Fault::Label(_) => 7,
            Fault::Simple(_) => 8,
            Fault::Star(_) => 9,
            Fault::Wall(_) => 18,
            Fault::Parent(_) => 19,
            Fault::ParentLabel(_) => 20,
        }
    }

    /// The records that the fault lies in.
    pub fn records(&self) -> Vec<Record> {
        let of = |it: &Holding| vec![Record::Subject(it.subject), Record::Object(it.object)];
        match self {
            Fault::Length { .. } => Vec::new(),
            Fault::Stray { bits, .. } => vec![record_of(bits[0])],
            Fault::Outside { record, .. } => vec![*record],
            Fault::NotEnrolled { subject, object, .. } => vec![Record::Subject(*subject), Record::Object(*object)],
            Fault::Discretionary(it) | Fault::Label(it) | Fault::Simple(it) => of(it),
            Fault::Star(pair) => [of(&pair.read), of(&pair.written)].concat(),
            Fault::Wall(breach) => [of(&breach.from), of(&breach.to)].concat(),
            Fault::Parent(wrong) => wrong.objects().into_iter().map(Record::Object).collect(),
            Fault::ParentLabel(it) => vec![Record::Object(it.child), Record::Object(it.parent)],
        }
    }
}

impl fmt::Display for Fault {
    fn fmt(&self, out: &mut fmt::Formatter) -> fmt::Result {
        match self {
            Fault::Length { found, expected } => write!(out, "{}", length_words(*found, *expected)),
            Fault::Stray { absent, bits } => write!(out, "{absent}, and {}", stray_words(bits)),
            Fault::Outside { record, level, profile } => {
                let whose = match record {
                    Record::Subject(subject) => format!("the clearance of s{subject}"),
                    Record::Object(object) => format!("the label of o{object}"),
                };
                write!(out, "{whose} ({}) {}", level_words(*level), profile::outside(*profile, *level))
            }
            Fault::NotEnrolled { subject, object, owns, rights, held } => {
                let has = [
                    owns.then(|| "is the owner".to_string()),
                    (!rights.is_empty()).then(|| format!("has rights {rights}")),
                    (!held.is_empty()).then(|| format!("holds {held}")),
                ];
                let has = has.into_iter().flatten().collect::<Vec<_>>().join(" and ");
                write!(out, "s{subject} is not enrolled, and on o{object} it {has}")
            }
            Fault::Discretionary(it) => {
                let (extra, rights) = (it.held.outside(it.rights), it.rights);
                write!(out, "s{} holds {extra} on o{} without the right; its rights: {rights}", it.subject, it.object)
            }
            Fault::Label(it) => {
                write!(out, "s{} holds {} on o{}, which has no label", it.subject, it.held, it.object)
            }
            Fault::Simple(it) => {
                write!(out, "s{} holds {} on o{}; {}", it.subject, it.held, it.object, it.simple_words())
            }
            Fault::Star(pair) => write!(out, "{}", pair.words("holds")),
            Fault::Wall(breach) => write!(out, "{}", breach.words("holds")),
            Fault::Parent(wrong) => write!(out, "{}", wrong.words()),
            Fault::ParentLabel(it) => write!(out, "{}", it.words(None)),
        }
    }
}

/// Of the size of an image that was written before, that too.
fn length_words(found: usize, expected: usize) -> String {
    let former = former_image(found).filter(|_| expected == IMAGE_BYTES);
    let words = former.map_or(String::new(), |from| format!(": the size of images {from}"));
    format!("{}, not {expected}{words}", count(found, "byte", "bytes"))
}

/// What images of this size are called, which were written before; nothing of another size.
pub fn former_image(bytes: usize) -> Option<&'static str> {
    match bytes {
        BYTES_WITHOUT_PARENTS => Some("from before objects had parents"),
        BYTES_WITHOUT_COMPANIES => Some("from before objects had companies and parents"),
        _ => None,
    }
}

impl fmt::Display for Absent {
    fn fmt(&self, out: &mut fmt::Formatter) -> fmt::Result {
        match self {
            Absent::Subject(subject) => write!(out, "subject record {subject} is absent"),
            Absent::Object(object) => write!(out, "object record {object} is not live"),
            Absent::LabelOf(object) => write!(out, "object record {object} has no label"),
            Absent::SubjectBeyond(subject, it) => {
                write!(out, "subject record {subject} {}", profile::beyond_subjects(*it))
            }
            Absent::ObjectBeyond(object, it) => write!(out, "object record {object} {}", profile::beyond_objects(*it)),
        }
    }
}

/// The first bit with its place and field, and how many more.
fn stray_words(bits: &[usize]) -> String {
    let first = format!("the bit at {} ({}) is set", place(bits[0]), bit_name(bits[0]));
    match bits.len() - 1 {
        0 => first,
        more => format!("{first}, and {more} more of its bits"),
    }
}
