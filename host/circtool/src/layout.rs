//! Where the fields of a table and an image lie, in bits, and what each bit is called.

use crate::companies::CONFLICT_CLASSES;
use crate::mode::Mode;
use circmon::{IMAGE_BYTES, OBJECTS, SUBJECTS, TABLE_BYTES};

/// Fields one behind the other, each with its name and its bits.
type Fields = [(&'static str, usize)];

/// A subject's record, and a label, which has the same form.
const LEVEL: [(&str, usize); 3] = [("present", 1), ("class", 4), ("need", 16)];
/// The rights and the accesses of one subject on an object.
const SETS: [(&str, usize); 2] = [("right", 4), ("access", 4)];
/// A company number.
const COMPANY_BITS: usize = 4;
/// An object's record.
const OBJECT: [(&str, usize); 6] = [
    ("live", 1),
    ("owner", 4),
    ("label", LABEL_BITS),
    ("company", CONFLICT_CLASSES * COMPANY_BITS),
    ("sets", SUBJECTS * width(&SETS)),
    ("parent", 7),
];

pub const LABEL_BITS: usize = width(&LEVEL);
pub const SUBJECT_BITS: usize = LABEL_BITS;
pub const OBJECT_BITS: usize = width(&OBJECT);

/// Where each field stands, from the start of its record: those of a level, of the sets of a subject and of an object.
pub const CLASS: Place = place_of(&LEVEL, 1);
pub const NEEDS: Place = place_of(&LEVEL, 2);
pub const RIGHTS: Place = place_of(&SETS, 0);
pub const HELD: Place = place_of(&SETS, 1);
pub const OWNER: Place = place_of(&OBJECT, 1);
pub const LABEL_AT: usize = place_of(&OBJECT, 2).at;
pub const COMPANIES: Place = place_of(&OBJECT, 3);
const SETS_AT: usize = place_of(&OBJECT, 4).at;
/// The number of the parent plus one, or 0.
pub const PARENT: Place = place_of(&OBJECT, 5);
/// The bytes of an image before objects had parents, and before they had company numbers: such an image is refused by its length.
pub const BYTES_WITHOUT_PARENTS: usize = image_bytes(OBJECT_BITS - PARENT.width);
pub const BYTES_WITHOUT_COMPANIES: usize = image_bytes(OBJECT_BITS - PARENT.width - COMPANIES.width);

// the library and the fields say the same sizes
const _: () = assert!(8 * TABLE_BYTES == SUBJECTS * SUBJECT_BITS);
const _: () = assert!(8 * (IMAGE_BYTES - TABLE_BYTES) == OBJECTS * OBJECT_BITS);

/// Some bits in a row.
#[derive(Clone, Copy)]
pub struct Place {
    pub at: usize,
    pub width: usize,
}

impl Place {
    /// The same bits of a record that begins here.
    pub fn behind(self, start: usize) -> Place {
        Place { at: start + self.at, ..self }
    }
}

/// The bytes of an image whose object records have so many bits.
const fn image_bytes(object_bits: usize) -> usize {
    TABLE_BYTES + OBJECTS * object_bits / 8
}

const fn width(fields: &Fields) -> usize {
    let (mut sum, mut at) = (0, 0);
    while at < fields.len() {
        sum += fields[at].1;
        at += 1;
    }
    sum
}

const fn place_of(fields: &Fields, field: usize) -> Place {
    Place { at: width(fields.split_at(field).0), width: fields[field].1 }
}

/// The name of the field that a bit lies in, and how many of the field's bits stand behind it.
fn field_of(fields: &Fields, bit: usize) -> (&'static str, usize) {
    let mut end = 0;
    let found = fields.iter().find(|(_, width)| {
        end += width;
        bit < end
    });
    found.map_or(("no field", 0), |(name, _)| (name, end - 1 - bit))
}

pub fn subject_at(subject: usize) -> usize {
    SUBJECT_BITS * subject
}

pub fn object_at(object: usize) -> usize {
    8 * TABLE_BYTES + OBJECT_BITS * object
}

/// Where the sets of a subject begin in the record of an object.
pub fn sets_at(subject: usize) -> usize {
    SETS_AT + width(&SETS) * subject
}

/// The record that a bit lies in.
#[derive(Clone, Copy, Debug, PartialEq, Eq)]
pub enum Record {
    Subject(usize),
    Object(usize),
}

pub fn record_of(bit: usize) -> Record {
    match bit.checked_sub(8 * TABLE_BYTES) {
        None => Record::Subject(bit / SUBJECT_BITS),
        Some(behind) => Record::Object(behind / OBJECT_BITS),
    }
}

/// The field that a bit of an image belongs to: `class`, `need 3`, `right w of s2`.
pub fn bit_name(bit: usize) -> String {
    match record_of(bit) {
        Record::Subject(subject) => level_bit(bit - subject_at(subject), "enrolled"),
        Record::Object(object) => object_bit(bit - object_at(object)),
    }
}

/// A bit of a subject's record or of a label; its first one has a name of its own in each.
fn level_bit(bit: usize, first: &str) -> String {
    match field_of(&LEVEL, bit) {
        ("present", _) => first.to_string(),
        // the most significant bit, need 15, comes first
        ("need", behind) => format!("need {behind}"),
        (name, _) => name.to_string(),
    }
}

fn object_bit(bit: usize) -> String {
    match field_of(&OBJECT, bit) {
        ("label", _) => level_bit(bit - LABEL_AT, "label present"),
        // the number of the first class comes first
        (name @ "company", behind) => format!("{name} of conflict class {}", CONFLICT_CLASSES - behind / COMPANY_BITS),
        ("sets", _) => set_bit(bit - SETS_AT),
        (name, _) => name.to_string(),
    }
}

fn set_bit(bit: usize) -> String {
    let (subject, place) = (bit / width(&SETS), bit % width(&SETS));
    let (name, behind) = field_of(&SETS, place);
    format!("{name} {} of s{subject}", Mode::ALL[Mode::ALL.len() - 1 - behind])
}

/// A bit as one finds it in a dump of the bytes: `byte 61, mask 0x10`.
pub fn place(bit: usize) -> String {
    format!("byte {}, mask 0x{:02X}", bit / 8, 0x80u8 >> (bit % 8))
}

#[cfg(test)]
mod tests {
    use super::*;

    #[test]
    fn names_of_bits_at_the_borders_of_records() {
        assert_eq!(bit_name(0), "enrolled");
        assert_eq!(bit_name(5), "need 15");
        assert_eq!(bit_name(20), "need 0");
        assert_eq!(record_of(335), Record::Subject(15));
        assert_eq!(record_of(336), Record::Object(0));
        assert_eq!(bit_name(336), "live");
        assert_eq!(bit_name(340), "owner");
        assert_eq!(bit_name(341), "label present");
        assert_eq!(bit_name(361), "need 0");
        assert_eq!((bit_name(362), bit_name(365)), (class(1), class(1)));
        assert_eq!((bit_name(366), bit_name(377)), (class(2), class(4)));
        assert_eq!(bit_name(378), "right r of s0");
        assert_eq!(bit_name(382), "access r of s0");
        assert_eq!((bit_name(505), bit_name(506), bit_name(512)), named("access e of s15", "parent", "parent"));
        assert_eq!(record_of(513), Record::Object(1));
        assert_eq!(record_of(11_663), Record::Object(63));
        assert_eq!(bit_name(11_656), "access e of s15");
        assert_eq!(bit_name(11_663), "parent");
        assert_eq!(place(11_663), "byte 1457, mask 0x01");
    }

    fn named(one: &str, two: &str, three: &str) -> (String, String, String) {
        (one.to_string(), two.to_string(), three.to_string())
    }

    fn class(number: usize) -> String {
        format!("company of conflict class {number}")
    }

    #[test]
    fn an_image_was_7_bits_shorter_for_each_object_and_before_that_another_16() {
        assert_eq!((IMAGE_BYTES, BYTES_WITHOUT_PARENTS, BYTES_WITHOUT_COMPANIES), (1458, 1402, 1274));
    }
}
