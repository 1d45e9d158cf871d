//! A state as people see it: the fields of a table or an image, read without any check, so that a refused image can be
//! looked at too. What the monitor decides about it is asked of the library.

use crate::bits::{bit, field, put};
use crate::companies::Companies;
use crate::layout::{object_at, sets_at, subject_at, Place};
use crate::layout::{CLASS, COMPANIES, HELD, LABEL_AT, NEEDS, OWNER, PARENT, RIGHTS};
use crate::level::Level;
use crate::mode::Modes;
use crate::profile::Profile;
use circmon::{Unit, TABLE_BYTES};

pub use circmon::{OBJECTS, SUBJECTS};

#[derive(Clone, Debug, PartialEq, Eq)]
pub struct Object {
    pub owner: usize,
    pub label: Option<Level>,
    pub companies: Companies,
    pub rights: [Modes; SUBJECTS],
    pub held: [Modes; SUBJECTS],
    /// the object that contains it; the bits of a refused image may name one above 63, which is none
    pub parent: Option<usize>,
}

impl Object {
    /// Without label, company, right, access or parent.
    pub fn new(owner: usize) -> Object {
        let none = [Modes::default(); SUBJECTS];
        Object { owner, label: None, companies: Companies::default(), rights: none, held: none, parent: None }
    }
}

#[derive(Clone, Debug, PartialEq, Eq)]
pub struct View {
    /// the clearance of each subject, where it is enrolled
    pub subjects: [Option<Level>; SUBJECTS],
    /// each object, where it is live
    pub objects: [Option<Object>; OBJECTS],
    /// what of these is in use; bytes do not say it
    pub profile: Profile,
}

impl View {
    /// The fields of an image, under the widest profile. Bytes that are not there count as 0: a table alone reads as a state with
    /// no live object.
    pub fn new(bytes: &[u8]) -> View {
        View {
            subjects: std::array::from_fn(|subject| level_at(bytes, subject_at(subject))),
            objects: std::array::from_fn(|object| object_in(bytes, object_at(object))),
            profile: Profile::WIDEST,
        }
    }

    /// The same fields under a profile.
    pub fn under(self, profile: Profile) -> View {
        View { profile, ..self }
    }

    /// The state of a unit that was begun, which has its profile in it.
    pub fn of(unit: &Unit) -> View {
        View::new(&unit.image()).under(unit.profile().expect("a unit that was begun"))
    }

    /// The table with these subjects.
    pub fn table(subjects: &[Option<Level>; SUBJECTS]) -> [u8; TABLE_BYTES] {
        let mut table = [0; TABLE_BYTES];
        for (subject, clearance) in subjects.iter().enumerate() {
            let Some(level) = clearance else { continue };
            let at = subject_at(subject);
            let fields = [(Place { at: 0, width: 1 }, 1), (CLASS, level.class.into()), (NEEDS, level.needs.into())];
            for (place, number) in fields.map(|(place, number)| (place.behind(at), number)) {
                put(&mut table, place.at, place.width, number);
            }
        }
        table
    }

    /// The live objects with their numbers.
    pub fn live(&self) -> impl Iterator<Item = (usize, &Object)> {
        self.objects.iter().enumerate().filter_map(|(number, object)| Some((number, object.as_ref()?)))
    }

    /// The object with this number, where it is live; none has a number above 63.
    pub fn object(&self, number: usize) -> Option<&Object> {
        self.objects.get(number)?.as_ref()
    }

    /// The enrolled subjects with their clearances.
    pub fn enrolled(&self) -> impl Iterator<Item = (usize, Level)> + '_ {
        self.subjects.iter().enumerate().filter_map(|(number, clearance)| Some((number, (*clearance)?)))
    }
}

/// The number in a field of the record that begins here.
fn number(bytes: &[u8], start: usize, place: Place) -> u32 {
    let place = place.behind(start);
    field(bytes, place.at, place.width)
}

fn level_at(bytes: &[u8], at: usize) -> Option<Level> {
    bit(bytes, at).then(|| Level { class: number(bytes, at, CLASS) as u8, needs: number(bytes, at, NEEDS) as u16 })
}

fn object_in(bytes: &[u8], at: usize) -> Option<Object> {
    let modes = |subject, place| Modes(number(bytes, at + sets_at(subject), place) as u8);
    bit(bytes, at).then(|| Object {
        owner: number(bytes, at, OWNER) as usize,
        label: level_at(bytes, at + LABEL_AT),
        companies: Companies::from_bits(number(bytes, at, COMPANIES) as u16),
        rights: std::array::from_fn(|subject| modes(subject, RIGHTS)),
        held: std::array::from_fn(|subject| modes(subject, HELD)),
        parent: (number(bytes, at, PARENT) as usize).checked_sub(1),
    })
}
