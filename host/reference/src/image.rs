//! Tables and images.

use crate::bits::{BitReader, BitWriter};
use crate::level::Level;
use crate::monitor::Monitor;
use crate::profile::Profile;
use crate::record::{Object, OBJECTS, SUBJECTS};
use crate::wall::CONFLICT_CLASSES;
use crate::{reply, star, tree, wall};

const CLASS_BITS: usize = 4;
const NEEDS_BITS: usize = 16;
/// present or enrolled, class, needs
const LABEL_BITS: usize = 1 + CLASS_BITS + NEEDS_BITS;
const OWNER_BITS: usize = 4;
const COMPANY_BITS: usize = 4;
const SET_BITS: usize = 4;
/// the parent's number plus one, or 0
const PARENT_BITS: usize = 7;
/// live, owner, label, the company of each conflict class, then rights and accesses of each subject, and the parent
const OBJECT_BITS: usize =
    1 + OWNER_BITS + LABEL_BITS + CONFLICT_CLASSES * COMPANY_BITS + SUBJECTS * 2 * SET_BITS + PARENT_BITS;

pub const TABLE_BYTES: usize = SUBJECTS * LABEL_BITS / 8;
pub const IMAGE_BYTES: usize = TABLE_BYTES + OBJECTS * OBJECT_BITS / 8;

impl Monitor {
    /// A monitor begun from a table under the widest profile.
    pub fn from_table(table: &[u8]) -> Result<Monitor, u8> {
        Monitor::from_table_in(Profile::WIDEST, table)
    }

    /// A monitor begun from a table: check 16 of the profile, then 10, 11, and 16 of the clearances.
    pub fn from_table_in(profile: Profile, table: &[u8]) -> Result<Monitor, u8> {
        if !profile.is_in_range() {
            return Err(reply::PROFILE);
        }
        if table.len() != TABLE_BYTES {
            return Err(reply::LENGTH);
        }
        let mut bits = BitReader::new(table);
        let mut form = true;
        let monitor = Monitor::begin_in(profile, read_subjects(&mut bits, profile, &mut form));
        if !form {
            return Err(reply::STRAY_BITS);
        }
        if monitor.has_level_outside() {
            return Err(reply::PROFILE);
        }
        Ok(monitor)
    }

    /// A monitor begun from an image under the widest profile.
    pub fn from_image(image: &[u8]) -> Result<Monitor, u8> {
        Monitor::from_image_in(Profile::WIDEST, image)
    }

    /// A monitor begun from an image: check 16 of the profile, then 10, 11, 16 of clearances and labels, 12, 6, 7, 8, 9, 18,
    /// 19, 20, each over the whole image before the next.
    pub fn from_image_in(profile: Profile, image: &[u8]) -> Result<Monitor, u8> {
        if !profile.is_in_range() {
            return Err(reply::PROFILE);
        }
        if image.len() != IMAGE_BYTES {
            return Err(reply::LENGTH);
        }
        let mut bits = BitReader::new(image);
        let mut form = true;
        let mut monitor = Monitor::begin_in(profile, read_subjects(&mut bits, profile, &mut form));
        for (slot, object) in monitor.objects.iter_mut().enumerate() {
            *object = read_object(&mut bits, &mut form);
            form &= object.is_none() || profile.has_object(slot);
        }
        if !form {
            return Err(reply::STRAY_BITS);
        }
        if monitor.has_level_outside() {
            return Err(reply::PROFILE);
        }
        match monitor.fault() {
            None => Ok(monitor),
            Some(number) => Err(number),
        }
    }

    /// Whether a clearance or a label is outside the profile.
    fn has_level_outside(&self) -> bool {
        let labels = self.objects.iter().flatten().filter_map(|object| object.label.as_ref());
        self.subjects.iter().flatten().chain(labels).any(|level| !self.profile.has_level(level))
    }

    /// The first of checks 12, 6, 7, 8, 9, 18, 19, 20 that the state fails.
    pub fn fault(&self) -> Option<u8> {
        let any = |bad: &dyn Fn(&Object, usize) -> bool| {
            self.objects.iter().flatten().any(|object| (0..SUBJECTS).any(|s| bad(object, s)))
        };
        let absent = |s: usize| self.subjects[s].is_none();
        if any(&|o, s| absent(s) && (o.owner == s || o.rights[s] != 0 || o.held[s] != 0)) {
            return Some(reply::ABSENT_SUBJECT);
        }
        if any(&|o, s| o.held[s] & !o.rights[s] != 0) {
            return Some(reply::NO_RIGHT);
        }
        if any(&|o, s| (o.reads(s) || o.writes(s)) && o.label.is_none()) {
            return Some(reply::NO_LABEL);
        }
        let cleared = |o: &Object, s: usize| match (&self.subjects[s], &o.label) {
            (Some(clearance), Some(label)) => clearance.dominates(label),
            _ => false,
        };
        if any(&|o, s| o.reads(s) && !cleared(o, s)) {
            return Some(reply::SIMPLE);
        }
        if !(0..SUBJECTS).all(|s| star::kept(self.star, &self.objects, s)) {
            return Some(reply::STAR);
        }
        if !(0..SUBJECTS).all(|s| wall::kept(self.star, &self.objects, s)) {
            return Some(reply::WALL);
        }
        self.fault_of_parents()
    }

    fn fault_of_parents(&self) -> Option<u8> {
        if !tree::parents_kept(&self.objects) {
            return Some(reply::PARENT);
        }
        (!tree::labels_kept(&self.objects)).then_some(reply::PARENT_LABEL)
    }

    /// Writes the image into the first bytes of the buffer; 13 and every byte left where it is too short.
    pub fn write_image(&self, buffer: &mut [u8]) -> u8 {
        if buffer.len() < IMAGE_BYTES {
            return reply::SHORT_BUFFER;
        }
        let mut bits = BitWriter::new(&mut buffer[..IMAGE_BYTES]);
        for clearance in &self.subjects {
            write_label(&mut bits, clearance);
        }
        for object in &self.objects {
            write_object(&mut bits, object);
        }
        reply::CHANGED
    }

    /// The bytes of the table with these subjects.
    pub fn table(&self) -> [u8; TABLE_BYTES] {
        let mut table = [0; TABLE_BYTES];
        let mut bits = BitWriter::new(&mut table);
        for clearance in &self.subjects {
            write_label(&mut bits, clearance);
        }
        table
    }
}

/// "a record beyond the profile is absent, and a bit in it gets 11": that it says it is enrolled is such a bit too.
fn read_subjects(bits: &mut BitReader, profile: Profile, form: &mut bool) -> [Option<Level>; SUBJECTS] {
    let mut subjects = [None; SUBJECTS];
    for (number, subject) in subjects.iter_mut().enumerate() {
        *subject = read_label(bits, form);
        *form &= subject.is_none() || profile.has_subject(number);
    }
    subjects
}

/// What is absent has all its other bits 0.
fn read_label(bits: &mut BitReader, form: &mut bool) -> Option<Level> {
    let present = bits.bit();
    let class = bits.number(CLASS_BITS) as u8;
    let needs = bits.number(NEEDS_BITS) as u16;
    if present {
        return Some(Level { class, needs });
    }
    *form &= class == 0 && needs == 0;
    None
}

fn read_object(bits: &mut BitReader, form: &mut bool) -> Option<Object> {
    if !bits.bit() {
        for _ in 1..OBJECT_BITS {
            *form &= !bits.bit();
        }
        return None;
    }
    let mut object = Object::new(bits.number(OWNER_BITS) as usize);
    object.label = read_label(bits, form);
    for company in &mut object.companies {
        *company = bits.number(COMPANY_BITS) as u8;
    }
    for s in 0..SUBJECTS {
        object.rights[s] = bits.number(SET_BITS) as u8;
        object.held[s] = bits.number(SET_BITS) as u8;
    }
    object.parent = (bits.number(PARENT_BITS) as usize).checked_sub(1);
    Some(object)
}

fn write_label(bits: &mut BitWriter, label: &Option<Level>) {
    match label {
        None => bits.number(0, LABEL_BITS),
        Some(level) => {
            bits.bit(true);
            bits.number(level.class.into(), CLASS_BITS);
            bits.number(level.needs.into(), NEEDS_BITS);
        }
    }
}

fn write_object(bits: &mut BitWriter, object: &Option<Object>) {
    let Some(object) = object else {
        for _ in 0..OBJECT_BITS {
            bits.bit(false);
        }
        return;
    };
    bits.bit(true);
    bits.number(object.owner as u32, OWNER_BITS);
    write_label(bits, &object.label);
    for company in object.companies {
        bits.number(company.into(), COMPANY_BITS);
    }
    for s in 0..SUBJECTS {
        bits.number(object.rights[s].into(), SET_BITS);
        bits.number(object.held[s].into(), SET_BITS);
    }
    bits.number(object.parent.map_or(0, |parent| parent as u32 + 1), PARENT_BITS);
}
