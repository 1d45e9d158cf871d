//! What the rows of a unit say, from docs/FORMATS.md: byte 0 of the rest of an object's record is 1 where it is live, byte 1 is
//! its owner, byte 2 is 1 where a level stands in bytes 3 to 5, bytes 6 and 7 have the companies of the four conflict classes, and
//! byte 8 is the number of its parent plus one, or 0.
//! The last row of the monitor has the numbers of subjects and objects of
//! the profile in the first two bytes, and its highest class and needs as a level. The journal is behind it (`journal_rows`).

use circmon::{Rows, Unit, OBJECTS, ROWS, ROW_BYTES, SUBJECTS};
use reference::{Companies, Level, Monitor, Object, Profile};

/// The first row of the accesses held, of the rest of each object's record and of the clearances, and that of the profile; that of
/// the rights is row 0.
pub const HELD: usize = OBJECTS;
pub const REST: usize = 2 * OBJECTS;
pub const CLEARANCES: usize = 3 * OBJECTS;
pub const PROFILE: usize = 3 * OBJECTS + SUBJECTS;

pub fn level_in(row: &[u8; 16]) -> Option<Level> {
    (row[2] == 1).then(|| Level { class: row[3], needs: u16::from_be_bytes([row[4], row[5]]) })
}

/// Two numbers in each byte, the first class highest.
pub fn companies_in(row: &[u8; 16]) -> Companies {
    [row[6] / 16, row[6] % 16, row[7] / 16, row[7] % 16]
}

/// Any number, also one above those of the objects.
pub fn parent_in(row: &[u8; 16]) -> Option<usize> {
    usize::from(row[8]).checked_sub(1)
}

pub fn is_live(rows: &Rows, object: usize) -> bool {
    rows[REST + object][0] == 1
}

pub fn label_of(rows: &Rows, object: usize) -> Option<Level> {
    level_in(&rows[REST + object])
}

/// Any numbers; byte 2 and those behind the needs are not looked at.
pub fn profile_in(rows: &Rows) -> Profile {
    let [subjects, objects, _, highest_class, high, low, ..] = rows[PROFILE];
    Profile { subjects, objects, highest_class, needs: u16::from_be_bytes([high, low]) }
}

/// The state that the rows say, where what is not live has nothing.
pub fn monitor_said(rows: &Rows) -> Monitor {
    let subjects = std::array::from_fn(|subject| level_in(&rows[CLEARANCES + subject]));
    let mut monitor = Monitor::begin_in(profile_in(rows), subjects);
    for (object, place) in monitor.objects.iter_mut().enumerate() {
        let rest = &rows[REST + object];
        let said = Object {
            label: level_in(rest),
            companies: companies_in(rest),
            rights: rows[object],
            held: rows[HELD + object],
            parent: parent_in(rest),
            ..Object::new(rest[1].into())
        };
        *place = (rest[0] == 1).then_some(said);
    }
    monitor
}

/// A unit in this state, to compare another one with: the journal does not count.
pub fn unit(monitor: &Monitor) -> Unit {
    Unit::from_rows(of(monitor))
}

/// The rows of a unit that was begun in this state: what has no meaning is 0, and so is the journal.
pub fn of(monitor: &Monitor) -> Rows {
    let mut rows = [[0; ROW_BYTES]; ROWS];
    for (slot, object) in monitor.objects.iter().enumerate() {
        if let Some(object) = object {
            (rows[slot], rows[HELD + slot]) = (object.rights, object.held);
            rows[REST + slot] = level_row(object.label);
            rows[REST + slot][..2].copy_from_slice(&[1, object.owner as u8]);
            let [first, second, third, fourth] = object.companies;
            let parent = object.parent.map_or(0, |parent| parent as u8 + 1);
            rows[REST + slot][6..9].copy_from_slice(&[16 * first + second, 16 * third + fourth, parent]);
        }
    }
    for (subject, clearance) in monitor.subjects.iter().enumerate() {
        rows[CLEARANCES + subject] = level_row(*clearance);
    }
    let Profile { subjects, objects, highest_class, needs } = monitor.profile;
    rows[PROFILE] = level_row(Some(Level { class: highest_class, needs }));
    rows[PROFILE][..2].copy_from_slice(&[subjects, objects]);
    rows
}

pub fn level_row(level: Option<Level>) -> [u8; ROW_BYTES] {
    let mut row = [0; ROW_BYTES];
    if let Some(Level { class, needs }) = level {
        let [high, low] = needs.to_be_bytes();
        row[2..6].copy_from_slice(&[1, class, high, low]);
    }
    row
}
