//! The journal of a unit byte by byte, from docs/FORMATS.md: a ring of 32 slots behind the rows of the monitor. A slot has three rows,
//! the rights, the accesses held and the rest of the record of an object as they were; then there is a byte for the object of each
//! slot, and a row with the slot that the next entry takes and with the number of entries.

use crate::rows::{is_live, level_in, level_row, parent_in, HELD, REST};
use circmon::{Rows, MONITOR_ROWS, OBJECTS, ROW_BYTES};

const SLOTS: usize = 32;
/// The row with the objects of the first slots.
const SLOT_OBJECTS: usize = MONITOR_ROWS + 3 * SLOTS;
/// The row with the next slot and the number of entries; its other bytes mean nothing.
pub const RING: usize = SLOT_OBJECTS + SLOTS / ROW_BYTES;

/// The slot that the next entry takes: every byte is one.
pub fn next(rows: &Rows) -> usize {
    usize::from(rows[RING][0]) % SLOTS
}

/// How many entries there are: no byte is more than all slots.
pub fn count(rows: &Rows) -> usize {
    usize::from(rows[RING][1]).min(SLOTS)
}

/// The slot of the latest entry.
pub fn latest(rows: &Rows) -> usize {
    (next(rows) + SLOTS - 1) % SLOTS
}

/// The object of a slot: every byte is one.
pub fn object(rows: &Rows, slot: usize) -> usize {
    usize::from(rows[SLOT_OBJECTS + slot / ROW_BYTES][slot % ROW_BYTES]) % OBJECTS
}

/// The three rows of an object in the monitor.
pub fn record(object: usize) -> [usize; 3] {
    [object, HELD + object, REST + object]
}

/// The rows of a slot's record.
fn slot_rows(slot: usize) -> [usize; 3] {
    [0, 1, 2].map(|at| MONITOR_ROWS + 3 * slot + at)
}

fn set_ring(rows: &mut Rows, next: usize, count: usize) {
    rows[RING][..2].copy_from_slice(&[next as u8, count as u8]);
}

/// The rows with the record of the object entered as it stands in them.
pub fn entered(before: &Rows, object: usize) -> Rows {
    let mut rows = *before;
    let slot = next(before);
    for (to, from) in slot_rows(slot).into_iter().zip(record(object)) {
        rows[to] = before[from];
    }
    rows[SLOT_OBJECTS + slot / ROW_BYTES][slot % ROW_BYTES] = object as u8;
    set_ring(&mut rows, (slot + 1) % SLOTS, (count(before) + 1).min(SLOTS));
    rows
}

/// The rows with the latest entry taken back; nothing where there is none.
pub fn taken_back(before: &Rows) -> Option<Rows> {
    let count = count(before).checked_sub(1)?;
    let mut rows = *before;
    let slot = latest(before);
    let [rights, held, rest] = slot_rows(slot).map(|row| before[row]);
    for (to, row) in record(object(before, slot)).into_iter().zip([rights, held, rest_stored(&rest)]) {
        rows[to] = row;
    }
    set_ring(&mut rows, slot, count);
    Some(rows)
}

/// The rows with every byte of the journal 0, as after a delete that took children.
pub fn emptied(before: &Rows) -> Rows {
    let mut rows = *before;
    rows[MONITOR_ROWS..].fill([0; ROW_BYTES]);
    rows
}

/// Whether a delete of the object takes children: a live object has it as its parent. In a unit with any bytes that may be the
/// object itself.
pub fn has_child(rows: &Rows, object: usize) -> bool {
    (0..OBJECTS).any(|slot| is_live(rows, slot) && parent_in(&rows[REST + slot]) == Some(object))
}

/// The rest of a record as it is stored: whether it is live, the owner, the label, the companies, the parent, and zeros.
fn rest_stored(rest: &[u8; ROW_BYTES]) -> [u8; ROW_BYTES] {
    let mut stored = level_row(level_in(rest));
    stored[..2].copy_from_slice(&[u8::from(rest[0] == 1), rest[1]]);
    stored[6..9].copy_from_slice(&rest[6..9]);
    stored
}
