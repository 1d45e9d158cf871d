//! Every byte of a unit when it is asked and takes back: of units that were begun, and of units with any bytes in them. What the rows
//! of the journal become is computed from their layout (`sidebyside::journal_rows`).

use circmon::{Rows, Unit, MONITOR_ROWS, OBJECTS};
use load::Random;
use reference::{Journaled, Kind, Monitor, Request};
use sidebyside::history::EMPTY;
use sidebyside::journal_rows::{count, emptied, entered, has_child, latest, object, record, taken_back, RING};
use sidebyside::orders::Met;
use sidebyside::rows::{self, is_live, monitor_said, REST};
use sidebyside::{random_rows, rows_with_subjects, shape};

/// Takes back, and every byte is as the layout says.
fn check_taken_back(unit: &mut Unit, what: &str) -> u8 {
    let before = *unit.rows();
    let number = unit.take_back();
    let expected = taken_back(&before);
    assert_eq!(number, if expected.is_some() { 0 } else { EMPTY }, "{what}");
    assert!(*unit.rows() == expected.unwrap_or(before), "{what}: {number}, and a byte is not as it should be");
    number
}

/// The objects that are live before and not after.
fn gone(before: &Rows, after: &Rows) -> Vec<usize> {
    (0..OBJECTS).filter(|&object| is_live(before, object) && !is_live(after, object)).collect()
}

/// Asks, and every byte of the journal is as the layout says; of the monitor only the record of the object may change, and those
/// that a delete took with it.
fn check_asked(unit: &mut Unit, request: &[u8], what: &str, met: &mut Met) -> u8 {
    let before = *unit.rows();
    let reply = unit.ask(request);
    let what = format!("{what}: {request:02x?} gets {reply}");
    if reply > 0 {
        assert!(unit.rows()[MONITOR_ROWS..] == before[MONITOR_ROWS..], "{what}, and the journal is changed");
        assert!(reply == 1 || *unit.rows() == before, "{what}, and a byte is changed");
        return reply;
    }
    let Request { object, kind, .. } = Request::decode(request).expect("a request that is granted");
    let (gone, took) = (gone(&before, unit.rows()), kind == Kind::Delete && has_child(&before, object));
    let mut expected = if took { emptied(&before) } else { entered(&before, object) };
    for row in gone.iter().chain([&object]).flat_map(|&object| record(object)) {
        expected[row] = unit.rows()[row];
    }
    if took {
        met.note(if gone.len() > 1 { "emptied by a delete" } else { "emptied by a delete of its own parent" });
        assert!(gone.iter().flat_map(|&object| record(object)).all(|row| unit.rows()[row] == [0; 16]), "{what}");
    }
    assert!(*unit.rows() == expected, "{what}, and a byte is not as it should be");
    reply
}

/// What is strange about the journal of a unit with any bytes.
fn note_journal(rows: &Rows, met: &mut Met) {
    let slot = latest(rows);
    let rest = rows[MONITOR_ROWS + 3 * slot + 2];
    let strange = [
        ("no entry", count(rows) == 0),
        ("some entries", (1..32).contains(&count(rows))),
        ("more entries than there are slots", rows[RING][1] > 32),
        ("a next slot above all", rows[RING][0] > 31),
        ("the first slot is next", rows[RING][0] % 32 == 0),
        ("a record that is live", rest[0] == 1),
        ("a record that is neither live nor not", rest[0] > 1),
        ("a record without a label, with bytes in its place", rest[2] != 1 && rest[3..6] != [0; 3]),
        ("bytes behind the record", rest[6..] != [0; 10]),
    ];
    strange.iter().filter(|(_, is_so)| *is_so).for_each(|(what, _)| met.note(*what));
}

#[test]
fn taking_back_on_any_bytes() {
    let mut met = Met::default();
    for seed in 0..4000 {
        let random = &mut Random::new(seed);
        let mut unit = Unit::from_rows(random_rows(random));
        for at in 0..36 {
            note_journal(unit.rows(), &mut met);
            met.note(format!("object of the slot above all: {}", above_all(unit.rows())));
            let number = check_taken_back(&mut unit, &format!("seed {seed}, taking-back {at}"));
            met.note(format!("number {number}"));
        }
    }
    println!("{met:#?}");
    met.check(1000, &["no entry", "some entries", "more entries than there are slots", "a next slot above all"]);
    met.check(1000, &["the first slot is next", "a record that is live", "a record that is neither live nor not"]);
    met.check(1000, &["a record without a label, with bytes in its place", "bytes behind the record"]);
    met.check(1000, &["object of the slot above all: true", "object of the slot above all: false"]);
    met.check(1000, &["number 0", "number 17"]);
}

/// Whether the byte of the latest slot's object is no number of an object.
fn above_all(rows: &Rows) -> bool {
    let slot = latest(rows);
    usize::from(rows[MONITOR_ROWS + 96 + slot / 16][slot % 16]) != object(rows, slot)
}

#[test]
fn asking_and_taking_back_on_any_bytes() {
    let mut met = Met::default();
    for seed in 0..1500 {
        let random = &mut Random::new(seed);
        let mut unit = Unit::from_rows(rows_with_subjects(random));
        for at in 0..150 {
            let what = format!("seed {seed}, step {at}");
            if random.once_in(4) {
                met.note(format!("number {}", check_taken_back(&mut unit, &what)));
            } else {
                let request = load::bytes(random, shape(seed), &monitor_said(unit.rows()));
                let reply = check_asked(&mut unit, &request, &what, &mut met);
                met.note(format!("reply {}", reply.min(2)));
            }
        }
    }
    println!("{met:#?}");
    met.check(1000, &["number 0", "number 17", "reply 0", "reply 1", "reply 2"]);
    met.check(100, &["emptied by a delete"]);
}

#[test]
fn every_byte_of_a_unit_that_was_begun() {
    let mut met = Met::default();
    for seed in 0..200 {
        let (random, shape) = (&mut Random::new(seed), shape(seed));
        let table = load::table(random, shape);
        let mut unit = Unit::from_table(&table).expect("a table that was written");
        let mut second = Journaled::begin(Monitor::from_table(&table).expect("the same"));
        let mut expected = rows::of(&second.monitor);
        for at in 0..400 {
            if random.once_in(3 + seed as usize % 30) {
                let number = unit.take_back();
                assert_eq!(second.take_back(), number, "seed {seed}, step {at}");
                expected = taken_back(&expected).unwrap_or(expected);
                met.note(format!("number {number}"));
            } else {
                let request = load::bytes(random, shape, &second.monitor);
                let (reply, before) = (unit.ask(&request), expected);
                assert_eq!(second.request(&request), reply, "seed {seed}, step {at}");
                if gone(&before, unit.rows()).len() > 1 {
                    expected = emptied(&before);
                    met.note("emptied by a delete");
                } else if reply == 0 {
                    expected = entered(&before, Request::decode(&request).expect("it is granted").object);
                }
                met.note(format!("ring {}", count(&expected)));
            }
            expected[..MONITOR_ROWS].copy_from_slice(&rows::of(&second.monitor)[..MONITOR_ROWS]);
            assert!(*unit.rows() == expected, "seed {seed}, step {at}");
        }
    }
    println!("{met:#?}");
    met.check(200, &["number 0", "number 17", "ring 0", "ring 1", "ring 31", "ring 32"]);
    met.check(100, &["emptied by a delete"]);
}

#[test]
fn a_record_that_was_not_live_is_restored_with_zeros() {
    let table = reference::table_w();
    let mut unit = Unit::from_table(&table).unwrap();
    let begun = *unit.rows();
    assert_eq!(unit.ask(&[0x50, 0x80, 0, 0, 0, 0]), 0);
    assert_eq!(unit.rows()[REST][..2], [1, 1]);
    assert_eq!(unit.rows()[RING][..2], [1, 1]);
    assert_eq!(unit.take_back(), 0);
    // the slot has the object 0 and zeros, as in the beginning
    assert!(*unit.rows() == begun);
}
