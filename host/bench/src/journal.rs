//! The journal: requests that all get 0, in a unit, which enters each, and in a replay, which keeps no journal, so that the difference
//! is what an entry costs; and takings-back. Beside the second implementation with its journal and without.

use crate::timing::{median, print_head, print_row, time, ROUNDS};
use circmon::{Unit, JOURNAL_ENTRIES};
use reference::{Journaled, Kind, Level, Mode, Monitor, Request, OBJECTS, REQUEST_BYTES, SUBJECTS, TABLE_BYTES};

/// How often each of the two kinds comes for each object.
const TIMES: usize = 100;
/// How many full journals are emptied in a round.
const EMPTIED: usize = 100;

/// Requests from a table on that all get 0.
struct List {
    name: &'static str,
    table: [u8; TABLE_BYTES],
    requests: Vec<u8>,
}

/// The objects are created and labelled, and then two kinds, which the owner says, come in turns on each of them; the second undoes
/// the first.
fn list(name: &'static str, two: impl Fn(usize) -> [Kind; 2]) -> List {
    let top = Level { class: 15, needs: u16::MAX };
    let begin = |_| [Kind::Create { execute: true, parent: None }, Kind::ChangeLevel(top)];
    let mut requests = Vec::new();
    let mut add = |kinds: &dyn Fn(usize) -> [Kind; 2]| {
        for (at, object) in (0..2).flat_map(|at| (0..OBJECTS).map(move |object| (at, object))) {
            let actor = object % SUBJECTS;
            requests.extend(Request { actor, object, kind: kinds(actor)[at] }.encode());
        }
    };
    add(&begin);
    (0..TIMES).for_each(|_| add(&two));
    List { name, table: Monitor::begin([Some(top); SUBJECTS]).table(), requests }
}

fn lists() -> [List; 2] {
    [
        list("give and rescind", |owner| {
            let other = (owner + 1) % SUBJECTS;
            [Kind::Give(other, Mode::Execute), Kind::Rescind(other, Mode::Execute)]
        }),
        list("delete and create", |_| [Kind::Delete, Kind::Create { execute: true, parent: None }]),
    ]
}

impl List {
    fn count(&self) -> usize {
        self.requests.len() / REQUEST_BYTES
    }

    fn unit(&self) -> Unit {
        Unit::from_table(&self.table).expect("a table that was written")
    }

    fn monitor(&self) -> Monitor {
        Monitor::from_table(&self.table).expect("a table that was written")
    }

    /// Nanoseconds for a request, of all of them from the table on.
    fn each(&self, run: impl FnOnce()) -> f64 {
        time(run) / self.count() as f64 * 1e9
    }

    /// Every request gets 0.
    fn all(&self, mut ask: impl FnMut(&[u8]) -> u8) {
        assert!(self.requests.chunks(REQUEST_BYTES).all(|request| ask(request) == 0), "{}", self.name);
    }
}

/// Nanoseconds for a taking-back, where full journals are emptied.
fn emptied<T: Clone>(full: &T, take_back: impl Fn(&mut T) -> u8) -> f64 {
    let empty = |_| {
        let mut it = full.clone();
        time(|| assert!((0..JOURNAL_ENTRIES).all(|_| take_back(&mut it) == 0)))
    };
    (0..EMPTIED).map(empty).sum::<f64>() / (EMPTIED * JOURNAL_ENTRIES) as f64 * 1e9
}

/// Nanoseconds of the proved monitor and of the second implementation in one round: entered, without a journal, taken back.
fn round(list: &List) -> [[f64; 2]; 3] {
    let (mut unit, mut journaled) = (list.unit(), Journaled::begin(list.monitor()));
    let entered = [list.each(|| list.all(|it| unit.ask(it))), list.each(|| list.all(|it| journaled.request(it)))];
    let (mut replies, mut monitor) = (vec![0xEE; list.count()], list.monitor());
    let replayed = list.each(|| assert_eq!(circmon::replay(&list.table, &list.requests, &mut replies), 0));
    assert!(replies.iter().all(|&reply| reply == 0), "{}", list.name);
    let without = [replayed, list.each(|| list.all(|it| monitor.request(it)))];
    [entered, without, [emptied(&unit, Unit::take_back), emptied(&journaled, Journaled::take_back)]]
}

pub fn journal() {
    print_head("journal: nanoseconds, and the ratio to the second implementation");
    for list in lists() {
        let rounds: Vec<_> = (0..ROUNDS).map(|_| round(&list)).collect();
        let of = |work: usize, whose: usize| median(rounds.iter().map(|round| round[work][whose]).collect());
        for (work, name) in ["entered", "without a journal", "taken back"].into_iter().enumerate() {
            print_row(&format!("{name}, {}", list.name), of(work, 0), of(work, 1));
        }
    }
}

#[cfg(test)]
mod tests {
    use super::*;

    #[test]
    fn every_request_is_entered_and_both_restore_the_same_states() {
        for list in lists() {
            let (mut unit, mut second, mut monitor) = (list.unit(), Journaled::begin(list.monitor()), list.monitor());
            list.all(|request| unit.ask(request));
            list.all(|request| second.request(request));
            list.all(|request| monitor.request(request));
            assert!(list.count() > 10_000 && second.entries() == JOURNAL_ENTRIES, "{}", list.name);
            let mut image = [0; reference::IMAGE_BYTES];
            for _ in 0..JOURNAL_ENTRIES {
                assert_eq!([unit.take_back(), second.take_back()], [0; 2], "{}", list.name);
                second.monitor.write_image(&mut image);
                assert_eq!(unit.image(), image, "{}", list.name);
            }
            assert_ne!(second.monitor, monitor, "{}", list.name);
        }
    }
}
