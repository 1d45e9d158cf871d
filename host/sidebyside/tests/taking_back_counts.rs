//! So many requests with reply 0, and as many takings-back: the state before them all, whatever was in the journal before, and with
//! other replies between. Where a delete takes children, the journal is empty, and all is counted from there.

use load::{Random, Shape};
use reference::Monitor;
use sidebyside::history::{Followed, EMPTY, MOST};
use sidebyside::orders::Met;
use sidebyside::shape;

/// A run that has a journal: requests, and sometimes takings-back.
struct Run {
    random: Random,
    shape: Shape,
    followed: Followed,
    met: Met,
}

impl Run {
    fn new(seed: u64, before: usize) -> Run {
        let mut random = Random::new(seed);
        let shape = shape(seed);
        let table = load::table(&mut random, shape);
        let followed = Followed::begin(Monitor::from_table(&table).expect("a table that was written"));
        let mut run = Run { random, shape, followed, met: Met::default() };
        for _ in 0..before {
            run.next();
            if run.random.once_in(12) {
                run.followed.take_back(&mut run.met);
            }
        }
        run
    }

    fn next(&mut self) -> u8 {
        let bytes = load::bytes(&mut self.random, self.shape, &self.followed.second.monitor);
        self.followed.request(&bytes, &mut self.met)
    }

    /// So many requests with reply 0, and the image before each of them and the present one; others come between. Behind a delete
    /// that took children the count begins again.
    fn changes(&mut self, count: usize) -> Changes {
        let mut changes = Changes { images: vec![self.followed.present.clone()], entries: self.followed.entries() };
        while changes.images.len() <= count {
            let emptied = self.met.of("emptied by a delete");
            match self.next() {
                0 if self.met.of("emptied by a delete") > emptied => {
                    changes = Changes { images: vec![self.followed.present.clone()], entries: 0 };
                }
                0 => changes.images.push(self.followed.present.clone()),
                _ => self.met.note("another reply between"),
            }
        }
        changes
    }

    /// Takes back so many, each with 0.
    fn taken_back(&mut self, count: usize) {
        for at in 0..count {
            assert_eq!(self.followed.take_back(&mut self.met), 0, "{at} of {count}");
        }
    }
}

/// Requests with reply 0 in a row.
struct Changes {
    /// before the first of them and after each
    images: Vec<Vec<u8>>,
    /// how many entries the journal had before the first
    entries: usize,
}

#[test]
fn up_to_32_requests_are_taken_back_from_any_journal() {
    let (mut with_entries, mut full, mut emptied) = (0, 0, 0);
    for (seed, count) in (0..40).flat_map(|seed| (0..=MOST).map(move |count| (seed, count))) {
        let mut run = Run::new(seed, [0, 3, 20, 300][seed as usize / 5 % 4]);
        let before = run.met.of("emptied by a delete");
        let Changes { images, entries } = run.changes(count);
        run.taken_back(count);
        assert_eq!(run.followed.present, images[0], "seed {seed}, {count} requests");
        // of those before, as many are left as did not give way
        let left = entries.min(MOST - count);
        run.taken_back(left);
        assert_eq!(run.followed.take_back(&mut run.met), EMPTY, "seed {seed}, {count} requests");
        with_entries += usize::from(left > 0);
        full += usize::from(entries == MOST);
        emptied += usize::from(run.met.of("emptied by a delete") > before);
        assert!(count < 20 || run.met.of("another reply between") > 0, "seed {seed}, {count} requests");
    }
    assert!(with_entries > 300 && full > 100 && emptied > 50, "{with_entries} {full} {emptied}");
}

#[test]
fn of_more_than_32_requests_the_first_are_not_taken_back() {
    for (seed, count) in (0..40).flat_map(|seed| (MOST..=MOST + 8).map(move |count| (seed, count))) {
        let mut run = Run::new(seed, [0, 3, 300][seed as usize / 5 % 3]);
        let Changes { images, .. } = run.changes(count);
        run.taken_back(MOST);
        // the state before the last 32, which is that after the others
        assert_eq!(run.followed.present, images[count - MOST], "seed {seed}, {count} requests");
        for _ in 0..3 {
            assert_eq!(run.followed.take_back(&mut run.met), EMPTY, "seed {seed}, {count} requests");
        }
    }
}
