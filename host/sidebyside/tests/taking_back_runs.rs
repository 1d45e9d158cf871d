//! Long runs with takings-back between the requests, often, rarely and many in a row: after each taking-back both implementations
//! are in the state that the history of images says.

use load::{Random, Shape};
use reference::{reply, Monitor, Profile};
use sidebyside::history::{Followed, EMPTY, KINDS, MOST};
use sidebyside::orders::Met;
use sidebyside::{profiles, shape, RUNS, RUN_REQUESTS, SHAPES};

/// Once in how many requests one is taken back.
const RATES: [usize; 5] = [2, 4, 12, 60, 2000];
/// Once in how many requests several are taken back, and once in how many the run goes on from its image.
const SEVERAL: usize = 200;
const AGAIN: usize = 500;

struct Run {
    random: Random,
    shape: Shape,
    rate: usize,
    followed: Followed,
}

impl Run {
    fn new(seed: u64, profile: Profile, shape: Shape) -> Run {
        let mut random = Random::new(seed);
        let table = load::table_in(&mut random, profile, shape);
        let monitor = Monitor::from_table_in(profile, &table).expect("a table inside the profile");
        // the shapes follow the seed too
        let rate = RATES[seed as usize / SHAPES.len() % RATES.len()];
        Run { random, shape, rate, followed: Followed::begin(monitor) }
    }

    fn next(&mut self, met: &mut Met) {
        let bytes = profiles::bytes(&mut self.random, self.shape, &self.followed.second.monitor);
        let reply = self.followed.request(&bytes, met);
        met.note(format!("reply {reply}"));
        if self.random.once_in(self.rate) {
            self.followed.take_back(met);
        }
        if self.random.once_in(SEVERAL) {
            self.several(met);
        }
        if self.random.once_in(AGAIN) {
            self.again(met);
        }
    }

    /// Some, or more than there may be.
    fn several(&mut self, met: &mut Met) {
        let full = self.followed.entries() == MOST;
        let most = if self.random.once_in(2) { MOST + 1 } else { self.random.below(MOST) };
        for _ in 0..most {
            if self.followed.take_back(met) == EMPTY {
                met.note(if full { "a full journal emptied" } else { "a journal emptied" });
                return;
            }
        }
    }

    fn again(&mut self, met: &mut Met) {
        let had_entries = self.followed.entries() > 0;
        self.followed.begin_again();
        if had_entries {
            assert_eq!(self.followed.take_back(met), EMPTY);
            met.note("17 after a beginning from an image of a monitor with entries");
        }
    }
}

/// That everything was met more often than this.
fn check(met: &Met, often: usize) {
    met.check(often, &KINDS);
    met.check(often, &["0", "17", "1 between", "refused between", "an entry gave way"]);
    met.check(often, &["a delete with rights and accesses of others", "a label lowered", "a label ended"]);
    met.check(often, &["first companies taken back", "other companies restored", "a delete with companies"]);
    met.check(often, &["a journal emptied", "a full journal emptied"]);
    met.check(often / 3, &["emptied by a delete", "a delete of a child"]);
    met.check(often, &["17 after a beginning from an image of a monitor with entries"]);
}

/// Every number up to 20 counts, also those that no request gets.
fn requests(met: &Met) -> usize {
    (0..=reply::PARENT_LABEL).map(|number| met.of(&format!("reply {number}"))).sum()
}

#[test]
fn a_million_requests_with_takings_back() {
    let mut met = Met::default();
    for seed in 0..RUNS {
        let mut run = Run::new(seed, Profile::WIDEST, shape(seed));
        (0..RUN_REQUESTS).for_each(|_| run.next(&mut met));
    }
    println!("{met:#?}");
    assert!(requests(&met) >= 1_000_000, "{met:#?}");
    check(&met, 300);
}

#[test]
fn under_profiles() {
    let mut met = Met::default();
    for seed in 0..300 {
        let profile = profiles::drawn(&mut Random::new(seed));
        profiles::note_narrow(profile, &mut met);
        let mut run = Run::new(seed, profile, profiles::shape(profile, [2, 5, 64][seed as usize % 3]));
        (0..1000).for_each(|_| run.next(&mut met));
    }
    println!("{met:#?}");
    check(&met, 30);
    profiles::check_narrow(&met, 3);
}
