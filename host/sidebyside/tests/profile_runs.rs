//! Runs under profiles: every reply, the whole unit and the images along the way, pages of any object, and the answers on the order
//! of gets, which are read under the profile of the unit.

use circmon::{StartOrder, Unit, PAGE_BYTES};
use load::{Random, Shape};
use reference::{reply, Get, Monitor, Request, MOST_GETS};
use sidebyside::orders::{shuffled, Met};
use sidebyside::profiles;
use sidebyside::start_order::{after_order, agree, answer, bytes};
use sidebyside::{image, rows, Both, REPLIES};

const RUNS: u64 = 1200;
const REQUESTS: usize = 1000;

/// A run with its profile, and what was met in it.
struct Run {
    random: Random,
    shape: Shape,
    both: Both,
    met: Met,
}

impl Run {
    fn new(seed: u64, met: Met) -> Run {
        let mut random = Random::new(seed);
        let profile = profiles::drawn(&mut random);
        let most_objects = [2, 5, 64][seed as usize % 3];
        let shape = profiles::shape(profile, most_objects);
        let table = load::table_in(&mut random, profile, shape);
        let monitor = Monitor::from_table_in(profile, &table).expect("a table inside the profile");
        let unit = Unit::from_table_in(profiles::proved(profile).unwrap(), &table).expect("the same");
        Run { random, shape, both: Both { monitor, unit }, met }
    }

    /// The next request, and its reply; where the state did not change, every byte of the unit is left.
    fn ask(&mut self, what: &str) {
        let Run { random, shape, both, met } = self;
        let bytes = profiles::bytes(random, *shape, &both.monitor);
        let before = both.unit.clone();
        let reply = both.monitor.request(&bytes);
        assert_eq!(both.unit.ask(&bytes), reply, "{what}: {bytes:02x?}");
        assert!(
            reply == 0 || both.unit.rows() == before.rows(),
            "{what}: {bytes:02x?} gets {reply}, and a byte is changed"
        );
        profiles::note_reply(both.monitor.profile, &bytes, reply, met);
    }

    fn check_state(&mut self, what: &str) {
        let Both { monitor, unit } = &self.both;
        assert!(*unit == rows::unit(monitor), "{what}: the unit");
        let bytes = image(monitor);
        assert_eq!(unit.image()[..], bytes[..], "{what}: the image");
        let again = Unit::from_image_in(unit.profile().expect("it was begun"), &bytes);
        assert_eq!(again.as_ref(), Ok(unit), "{what}: read back");
        assert_eq!(Monitor::from_image_in(monitor.profile, &bytes).as_ref(), Ok(monitor), "{what}: read back");
    }

    /// The page of any number of an object, and of one at the border of the profile.
    fn check_pages(&mut self, what: &str) {
        let Both { monitor, unit } = &self.both;
        let border = monitor.profile.objects;
        for object in [self.random.number() as u8, self.random.below(64) as u8, border - 1, border] {
            let length = PAGE_BYTES - usize::from(self.random.once_in(9)) + self.random.below(3);
            let (mut proved, mut second) = (vec![0xEE; length], vec![0xEE; length]);
            let number = unit.page(object, &mut proved);
            assert_eq!(number, monitor.write_page(object, &mut second), "{what}: o{object}");
            assert_eq!(proved, second, "{what}: o{object}");
            self.met.note(format!("page {number}"));
            if (border..64).contains(&object) {
                assert_eq!(number, reply::NOT_LIVE, "{what}: o{object} is beyond the profile");
                self.met.note("page beyond the profile");
            }
        }
    }

    /// A list of gets inside the profile, and the same with one outside, on the state and on that in which nothing is held.
    fn check_orders(&mut self, what: &str) {
        let released = Both::new(profiles::released(&self.both.monitor));
        for both in [&self.both, &released] {
            check_list(&mut self.random, both, what, &mut self.met);
        }
    }
}

fn check_list(random: &mut Random, both: &Both, what: &str, met: &mut Met) {
    let gets = profiles::likely_gets(random, &both.monitor);
    let found = answer(both, &bytes(&gets));
    match found {
        StartOrder::Agree => {
            let orders: Vec<Vec<usize>> = (0..3).map(|_| shuffled(random, gets.len())).collect();
            assert!(agree(both, &gets, &orders), "{what}: {gets:?}");
        }
        StartOrder::Clash { first, second } => {
            let two = [gets[first], gets[second]];
            let [a, b] = [[0, 1], [1, 0]].map(|order| after_order(both, &two, &order));
            assert!(a.unit != b.unit && a.monitor != b.monitor, "{what}: {gets:?}");
        }
        StartOrder::NoGet { .. } | StartOrder::TooMany => panic!("{what}: {gets:?}: {found:?}"),
    }
    met.note(if found == StartOrder::Agree { "orders agree" } else { "orders clash" });
    let at = random.below(gets.len());
    let wrong = Request::decode(&gets[at].encode()).expect("a get");
    if let Some((field, wrong)) = profiles::outside(random, both.monitor.profile, wrong) {
        let mut requests = bytes(&gets);
        requests[6 * at..][..6].copy_from_slice(&wrong.encode());
        assert_eq!(answer(both, &requests), StartOrder::NoGet { at }, "{what}: {field} of {wrong:?}");
        met.note(format!("no get: {field} outside"));
    }
}

#[test]
fn a_million_requests_under_profiles() {
    let mut met = Met::default();
    for seed in 0..RUNS {
        let mut run = Run::new(seed, std::mem::take(&mut met));
        profiles::note_narrow(run.both.monitor.profile, &mut run.met);
        for at in 0..REQUESTS {
            let what = format!("seed {seed}, request {at}");
            run.ask(&what);
            if at % 50 == 0 || at + 1 == REQUESTS {
                run.check_state(&what);
                run.check_pages(&what);
                run.check_orders(&what);
            }
        }
        met = run.met;
    }
    println!("{} requests: {met:#?}", RUNS as usize * REQUESTS);
    let replies: usize = REPLIES.iter().map(|reply| met.of(&format!("reply {reply}"))).sum();
    assert!(replies >= 1_000_000, "{met:#?}");
    profiles::check_replies(&met, 1000);
    profiles::check_narrow(&met, 20);
    met.check(1000, &["page beyond the profile", "orders agree", "orders clash"]);
    met.check(500, &["page 0", "page 2", "page 4", "page 13", "no get: actor outside", "no get: object outside"]);
}

#[test]
fn more_pieces_than_are_looked_at_and_a_get_outside_at_the_last_place() {
    let mut beyond = 0;
    for seed in 0..20 {
        let both = Run::new(seed, Met::default()).both;
        let inside = Get { actor: 0, object: 0, mode: reference::Mode::Read };
        let mut requests = bytes(&vec![inside; MOST_GETS]);
        assert_eq!(answer(&both, &requests), StartOrder::Agree, "seed {seed}");
        if both.monitor.profile.subjects < 16 {
            requests[6 * (MOST_GETS - 1)..].copy_from_slice(&Get { actor: 15, ..inside }.encode());
            assert_eq!(answer(&both, &requests), StartOrder::NoGet { at: MOST_GETS - 1 }, "seed {seed}");
            beyond += 1;
        }
        requests.push(0);
        assert_eq!(answer(&both, &requests), StartOrder::TooMany, "seed {seed}");
    }
    assert!(beyond > 5, "{beyond}");
}
