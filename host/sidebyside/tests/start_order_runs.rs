//! Start order along runs from seeds: lists of up to twelve gets on the states that both implementations have reached, and orders
//! of them carried out.

use circmon::{StartOrder, Unit};
use load::{Random, Shape};
use reference::{Get, Kind, Mode, Monitor, Request, OBJECTS, SUBJECTS};
use sidebyside::orders::{beginning_with, shuffled, Met};
use sidebyside::start_order::{after_order, agree, answer, bytes, LISTS_MET, WALL_LISTS_MET};
use sidebyside::{drawn, held, image, shape, Both, RUNS};

/// So many requests in a run, and lists after so many of them.
const REQUESTS: usize = 300;
const EVERY: usize = 60;
const LISTS: usize = 24;
const LONGEST: usize = 12;

/// A state with the gets of each subject: those to which it has a right, and of these the ones that are granted alone.
struct Offered {
    both: Both,
    with_right: Vec<Vec<Get>>,
    granted: Vec<Vec<Get>>,
}

impl Offered {
    fn new(both: Both) -> Offered {
        let with_right: Vec<Vec<Get>> = (0..SUBJECTS).map(|actor| with_right(&both.monitor, actor)).collect();
        let alone = |gets: &Vec<Get>| gets.iter().copied().filter(|get| both.monitor.grants_alone(*get)).collect();
        let granted = with_right.iter().map(alone).collect();
        Offered { both, with_right, granted }
    }

    /// Mostly one who is granted something.
    fn actor(&self, random: &mut Random, shape: Shape) -> usize {
        let likely: Vec<usize> = (0..SUBJECTS).filter(|&actor| self.granted[actor].len() > 2).collect();
        if likely.is_empty() || random.once_in(8) {
            random.below(shape.subjects)
        } else {
            likely[random.below(likely.len())]
        }
    }

    /// Most are granted alone, some are refused or may be, and some stand in the list already.
    fn get(&self, random: &mut Random, shape: Shape, actor: usize, before: &[Get]) -> Get {
        let drawn = |random: &mut Random, gets: &[Get]| (!gets.is_empty()).then(|| gets[random.below(gets.len())]);
        let found = match random.below(10) {
            0 => drawn(random, before),
            1 => None,
            2 => drawn(random, &self.with_right[actor]),
            _ => drawn(random, &self.granted[actor]),
        };
        found.unwrap_or_else(|| Get { actor, object: random.below(shape.objects), mode: random.mode() })
    }

    /// Up to twelve gets of one actor, of two, or of any.
    fn list(&self, random: &mut Random, shape: Shape) -> Vec<Get> {
        let actors = [self.actor(random, shape), self.actor(random, shape)];
        let (count, way) = (1 + random.below(LONGEST), random.below(3));
        let mut gets = Vec::new();
        while gets.len() < count {
            let actor = if way == 2 { self.actor(random, shape) } else { actors[random.below(1 + way)] };
            gets.push(self.get(random, shape, actor, &gets));
        }
        gets
    }
}

/// The gets to which the actor has a right.
fn with_right(monitor: &Monitor, actor: usize) -> Vec<Get> {
    let has = |get: &Get| monitor.objects[get.object].as_ref().is_some_and(|it| it.rights[actor] & get.mode.bit() != 0);
    let all = (0..OBJECTS).flat_map(|object| Mode::ALL.map(|mode| Get { actor, object, mode }));
    all.filter(has).collect()
}

/// The state with every access released: as after a power return, when nobody holds anything yet.
fn released(both: &Both) -> Both {
    let mut after = both.clone();
    for Get { actor, object, mode } in held(&both.monitor) {
        let release = Request { actor, object, kind: Kind::Release(mode) }.encode();
        assert_eq!((after.unit.ask(&release), after.monitor.request(&release)), (0, 0), "{release:02x?}");
    }
    after
}

/// The same state with other companies: nobody holds anything, so the owners may set any.
fn with_companies(random: &mut Random, released: &Both) -> Both {
    let mut after = released.clone();
    for (object, it) in released.monitor.objects.iter().enumerate() {
        let Some(it) = it else { continue };
        let companies = std::array::from_fn(|_| if random.once_in(3) { 1 + random.below(2) as u8 } else { 0 });
        let set = Request { actor: it.owner, object, kind: Kind::SetCompanies(companies) }.encode();
        let replies = (after.unit.ask(&set), after.monitor.request(&set));
        assert!(matches!(replies, (0, 0) | (1, 1)), "{set:02x?} gets {replies:?}");
    }
    after
}

/// Both answer alike; of an agreement some orders are carried out, of a clash the two that begin with its gets.
fn check_list(random: &mut Random, both: &Both, gets: &[Get], met: &mut Met) {
    let answer = answer(both, &bytes(gets));
    met.note_list(&both.monitor, gets, answer);
    let count = gets.len();
    match answer {
        StartOrder::Clash { first, second } => {
            let [one, other] =
                [(first, second), (second, first)].map(|(a, b)| after_order(both, gets, &beginning_with(a, b, count)));
            assert_ne!(one.unit.image(), other.unit.image(), "{gets:?}: {answer:?}");
            assert!(one.monitor != other.monitor, "{gets:?}: {answer:?}");
        }
        _ => {
            let orders: Vec<Vec<usize>> = (0..4).map(|_| shuffled(random, count)).collect();
            assert!(agree(both, gets, &orders), "{gets:?} in the orders {orders:?}");
            let states = [0, 1].map(|at| after_order(both, gets, &orders[at]));
            assert_eq!(states[0].unit.image(), states[1].unit.image(), "{gets:?} in the orders {orders:?}");
            assert_eq!(states[0].unit.image()[..], image(&states[1].monitor)[..], "{gets:?}");
        }
    }
}

/// A piece that is no get in place of one, or bytes behind the last: what is looked at first is that.
fn check_no_get(random: &mut Random, shape: Shape, both: &Both, gets: &[Get], met: &mut Met) {
    let mut requests = bytes(gets);
    let at = match random.below(3) {
        0 => {
            let short = 1 + random.below(5);
            requests.extend(random.bytes(short));
            gets.len()
        }
        way => {
            let place = random.below(gets.len());
            let piece = &mut requests[6 * place..][..6];
            match load::request(random, shape, &both.monitor) {
                other if way == 1 && !matches!(other.kind, Kind::Get(_)) => piece.copy_from_slice(&other.encode()),
                _ => piece[5] |= 1 << random.below(4),
            }
            place
        }
    };
    assert_eq!(answer(both, &requests), StartOrder::NoGet { at }, "{requests:02x?}");
    met.note("no get");
}

/// Lists on one state. How many gets there are in them is returned.
fn check_state(random: &mut Random, shape: Shape, state: Both, met: &mut Met) -> usize {
    let offered = Offered::new(state);
    let mut all = 0;
    for turn in 0..LISTS {
        let gets = offered.list(random, shape);
        all += gets.len();
        check_list(random, &offered.both, &gets, met);
        if turn % 17 == 0 {
            check_no_get(random, shape, &offered.both, &gets, met);
        }
    }
    all
}

#[test]
fn a_million_gets_in_lists_along_runs() {
    let (mut met, mut all) = (Met::default(), 0);
    for seed in 0..RUNS {
        let (random, shape) = (&mut Random::new(seed ^ 0xC1A5), shape(seed));
        let (table, requests) = drawn(seed, shape, REQUESTS);
        let mut both = Both { monitor: Monitor::from_table(&table).unwrap(), unit: Unit::from_table(&table).unwrap() };
        for (at, request) in requests.iter().enumerate() {
            assert_eq!(both.unit.ask(request), both.monitor.request(request), "seed {seed}, request {at}");
            if (at + 1) % EVERY == 0 {
                all += check_state(random, shape, both.clone(), &mut met);
                let released = released(&both);
                let walled = with_companies(random, &released);
                all += check_state(random, shape, walled, &mut met);
                all += check_state(random, shape, released, &mut met);
            }
        }
    }
    println!("{all} gets: {met:#?}");
    assert!(all >= 1_000_000, "{all}");
    met.check(1000, &LISTS_MET);
    met.check(200, &WALL_LISTS_MET);
    met.check(1000, &["no get", "refused alone with 3", "refused alone with 4"]);
}
