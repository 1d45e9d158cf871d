//! Lists of gives and releases along runs from seeds: up to twelve byte strings, copies and malformed ones among them, on the
//! states that both implementations have reached, with orders of them carried out. And whole lists of rights.

use circmon::Unit;
use load::{Random, Shape};
use reference::{Get, Kind, Mode, Monitor, Request, OBJECTS, SUBJECTS};
use sidebyside::orders::{shuffled, Met};
use sidebyside::rights_lists::{check, check_again, check_images, RIGHTS_LISTS_MET};
use sidebyside::{drawn, held, shape, Both, RUNS};

/// So many requests in a run, and lists after so many of them.
const REQUESTS: usize = 300;
const EVERY: usize = 60;
const LISTS: usize = 35;
const LONGEST: usize = 12;

/// What a list is drawn from.
#[derive(Clone, Copy, PartialEq)]
enum Sort {
    Gives,
    Releases,
    Mixed,
}

/// A state, the objects of it that are live, and the accesses that are held.
struct Offered {
    both: Both,
    live: Vec<usize>,
    held: Vec<Get>,
}

impl Offered {
    fn new(both: Both) -> Offered {
        let live = (0..OBJECTS).filter(|&object| both.monitor.objects[object].is_some()).collect();
        let held = held(&both.monitor);
        Offered { both, live, held }
    }

    /// Mostly by the owner, and sometimes to itself; a right that it has, that it does not have, or of anybody on anything. One in
    /// four is of an access that the other holds.
    fn give(&self, random: &mut Random, shape: Shape) -> Request {
        let held = self.held(random).filter(|_| random.once_in(4));
        let object = held.map_or_else(|| self.object(random), |it| it.object);
        let owner = self.both.monitor.objects[object].as_ref().map(|it| it.owner);
        let actor = owner.filter(|_| !random.once_in(6)).unwrap_or_else(|| random.below(SUBJECTS));
        let other = match random.below(8) {
            0 => actor,
            1 => random.below(SUBJECTS),
            _ => random.below(shape.subjects),
        };
        let (other, mode) = held.map_or_else(|| (other, random.mode()), |it| (it.actor, it.mode));
        Request { actor, object, kind: Kind::Give(other, mode) }
    }

    /// Mostly of what is held.
    fn release(&self, random: &mut Random) -> Request {
        let held = self.held(random).filter(|_| !random.once_in(3));
        let any = |random: &mut Random| Get {
            actor: random.below(SUBJECTS),
            object: self.object(random),
            mode: random.mode(),
        };
        let Get { actor, object, mode } = held.unwrap_or_else(|| any(random));
        Request { actor, object, kind: Kind::Release(mode) }
    }

    fn held(&self, random: &mut Random) -> Option<Get> {
        (!self.held.is_empty()).then(|| self.held[random.below(self.held.len())])
    }

    fn object(&self, random: &mut Random) -> usize {
        if self.live.is_empty() || random.once_in(12) {
            random.below(OBJECTS)
        } else {
            self.live[random.below(self.live.len())]
        }
    }

    /// Up to twelve byte strings, of which one in four is there already; in one list of three some are malformed.
    fn list(&self, random: &mut Random, shape: Shape) -> Vec<Vec<u8>> {
        let sort = [Sort::Gives, Sort::Releases, Sort::Mixed][random.below(3)];
        let (count, with_malformed) = (1 + random.below(LONGEST), random.once_in(3));
        let mut list: Vec<Vec<u8>> = Vec::new();
        while list.len() < count {
            if !list.is_empty() && random.once_in(4) {
                list.push(list[random.below(list.len())].clone());
                continue;
            }
            let gives = sort == Sort::Gives || sort == Sort::Mixed && random.once_in(2);
            let request = if gives { self.give(random, shape) } else { self.release(random) };
            let bytes = request.encode().to_vec();
            list.push(if with_malformed && random.once_in(4) { malformed(random, bytes) } else { bytes });
        }
        list
    }
}

/// A give or a release that is damaged, or of another length, or any six bytes that are no request.
fn malformed(random: &mut Random, mut bytes: Vec<u8>) -> Vec<u8> {
    match random.below(4) {
        0 => bytes[5] |= 1 << random.below(4),
        1 => bytes.truncate(random.below(6)),
        2 => bytes.push(random.number() as u8),
        _ => bytes = random.bytes(6),
    }
    if Request::decode(&bytes).is_some() {
        bytes[5] |= 1;
    }
    assert!(Request::decode(&bytes).is_none(), "{bytes:02x?}");
    bytes
}

/// The state with other rights, begun from its image: some that are not held are gone, also of owners, and some are new.
fn with_other_rights(random: &mut Random, monitor: &Monitor) -> Both {
    let mut monitor = monitor.clone();
    for object in monitor.objects.iter_mut().flatten() {
        for subject in (0..SUBJECTS).filter(|&subject| monitor.subjects[subject].is_some()) {
            let (fewer, more) = (random.number() as u8 & 15, random.number() as u8 & random.number() as u8 & 15);
            object.rights[subject] = object.rights[subject] & fewer | object.held[subject] | more;
        }
    }
    Both::new(monitor)
}

/// What was done in all.
#[derive(Default)]
struct Done {
    met: Met,
    lists: usize,
    in_lists: usize,
    carried_out: usize,
}

/// The list as it stands, from its end, and two more orders.
fn some_orders(random: &mut Random, count: usize) -> Vec<Vec<usize>> {
    let more = [shuffled(random, count), shuffled(random, count)];
    [(0..count).collect(), (0..count).rev().collect()].into_iter().chain(more).collect()
}

/// Lists on one state.
fn check_state(random: &mut Random, shape: Shape, state: Both, done: &mut Done) {
    let offered = Offered::new(state);
    for _ in 0..LISTS {
        let list = offered.list(random, shape);
        let orders = some_orders(random, list.len());
        let carried = check(&offered.both, &list, &orders);
        check_images(&carried);
        check_again(&carried, &list, &orders[1]);
        done.met.note_rights_list(&offered.both.monitor, &list, &carried);
        done.lists += 1;
        done.in_lists += list.len();
        done.carried_out += list.len() * orders.len();
    }
}

#[test]
fn a_million_gives_and_releases_in_lists_along_runs() {
    let mut done = Done::default();
    for seed in 0..RUNS {
        let (random, shape) = (&mut Random::new(seed ^ 0x91F7), shape(seed));
        let (table, requests) = drawn(seed, shape, REQUESTS);
        let mut both = Both { monitor: Monitor::from_table(&table).unwrap(), unit: Unit::from_table(&table).unwrap() };
        for (at, request) in requests.iter().enumerate() {
            assert_eq!(both.unit.ask(request), both.monitor.request(request), "seed {seed}, request {at}");
            if (at + 1) % EVERY == 0 {
                let other = with_other_rights(random, &both.monitor);
                check_state(random, shape, both.clone(), &mut done);
                check_state(random, shape, other, &mut done);
            }
        }
    }
    let Done { met, lists, in_lists, carried_out } = done;
    println!("{in_lists} byte strings in {lists} lists, {carried_out} carried out by each: {met:#?}");
    assert!(in_lists >= 1_100_000, "{in_lists}");
    met.check(2000, &RIGHTS_LISTS_MET);
    met.check(2000, &["give: 3", "release: 3", "copies of a malformed byte string: refused"]);
    met.check(2000, &["malformed byte string of six bytes", "malformed byte string of another length"]);
    for sort in ["gives", "releases", "gives and releases"] {
        met.check(2000, &[format!("lists: {sort}, malformed ones among them").as_str()]);
    }
}

/// A give of every right on every object to every subject, each by the owner, or by anybody where the object is not live. They
/// stand by object.
fn every_give(monitor: &Monitor) -> Vec<Vec<u8>> {
    let owner = |object: usize| monitor.objects[object].as_ref().map_or(0, |it| it.owner);
    let of = |object| (0..SUBJECTS).flat_map(move |other| Mode::ALL.map(|mode| (object, other, mode)));
    let give = |(object, other, mode)| Request { actor: owner(object), object, kind: Kind::Give(other, mode) };
    (0..OBJECTS).flat_map(of).map(give).map(|it| it.encode().to_vec()).collect()
}

/// The subject that is given a right; none in a release.
fn given_to(bytes: &[u8]) -> Option<usize> {
    match Request::decode(bytes)?.kind {
        Kind::Give(other, _) => Some(other),
        _ => None,
    }
}

/// All these gives, a release of all that is held, and copies of some of both.
fn whole_list(monitor: &Monitor) -> Vec<Vec<u8>> {
    let release = |it: Get| Request { actor: it.actor, object: it.object, kind: Kind::Release(it.mode) };
    let mut list = every_give(monitor);
    list.extend(held(monitor).into_iter().map(|it| release(it).encode().to_vec()));
    let copies: Vec<Vec<u8>> = list.iter().step_by(7).cloned().collect();
    [list, copies].concat()
}

#[test]
fn whole_lists_of_rights_by_object_by_subject_and_shuffled() {
    let mut met = Met::default();
    for seed in 0..10 {
        let random = &mut Random::new(seed);
        let both = Both::new(load::rich(seed, 64, 1000));
        let list = whole_list(&both.monitor);
        let mut by_subject: Vec<usize> = (0..list.len()).collect();
        by_subject.sort_by_key(|&place| given_to(&list[place]));
        let orders: Vec<Vec<usize>> = some_orders(random, list.len()).into_iter().chain([by_subject]).collect();
        let carried = check(&both, &list, &orders);
        check_images(&carried);
        check_again(&carried, &list, &orders[4]);
        met.note_rights_list(&both.monitor, &list, &carried);
    }
    println!("{met:#?}");
    met.check(9, &["lists: a right is given and its access released"]);
    met.check(50, &["give: 0", "give: 1", "release: 0", "copies of a give: 0 and 1", "copies of a release: 0 and 1"]);
    met.check(50, &["give: 0 in one order and 1 in another", "release: 0 in one order and 1 in another"]);
}
