//! The loads: each a table and requests, of one kind or mixed, on few or many objects; a test load from a seed; one under a
//! narrow profile; those with companies (`companies`) and those with objects under objects (`trees`).

use crate::{companies, trees};
use load::{Random, Shape};
use reference::{Kind, Level, Monitor, Profile, Request, REQUEST_BYTES, SUBJECTS};

pub const REQUESTS: usize = 20_000;

/// A load: a table, requests that make a state, and behind them the requests that count.
pub struct Load {
    pub name: String,
    /// of the unit; every request is inside it, so that a replay, which runs under the widest, replies the same
    pub profile: Profile,
    pub table: [u8; reference::TABLE_BYTES],
    pub requests: Vec<u8>,
}

pub fn shape(objects: usize) -> Shape {
    Shape { objects, subjects: SUBJECTS, classes: 4, needs: 2, companies: 0, parents: 0, damaged: 1_000_000 }
}

/// Requests that leave `objects` live objects, most of them labelled, with many rights; dense: all labelled, with many
/// accesses too. Of changes of level only first labels are among them: labels that rise are all the same in the end.
pub fn prepare(random: &mut Random, objects: usize, dense: bool) -> (Monitor, Vec<u8>) {
    let shape = shape(objects);
    let table = load::table(random, shape);
    let mut monitor = Monitor::from_table(&table).expect("a table that was written");
    let mut requests = Vec::new();
    let steps = objects * if dense { 120 } else { 12 };
    for step in 0..steps {
        let mut request = load::request(random, shape, &monitor);
        if step < objects {
            request.object = step;
            request.kind = Kind::Create { execute: true, parent: None };
        }
        let labelled = monitor.objects[request.object].as_ref().is_some_and(|it| it.label.is_some());
        let left_out = match request.kind {
            Kind::Delete => true,
            Kind::ChangeLevel(_) => labelled,
            Kind::Get(_) => !dense,
            _ => false,
        };
        if left_out {
            continue;
        }
        let bytes = request.encode();
        monitor.request(&bytes);
        requests.extend(bytes);
    }
    (monitor, requests)
}

type Draw = fn(&mut Random, &Monitor, usize) -> Request;

fn by_someone(random: &mut Random, monitor: &Monitor, objects: usize) -> (usize, usize) {
    let object = random.below(objects);
    let owner = monitor.objects[object].as_ref().map_or(0, |it| it.owner);
    (if random.once_in(2) { owner } else { random.below(SUBJECTS) }, object)
}

/// A change of level: mostly one step up, sometimes the same label, sometimes any. Labels only rise. An object that nobody
/// holds is deleted by its owner when its label has come to the top, and created again: so the sparse loads are granted new
/// labels. One that is held stays, with a label that its holders allow: in the dense loads the same label passes checks 8
/// and 9, and a step up fails one of them.
fn change_level(random: &mut Random, monitor: &Monitor, objects: usize) -> Request {
    let (actor, object) = by_someone(random, monitor, objects);
    match &monitor.objects[object] {
        None => Request { actor, object, kind: Kind::Create { execute: true, parent: None } },
        Some(it) if it.label == Some(top(objects)) && it.held == [0; SUBJECTS] => {
            Request { actor: it.owner, object, kind: Kind::Delete }
        }
        Some(it) => {
            Request { actor, object, kind: Kind::ChangeLevel(load::new_level(random, shape(objects), it.label)) }
        }
    }
}

/// The highest level of the shape.
fn top(objects: usize) -> Level {
    let Shape { classes, needs, .. } = shape(objects);
    Level { class: classes as u8 - 1, needs: (1 << needs) - 1 }
}

/// The kinds of load, and how each draws its next request.
const KINDS: [(&str, Draw); 8] = [
    ("mixed", |r, m, n| load::request(r, shape(n), m)),
    ("get", |r, m, n| {
        let (actor, object) = by_someone(r, m, n);
        Request { actor, object, kind: Kind::Get(r.mode()) }
    }),
    ("release", |r, m, n| {
        let (actor, object) = by_someone(r, m, n);
        Request { actor, object, kind: Kind::Release(r.mode()) }
    }),
    ("give", |r, m, n| {
        let (actor, object) = by_someone(r, m, n);
        Request { actor, object, kind: Kind::Give(r.below(SUBJECTS), r.mode()) }
    }),
    ("rescind", |r, m, n| {
        let (actor, object) = by_someone(r, m, n);
        Request { actor, object, kind: Kind::Rescind(r.below(SUBJECTS), r.mode()) }
    }),
    ("create, delete", |r, m, n| {
        let (actor, object) = by_someone(r, m, n);
        let kind =
            if m.objects[object].is_some() { Kind::Delete } else { Kind::Create { execute: true, parent: None } };
        Request { actor, object, kind }
    }),
    ("change level", change_level),
    ("refused", |r, _, n| Request { actor: r.below(SUBJECTS), object: (n + 7) % 64, kind: Kind::Delete }),
];

pub fn loads() -> Vec<Load> {
    let mut loads = Vec::new();
    for objects in [4, 16, 64] {
        for dense in [false, true] {
            loads.extend(KINDS.map(|(kind, draw)| drawn(kind, draw, objects, dense)));
        }
    }
    loads.push(from_seed(1));
    loads.push(small_plant());
    loads.extend(companies::loads());
    loads.extend(trees::loads());
    loads
}

/// Mixed requests in a plant of four tasks, under its profile.
fn small_plant() -> Load {
    let profile = Profile { subjects: 4, objects: 10, highest_class: 3, needs: 0b11 };
    let shape = Shape { subjects: 4, ..shape(10) };
    let random = &mut Random::new(4);
    let table = load::table_in(random, profile, shape);
    let mut monitor = Monitor::from_table_in(profile, &table).expect("a table inside the profile");
    let mut requests = Vec::new();
    for _ in 0..REQUESTS {
        let bytes = load::request(random, shape, &monitor).encode();
        monitor.request(&bytes);
        requests.extend(bytes);
    }
    Load { name: "mixed, a plant of 4 tasks".to_string(), profile, table, requests }
}

/// A test load as the library makes it, with everyone enrolled: who has the table, the seed and the number of requests can
/// repeat it without this program. Nothing stands before the requests that count.
fn from_seed(seed: u32) -> Load {
    let mut requests = vec![0; REQUESTS * REQUEST_BYTES];
    assert_eq!(circmon::load(seed, &mut requests).number, 0);
    Load { name: format!("from seed {seed}"), profile: Profile::WIDEST, table: load::everyone(), requests }
}

fn seed(objects: usize, dense: bool) -> u64 {
    objects as u64 * 2 + u64::from(dense)
}

/// The load of one kind.
fn drawn(kind: &str, draw: Draw, objects: usize, dense: bool) -> Load {
    let random = &mut Random::new(seed(objects, dense));
    let (mut monitor, mut requests) = prepare(random, objects, dense);
    let table = monitor.table();
    for _ in 0..REQUESTS {
        let bytes = draw(random, &monitor, objects).encode();
        monitor.request(&bytes);
        requests.extend(bytes);
    }
    let name = format!("{kind}, {objects} objects, {}", if dense { "dense" } else { "sparse" });
    Load { name, profile: Profile::WIDEST, table, requests }
}

#[cfg(test)]
mod tests {
    use super::*;
    use reference::reply;

    const PREPARED: [(usize, bool); 6] = [(4, false), (4, true), (16, false), (16, true), (64, false), (64, true)];

    /// The replies of a load, with those to the requests that make its state.
    fn replies(load: &Load) -> (Monitor, Vec<u8>) {
        let mut monitor = Monitor::from_table_in(load.profile, &load.table).expect("a table that was written");
        let replies = load.requests.chunks(REQUEST_BYTES).map(|it| monitor.request(it)).collect();
        (monitor, replies)
    }

    /// How many accesses are held.
    fn held(monitor: &Monitor) -> usize {
        monitor.objects.iter().flatten().flat_map(|it| it.held).map(|set| set.count_ones() as usize).sum()
    }

    #[test]
    fn most_objects_are_labelled_and_dense_ones_are_held() {
        for (objects, dense) in PREPARED {
            // 7 is the seed of the images
            for seed in [seed(objects, dense), 7] {
                let (monitor, _) = prepare(&mut Random::new(seed), objects, dense);
                let live: Vec<_> = monitor.objects.iter().flatten().collect();
                let labelled = live.iter().filter(|it| it.label.is_some()).count();
                let held = held(&monitor);
                let what = format!("{objects} objects, dense: {dense}: {labelled} labelled, {held} accesses");
                assert_eq!(live.len(), objects, "{what}");
                assert!(if dense { labelled == objects } else { 2 * labelled >= objects }, "{what}");
                assert_eq!(held >= 2 * objects, dense, "{what}");
            }
        }
    }

    #[test]
    fn changes_of_level_get_as_far_as_their_last_checks() {
        for (objects, dense) in PREPARED {
            let load = drawn("change level", change_level, objects, dense);
            let (monitor, all) = replies(&load);
            let replies = &all[all.len() - REQUESTS..];
            let of = |numbers: &[u8]| replies.iter().filter(|reply| numbers.contains(reply)).count();
            let what = format!("{}: {:?}", load.name, [0, 1, 8, 9, 14].map(|number| (number, of(&[number]))));
            // granted, or refused by the last two checks; 14 comes before them
            assert!(3 * of(&[0, 1, 8, 9]) > REQUESTS && 10 * of(&[14]) < REQUESTS, "{what}");
            let often = if dense { of(&[8, 9]) } else { of(&[0]) };
            assert!(20 * often > REQUESTS, "{what}");
            assert_eq!(held(&monitor) >= 2 * objects, dense, "{what}: {} accesses are left", held(&monitor));
        }
    }

    #[test]
    fn every_request_of_the_small_plant_is_inside_its_profile() {
        let load = small_plant();
        let (monitor, replies) = replies(&load);
        assert!(monitor.profile != Profile::WIDEST && !replies.contains(&reply::MALFORMED));
        let granted = replies.iter().filter(|reply| **reply < 2).count();
        assert!(4 * granted > REQUESTS, "{granted} of {REQUESTS} are granted");
        let mut replayed = vec![0xEE; REQUESTS];
        assert_eq!((circmon::replay(&load.table, &load.requests, &mut replayed), replayed), (0, replies));
    }

    #[test]
    fn the_load_of_seed_1_is_that_of_the_second_implementation_and_gets_these_replies() {
        let load = from_seed(1);
        let mut requests = vec![0; load.requests.len()];
        assert_eq!(reference::write_load(1, &mut requests), (0, REQUESTS));
        assert_eq!(load.requests, requests);
        let (monitor, replies) = replies(&load);
        assert!(monitor.subjects.iter().all(Option::is_some));
        let mut met = replies.clone();
        met.sort_unstable();
        met.dedup();
        assert_eq!(met, [0, 1, 4, 5, 6, 7, 8, 9, 14]);
        // every field is drawn, so most actors have no right to what they ask for, and one request in six is granted
        let of = |numbers: &[u8]| replies.iter().filter(|reply| numbers.contains(reply)).count();
        assert!(2 * of(&[6]) > REQUESTS && (REQUESTS / 7..REQUESTS / 5).contains(&of(&[0, 1])), "{}", of(&[0, 1]));
    }
}
