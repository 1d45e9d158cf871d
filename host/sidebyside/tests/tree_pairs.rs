//! Images that differ in a parent are told apart by deletions and creations alone, at most two, whatever else differs; equal images by
//! nothing.

use load::Random;
use reference::{Kind, Monitor, Profile, Request, OBJECTS};
use sidebyside::orders::Met;
use sidebyside::telling::{replies, tells, told_in};
use sidebyside::tree::{chain, live};
use sidebyside::{image, profiles, Both};

/// A state that a run reaches, under the widest profile or under a drawn one.
fn reached(random: &mut Random) -> Monitor {
    if random.once_in(2) {
        let profile = profiles::drawn(random);
        return profiles::reached(random, profile, 300);
    }
    sidebyside::reached(random, 300)
}

/// The state with other parents for some objects, or for all of them, where it is accepted and another one.
fn other_parents(random: &mut Random, monitor: &Monitor) -> Option<Monitor> {
    let objects: Vec<usize> = (0..OBJECTS).filter(|&object| live(monitor, object).is_some()).collect();
    let mut other = monitor.clone();
    match random.below(4) {
        // the ends of a chain exchanged: each object of it may have another parent
        0 => {
            let start = *objects.get(random.below(objects.len().max(1)))?;
            let mut turned = chain(monitor, start)?;
            turned.reverse();
            for (at, object) in turned.iter().enumerate() {
                other.objects[*object].as_mut()?.parent = turned.get(at + 1).copied();
            }
        }
        way => {
            for _ in 0..[1, 1, 3, 20][way] {
                let object = *objects.get(random.below(objects.len().max(1)))?;
                other.objects[object].as_mut()?.parent = objects.get(random.below(objects.len() + 1)).copied();
            }
        }
    }
    (other.fault().is_none() && other != *monitor).then_some(other)
}

/// Something else changed too: a right, a label, companies, an owner, a clearance, or who is enrolled.
fn and_more(random: &mut Random, state: &Monitor) -> Option<Monitor> {
    let mut other = state.clone();
    let objects: Vec<usize> = (0..OBJECTS).filter(|&object| live(state, object).is_some()).collect();
    let object = other.objects[*objects.get(random.below(objects.len().max(1)))?].as_mut()?;
    let subject = random.below(usize::from(state.profile.subjects));
    match random.below(6) {
        0 => object.rights[object.owner] ^= random.mode().bit() & !object.held[object.owner],
        1 => object.label = None,
        2 => object.companies[0] = random.below(16) as u8,
        3 => object.owner = subject,
        4 => other.subjects[subject] = state.subjects[subject].map(|_| profiles::top(state.profile)),
        _ => other.subjects[subject] = state.subjects[subject].is_none().then(|| profiles::top(state.profile)),
    }
    (other.fault().is_none() && other != *state).then_some(other)
}

fn is_delete_or_create(request: &Request) -> bool {
    matches!(request.kind, Kind::Delete | Kind::Create { parent: None, .. })
}

/// At most two deletions and creations, to which the two reply differently, both implementations alike.
fn told_by_parents(a: &Monitor, b: &Monitor, what: &str, met: &mut Met) {
    let list = told_in(a, b, what);
    assert!((1..=2).contains(&list.len()) && list.iter().all(is_delete_or_create), "{what}: {list:?}");
    let (here, there) = (replies(a, &list), replies(b, &list));
    assert_ne!(here, there, "{what}: {list:?}");
    for (monitor, expected) in [(a, &here), (b, &there)] {
        let mut both = Both::new(monitor.clone());
        let found: Vec<u8> = list.iter().map(|request| both.request(&request.encode())).collect();
        assert_eq!(found, *expected, "{what}: {list:?}");
    }
    met.note(format!("{} requests", list.len()));
    met.note(format!("{here:?} and {there:?}"));
}

#[test]
fn pairs_that_differ_in_a_parent() {
    let mut met = Met::default();
    for seed in 0..3000 {
        let random = &mut Random::new(seed);
        let monitor = reached(random);
        for round in 0..8 {
            let what = format!("seed {seed}, round {round}");
            let Some(other) = other_parents(random, &monitor) else { continue };
            told_by_parents(&monitor, &other, &what, &mut met);
            told_by_parents(&other, &monitor, &what, &mut met);
            assert!(told_in(&other, &other, &what).is_empty(), "{what}: equal images");
            met.note("a pair that differs in parents alone");
            if let Some(more) = and_more(random, &other) {
                told_by_parents(&monitor, &more, &what, &mut met);
                told_by_parents(&more, &monitor, &what, &mut met);
                met.note("a pair that differs in more");
            }
            if monitor.profile == Profile::WIDEST {
                assert!(tells(&image(&monitor), &image(&other), &what) <= 2, "{what}");
                met.note("under the widest profile");
            }
        }
    }
    println!("{met:#?}");
    met.check(
        2000,
        &["a pair that differs in parents alone", "a pair that differs in more", "under the widest profile"],
    );
}

/// The numbers in the parent bits, 0 where an object is not live.
fn parents(monitor: &Monitor) -> Vec<usize> {
    (0..OBJECTS).map(|object| live(monitor, object).and_then(|it| it.parent).map_or(0, |parent| parent + 1)).collect()
}

/// Any two states of one profile: who is enrolled, what is live and who owns it may differ too.
#[test]
fn strangers_that_differ_in_a_parent() {
    let mut met = Met::default();
    for seed in 0..4000 {
        let random = &mut Random::new(seed ^ 0x57A6);
        let profile = if seed % 2 == 0 { Profile::WIDEST } else { profiles::drawn(random) };
        let (a, b) = (profiles::reached(random, profile, 150), profiles::reached(random, profile, 150));
        let what = format!("seed {seed}");
        if parents(&a) == parents(&b) {
            met.note("the same parents");
            continue;
        }
        told_by_parents(&a, &b, &what, &mut met);
        let enrolled = |monitor: &Monitor| monitor.subjects.map(|it| it.is_some());
        met.note(if enrolled(&a) == enrolled(&b) { "the same are enrolled" } else { "others are enrolled" });
    }
    println!("{met:#?}");
    met.check(100, &["the same parents", "others are enrolled", "the same are enrolled"]);
}

/// Two chains of the same three objects at the places of a longer one, each order of the three under each other one.
#[test]
fn each_two_orders_of_a_chain() {
    let orders = [[0, 1, 2], [0, 2, 1], [1, 0, 2], [1, 2, 0], [2, 0, 1], [2, 1, 0]];
    let mut met = Met::default();
    let state = |order: [usize; 3], places: [usize; 3]| {
        let mut monitor = Monitor::empty();
        monitor.subjects[5] = Some(reference::Level { class: 0, needs: 0 });
        for (at, slot) in order.iter().map(|&it| places[it]).enumerate() {
            let parent = at.checked_sub(1).map(|above| places[order[above]]);
            monitor.objects[slot] = Some(reference::Object { parent, ..reference::Object::new(5) });
        }
        monitor
    };
    for places in [[0, 1, 2], [3, 40, 63], [61, 62, 63], [63, 0, 31]] {
        for (one, other) in orders.iter().flat_map(|one| orders.map(|other| (*one, other))) {
            let (a, b) = (state(one, places), state(other, places));
            let what = format!("{one:?} and {other:?} at {places:?}");
            if one == other {
                assert!(told_in(&a, &b, &what).is_empty(), "{what}");
            } else {
                told_by_parents(&a, &b, &what, &mut met);
            }
        }
    }
    met.check(100, &["2 requests"]);
}
