//! Lists of gives and releases over small states: every list of up to three, with all its orders carried out by both
//! implementations. And lists with requests of the other kinds among them, for which the law need not hold: there the tests
//! must find both outcomes.

use reference::{orders, reply, Kind, Level, Mode, Monitor, Request};
use sidebyside::orders::Met;
use sidebyside::rights_lists::{check, check_again, check_images, Carried, RIGHTS_LISTS_MET};
use sidebyside::Both;

const LOW: Level = Level { class: 0, needs: 0 };
const HIGH: Level = Level { class: 2, needs: 1 };
const WITH_E: Kind = Kind::Create { execute: true, parent: None };
const WITHOUT_E: Kind = Kind::Create { execute: false, parent: None };

/// What subject 0, who owns object 0, has done to it.
const FIRST: [&[Kind]; 4] = [
    // it has every right
    &[WITH_E, Kind::ChangeLevel(LOW)],
    // it has no e
    &[WITHOUT_E, Kind::ChangeLevel(LOW)],
    // it took r from itself, which subject 1 has
    &[WITH_E, Kind::ChangeLevel(LOW), Kind::Give(1, Mode::Read), Kind::Rescind(0, Mode::Read)],
    // no label
    &[WITH_E],
];

/// What somebody has done to object 1.
const SECOND: [(usize, &[Kind]); 3] = [
    // it is not live
    (0, &[]),
    // subject 1 owns it and took e from itself
    (1, &[WITH_E, Kind::ChangeLevel(HIGH), Kind::Rescind(1, Mode::Execute)]),
    // subject 0 owns it too; it has neither a label nor e
    (0, &[WITHOUT_E]),
];

/// What is asked then, whether it is granted or not: rights that are given, and accesses held.
const THEN: [&[(usize, Kind)]; 3] = [
    &[],
    &[(0, Kind::Give(1, Mode::Read)), (0, Kind::Give(1, Mode::Execute)), (0, Kind::Get(Mode::Write))],
    &[
        (0, Kind::Give(1, Mode::Read)),
        (0, Kind::Give(1, Mode::Append)),
        (0, Kind::Get(Mode::Read)),
        (0, Kind::Get(Mode::Execute)),
        (1, Kind::Get(Mode::Read)),
        (1, Kind::Get(Mode::Append)),
        (1, Kind::Get(Mode::Execute)),
    ],
];

/// Subject 0 is cleared for everything and subject 1 for class 0; subject 2 is not enrolled.
fn state(first: &[Kind], second: (usize, &[Kind]), then: &[(usize, Kind)]) -> Both {
    let mut monitor = Monitor::empty();
    (monitor.subjects[0], monitor.subjects[1]) = (Some(HIGH), Some(LOW));
    let mut monitor = Monitor::from_table(&monitor.table()).expect("a table that was written");
    for (actor, object, kinds) in [(0, 0, first), (second.0, 1, second.1)] {
        for &kind in kinds {
            assert_eq!(monitor.step(Request { actor, object, kind }), reply::CHANGED, "{kind:?} of o{object}");
        }
    }
    for (object, &(actor, kind)) in (0..2).flat_map(|object| then.iter().map(move |it| (object, it))) {
        monitor.step(Request { actor, object, kind });
    }
    Both::new(monitor)
}

fn states() -> Vec<Both> {
    let mut states = Vec::new();
    for (first, second) in FIRST.iter().flat_map(|first| SECOND.map(|second| (first, second))) {
        states.extend(THEN.iter().map(|then| state(first, second, then)));
    }
    states
}

fn bytes(actor: usize, object: usize, kind: Kind) -> Vec<u8> {
    Request { actor, object, kind }.encode().to_vec()
}

/// Every request of so many subjects on so many objects that is of one of these kinds.
fn requests(subjects: usize, objects: usize, kinds: &[Kind]) -> Vec<Vec<u8>> {
    let of = |actor| (0..objects).flat_map(move |object| kinds.iter().map(move |kind| bytes(actor, object, *kind)));
    (0..subjects).flat_map(of).collect()
}

/// Gives of these modes to so many subjects, and releases of the modes.
fn gives_and_releases(subjects: usize, modes: &[Mode]) -> Vec<Kind> {
    let gives = modes.iter().flat_map(|mode| (0..subjects).map(move |other| Kind::Give(other, *mode)));
    gives.chain(modes.iter().map(|mode| Kind::Release(*mode))).collect()
}

/// Every list of at most three of the requests, in one order each: every other list of the same ones is an order of it.
fn lists(requests: &[Vec<u8>]) -> Vec<Vec<Vec<u8>>> {
    let mut lists: Vec<Vec<usize>> = vec![Vec::new()];
    let mut longest = lists.clone();
    for _ in 0..3 {
        let behind = |list: &Vec<usize>| list.last().copied().unwrap_or(0)..requests.len();
        longest = longest.iter().flat_map(|list| behind(list).map(|next| [&list[..], &[next]].concat())).collect();
        lists.extend(longest.iter().cloned());
    }
    lists.into_iter().map(|list| list.into_iter().map(|at| requests[at].clone()).collect()).collect()
}

/// Every list, with all its orders, on every state.
fn check_all(states: &[Both], lists: &[Vec<Vec<u8>>]) -> Met {
    let all: Vec<Vec<Vec<usize>>> = (0..=3).map(orders).collect();
    let mut met = Met::default();
    for (both, list) in states.iter().flat_map(|both| lists.iter().map(move |list| (both, list))) {
        let carried = check(both, list, &all[list.len()]);
        met.note_rights_list(&both.monitor, list, &carried);
        if list.len() < 3 {
            check_images(&carried);
            check_again(&carried, list, &all[list.len()][list.len().saturating_sub(1)]);
        }
    }
    println!("{} states, {} lists in each: {met:#?}", states.len(), lists.len());
    met
}

#[test]
fn every_list_of_up_to_three_gives_and_releases_of_two_subjects_on_two_objects() {
    let mut requests = requests(2, 2, &gives_and_releases(2, &[Mode::Read, Mode::Execute]));
    assert_eq!(requests.len(), 24);
    // a release that names another subject, which it does not use, and a short one
    requests.extend([vec![0x20, 0x04, 0x01, 0, 0, 0], vec![0x20, 0x00]]);
    let lists = lists(&requests);
    assert_eq!(lists.len(), 1 + 26 + 26 * 27 / 2 + 26 * 27 * 28 / 6);
    let met = check_all(&states(), &lists);
    met.check(300, &RIGHTS_LISTS_MET);
    met.check(
        300,
        &["lists: gives and releases, malformed ones among them", "copies of a malformed byte string: refused"],
    );
}

#[test]
fn every_list_of_up_to_three_gives_and_releases_of_every_mode_on_one_object() {
    let requests = requests(2, 1, &gives_and_releases(2, &Mode::ALL));
    assert_eq!(requests.len(), 24);
    // both subjects are enrolled and the object is live: no release is refused
    let not_met = ["give: 4", "release: 4", "copies of a release: refused"];
    let met = check_all(&states(), &lists(&requests));
    met.check(300, &RIGHTS_LISTS_MET.into_iter().filter(|what| !not_met.contains(what)).collect::<Vec<_>>());
    assert!(not_met.iter().all(|what| met.of(what) == 0), "{met:#?}");
}

#[test]
fn every_list_of_up_to_three_gives_and_releases_with_a_subject_that_is_absent() {
    let requests = requests(3, 2, &gives_and_releases(3, &[Mode::Read]));
    assert_eq!(requests.len(), 24);
    let met = check_all(&states(), &lists(&requests));
    met.check(300, &RIGHTS_LISTS_MET);
    met.check(300, &["give: 3", "release: 3"]);
}

/// The requests of the other kinds, by a name.
fn others() -> [(&'static str, Vec<Kind>); 5] {
    let modes = [Mode::Read, Mode::Execute];
    [
        ("get", modes.map(Kind::Get).to_vec()),
        ("rescind", modes.iter().flat_map(|mode| [0, 1].map(|other| Kind::Rescind(other, *mode))).collect()),
        ("create", vec![WITH_E, WITHOUT_E]),
        ("delete", vec![Kind::Delete]),
        ("change of level", vec![Kind::ChangeLevel(LOW), Kind::ChangeLevel(HIGH)]),
    ]
}

/// Whether two requests leave equal states in both orders, and are granted alike.
fn outcome(both: &Both, two: &[Vec<u8>]) -> (bool, bool) {
    let carried = Carried::new(both, two, &orders(2));
    (carried.leave_equal_states(), carried.grant_the_same() && carried.treat_copies_alike(two))
}

#[test]
fn with_a_request_of_another_kind_two_orders_may_differ() {
    let covered = requests(2, 2, &gives_and_releases(2, &[Mode::Read, Mode::Execute]));
    let mut met = Met::default();
    for (name, kinds) in others() {
        let others = requests(2, 2, &kinds);
        for (both, other) in states().iter().flat_map(|both| others.iter().map(move |other| (both, other))) {
            for one in covered.iter().chain(&others) {
                let (states, grants) = outcome(both, &[one.clone(), other.clone()]);
                met.note(format!("{name}: states {}", if states { "equal" } else { "different" }));
                met.note(format!("{name}: grants {}", if grants { "equal" } else { "different" }));
            }
        }
    }
    println!("{met:#?}");
    // of what was given or released before a delete nothing is left: there only grants differ
    assert_eq!(met.of("delete: states different"), 0);
    for (name, _) in others() {
        let found = ["states equal", "states different", "grants equal", "grants different"];
        let found = found.map(|what| format!("{name}: {what}"));
        let found = found.iter().map(String::as_str).filter(|what| *what != "delete: states different");
        met.check(5, &found.collect::<Vec<_>>());
    }
}

#[test]
fn two_requests_of_which_one_is_of_another_kind_by_name() {
    let both = state(FIRST[0], SECOND[0], THEN[0]);
    let give = bytes(0, 0, Kind::Give(1, Mode::Read));
    for (other, states, grants) in [
        // s1 has the right where the give comes second
        (bytes(0, 0, Kind::Rescind(1, Mode::Read)), false, true),
        // the owner takes r from itself: behind that the give is refused
        (bytes(0, 0, Kind::Rescind(0, Mode::Read)), false, false),
        // s1 reads with the right and not before it has it
        (bytes(1, 0, Kind::Get(Mode::Read)), false, false),
        // the right is gone with the object in both orders, but the give on the deleted object is refused
        (bytes(0, 0, Kind::Delete), true, false),
        // another mode, another object
        (bytes(0, 0, Kind::Rescind(1, Mode::Write)), true, true),
        (bytes(0, 1, WITH_E), true, true),
    ] {
        assert_eq!(outcome(&both, &[give.clone(), other.clone()]), (states, grants), "{other:02x?}");
    }
    let created = bytes(0, 1, WITH_E);
    for (two, states, grants) in [
        // one copy is granted and the other refused
        ([created.clone(), created.clone()], true, false),
        // who comes first owns it
        ([created.clone(), bytes(1, 1, WITH_E)], false, false),
        ([created, bytes(0, 1, Kind::Give(1, Mode::Read))], false, false),
        ([bytes(0, 0, Kind::Get(Mode::Read)), bytes(0, 0, Kind::Release(Mode::Read))], false, true),
    ] {
        assert_eq!(outcome(&both, &two), (states, grants), "{two:02x?}");
    }
}
