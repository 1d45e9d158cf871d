//! Start order over small states: every list of up to three gets, with all its orders carried out by both implementations.

use circmon::StartOrder;
use reference::{orders, reply, Companies, Get, Kind, Level, Mode, Monitor, Request};
use sidebyside::orders::Met;
use sidebyside::start_order::{after_order, agree, answer, bytes, LISTS_MET, WALL_LISTS_MET};
use sidebyside::{image, Both};

const LOW: Option<Level> = level(0, 0);
const MIDDLE: Option<Level> = level(1, 1);
/// neither this nor the one before dominates the other
const APART: Option<Level> = level(1, 2);
const HIGH: Option<Level> = level(2, 3);

const fn level(class: u8, needs: u16) -> Option<Level> {
    Some(Level { class, needs })
}

/// The labels of three objects: of two of them equal, above, below, apart, and absent.
const LABELS: [[Option<Level>; 3]; 10] = [
    [MIDDLE, MIDDLE, MIDDLE],
    [MIDDLE, MIDDLE, HIGH],
    [LOW, MIDDLE, HIGH],
    [HIGH, LOW, LOW],
    [MIDDLE, APART, HIGH],
    [MIDDLE, APART, LOW],
    [LOW, MIDDLE, None],
    [APART, HIGH, None],
    [MIDDLE, None, None],
    // above by the class alone, and by a need alone
    [MIDDLE, level(2, 1), level(1, 3)],
];

const fn get(actor: usize, object: usize, mode: Mode) -> Get {
    Get { actor, object, mode }
}

const NONE: Companies = [0; 4];
const A: Companies = [1, 0, 0, 0];
const B: Companies = [2, 0, 0, 0];
/// with the company A and one of another class
const WITH_A: Companies = [1, 0, 0, 7];

/// The companies of three objects with one label: the same, competing ones, none, and more of them.
const COMPANIES: [[Companies; 3]; 6] =
    [[A, A, B], [A, B, NONE], [NONE, A, WITH_A], [A, NONE, NONE], [WITH_A, [0, 7, 0, 0], B], [[0, 0, 0, 7], A, B]];

/// What is held before the list comes.
const HELD: [&[Get]; 4] = [
    &[],
    &[get(0, 0, Mode::Read), get(1, 0, Mode::Append)],
    &[get(0, 1, Mode::Append), get(0, 0, Mode::Execute)],
    &[get(0, 0, Mode::Write)],
];

/// Subject 0 is cleared for every label, owns the objects and has every right. Subject 1 is cleared for the low and the middle
/// label and has the rights r, w and a. Subject 2 is not enrolled. Nothing where an access to be held is refused.
fn state(labels: &[Option<Level>], companies: [Companies; 3], held: &[Get]) -> Option<Both> {
    let mut monitor = Monitor::empty();
    (monitor.subjects[0], monitor.subjects[1]) = (HIGH, MIDDLE);
    let mut monitor = Monitor::from_table(&monitor.table()).expect("a table that was written");
    let mut granted = |object: usize, kind: Kind| {
        assert_eq!(monitor.step(Request { actor: 0, object, kind }), reply::CHANGED, "{kind:?} of o{object}");
    };
    for (object, label) in labels.iter().enumerate() {
        granted(object, Kind::Create { execute: true, parent: None });
        label.iter().for_each(|level| granted(object, Kind::ChangeLevel(*level)));
        for mode in [Mode::Read, Mode::Write, Mode::Append] {
            granted(object, Kind::Give(1, mode));
        }
        if companies[object] != NONE {
            granted(object, Kind::SetCompanies(companies[object]));
        }
    }
    let refused = held.iter().any(|get| monitor.request(&get.encode()) != reply::CHANGED);
    (!refused).then(|| Both::new(monitor))
}

/// Every get of so many subjects on so many objects.
fn gets(subjects: usize, objects: usize) -> Vec<Get> {
    let of = |actor| (0..objects).flat_map(move |object| Mode::ALL.map(|mode| get(actor, object, mode)));
    (0..subjects).flat_map(of).collect()
}

/// Every list of at most three of the gets.
fn lists(gets: &[Get]) -> Vec<Vec<Get>> {
    let mut lists: Vec<Vec<Get>> = vec![Vec::new()];
    let mut longest = lists.clone();
    for _ in 0..3 {
        longest = longest.iter().flat_map(|list| gets.iter().map(|get| [&list[..], &[*get]].concat())).collect();
        lists.extend(longest.iter().cloned());
    }
    lists
}

/// The answer of both for each list, and all orders of each: they leave equal states exactly where the answer says so. The two
/// gets that it names leave different states where the one or the other is the first.
fn check(both: &Both, lists: &[Vec<Get>], met: &mut Met) {
    let all: Vec<Vec<Vec<usize>>> = (0..=3).map(orders).collect();
    for list in lists {
        let answer = answer(both, &bytes(list));
        let equal = agree(both, list, &all[list.len()]);
        assert_eq!(answer == StartOrder::Agree, equal, "{list:?}: {answer:?}");
        if let StartOrder::Clash { first, second } = answer {
            assert!(first < second && second < list.len(), "{list:?}: {answer:?}");
            assert!(!agree(both, &[list[first], list[second]], &all[2]), "{list:?}: {answer:?}");
        }
        met.note(format!("lists of {}", list.len()));
        met.note_list(&both.monitor, list, answer);
    }
}

/// What every list over the states meets; only gets of which the star property says something stand in a clash.
fn check_met(met: &Met) {
    met.check(300, &LISTS_MET);
    for not_asked in ["r and r", "a and a", "e and r", "r and e", "e and w", "w and e", "e and a", "a and e", "e and e"]
    {
        assert_eq!(met.of(&format!("clash of {not_asked}")), 0, "{met:#?}");
    }
}

#[test]
fn every_list_of_up_to_three_gets_of_two_subjects_on_three_objects() {
    let (mut met, mut states) = (Met::default(), 0);
    let lists = lists(&gets(2, 3));
    assert_eq!(lists.len(), 1 + 24 + 24 * 24 + 24 * 24 * 24);
    for labels in LABELS {
        for both in HELD.iter().filter_map(|held| state(&labels, [NONE; 3], held)) {
            check(&both, &lists, &mut met);
            states += 1;
        }
    }
    assert_eq!(met.of("lists of 3"), states * 24 * 24 * 24);
    assert!(states >= 30, "{states}");
    check_met(&met);
    println!("{states} states, {} lists in each: {met:#?}", lists.len());
}

#[test]
fn every_list_of_up_to_three_gets_on_objects_with_companies() {
    let (mut met, mut states) = (Met::default(), 0);
    let lists = lists(&gets(2, 3));
    for companies in COMPANIES {
        for both in HELD.iter().filter_map(|held| state(&[MIDDLE; 3], companies, held)) {
            check(&both, &lists, &mut met);
            states += 1;
        }
    }
    println!("{states} states, {} lists in each: {met:#?}", lists.len());
    assert!(states >= 15, "{states}");
    met.check(300, &WALL_LISTS_MET);
    assert_eq!(met.of("clash by star alone") + met.of("clash by star and wall"), 0, "all labels are alike: {met:#?}");
}

#[test]
fn every_list_of_up_to_three_gets_with_a_subject_that_is_absent_and_an_object_that_is_not_live() {
    let mut met = Met::default();
    let lists = lists(&gets(3, 3));
    assert_eq!(lists.len(), 1 + 36 + 36 * 36 + 36 * 36 * 36);
    for labels in [[HIGH, LOW], [MIDDLE, APART], [MIDDLE, MIDDLE]] {
        check(&state(&labels, [NONE; 3], &[]).expect("nothing is held"), &lists, &mut met);
    }
    met.check(
        900,
        &["agree", "clash at 0 and 1", "clash at later places", "refused alone with 3", "refused alone with 4"],
    );
    println!("3 states, {} lists in each: {met:#?}", lists.len());
}

#[test]
fn images_after_the_orders_of_two_gets() {
    let lists = lists(&gets(2, 3)).into_iter().filter(|list| list.len() == 2);
    let both = state(&[HIGH, LOW, MIDDLE], [NONE; 3], HELD[0]).expect("nothing is held");
    let (mut equal, mut different) = (0, 0);
    for list in lists {
        let [one, other] = [[0, 1], [1, 0]].map(|order| after_order(&both, &list, &order));
        for it in [&one, &other] {
            assert_eq!(it.unit.image()[..], image(&it.monitor)[..], "{list:?}");
        }
        let same = one.unit.image() == other.unit.image();
        assert_eq!(both.unit.clash(&bytes(&list)) == StartOrder::Agree, same, "{list:?}");
        *(if same { &mut equal } else { &mut different }) += 1;
    }
    assert!(equal > 400 && different > 20, "{equal} equal, {different} different");
}
