//! No lowering: a change of level on a labelled object passes only where the new label dominates the old one. Dominance is
//! the plain one that is asked of neither implementation.

use circmon::{Unit, OBJECTS, SUBJECTS};
use reference::{reply, Kind, Level, Mode, Monitor, Object, Request};
use sidebyside::level::dominates;
use sidebyside::{drawn, image, shape, Both, Count, RUNS, RUN_REQUESTS};

const TOP: Level = Level { class: 15, needs: 0xFFFF };

/// What an owner asks for with a change of level.
#[derive(Clone, Copy, Debug, PartialEq)]
enum Asked {
    First,
    Same,
    Raised,
    Below,
    Apart,
}

const ALL: [Asked; 5] = [Asked::First, Asked::Same, Asked::Raised, Asked::Below, Asked::Apart];

impl Asked {
    /// Nothing where the request is no change of level, or its actor not the owner.
    fn of(before: &Monitor, bytes: &[u8]) -> Option<Asked> {
        let Request { actor, object, kind: Kind::ChangeLevel(new) } = Request::decode(bytes)? else { return None };
        let it = before.objects[object].as_ref().filter(|it| it.owner == actor)?;
        Some(match it.label {
            None => Asked::First,
            Some(old) if old == new => Asked::Same,
            Some(old) if dominates(new, old) => Asked::Raised,
            Some(old) if dominates(old, new) => Asked::Below,
            Some(_) => Asked::Apart,
        })
    }

    /// In a secure state nobody reads or writes what has no label, and the label that is there breaks nothing: only a raise
    /// may be refused with 8 or 9, where somebody holds something. A first label or a raise may break the rule of parent and child.
    fn replies(self) -> &'static [u8] {
        match self {
            Asked::First => &[reply::CHANGED, reply::PARENT_LABEL],
            Asked::Same => &[reply::ALREADY],
            Asked::Raised => &[reply::CHANGED, reply::SIMPLE, reply::STAR, reply::PARENT_LABEL],
            Asked::Below | Asked::Apart => &[reply::LOWERED],
        }
    }
}

/// Classes 0 to 3 with every set of needs 0 to 2, and the corners of all levels.
fn grid() -> Vec<Level> {
    let low = (0..=3).flat_map(|class| (0..8).map(move |needs| Level { class, needs }));
    let corners = [(0, 0xFFFF), (15, 0), (15, 0xFFFF)].map(|(class, needs)| Level { class, needs });
    low.chain(corners).collect()
}

fn change(actor: usize, object: usize, level: Level) -> [u8; 6] {
    Request { actor, object, kind: Kind::ChangeLevel(level) }.encode()
}

/// Everyone is enrolled at the top, and one object, on which nobody holds anything, has this label or none.
fn with_label(owner: usize, object: usize, label: Option<Level>) -> Monitor {
    let mut monitor = Monitor::begin([Some(TOP); SUBJECTS]);
    monitor.objects[object] = Some(Object { label, ..Object::new(owner) });
    monitor
}

fn label(monitor: &Monitor, object: usize) -> Option<Level> {
    monitor.objects[object].as_ref().and_then(|it| it.label)
}

#[test]
fn every_pair_of_an_old_label_or_none_and_a_new_level() {
    let old_labels: Vec<Option<Level>> = [None].into_iter().chain(grid().into_iter().map(Some)).collect();
    let mut count = Count::default();
    for (at, &old) in old_labels.iter().enumerate() {
        for new in grid() {
            let (owner, object) = (at % SUBJECTS, (at + usize::from(new.class)) % OBJECTS);
            let mut both = Both::new(with_label(owner, object, None));
            assert!(old.is_none_or(|old| both.request(&change(owner, object, old)) == 0), "a first label is free");
            let asked = Asked::of(&both.monitor, &change(owner, object, new)).expect("the owner asks");
            // what is not granted leaves every byte, which `Both` looks at
            let reply = both.request(&change(owner, object, new));
            assert_eq!(reply, asked.replies()[0], "{old:?} to {new:?}, where nobody holds anything: {asked:?}");
            assert_eq!(label(&both.monitor, object), if reply == 14 { old } else { Some(new) }, "{old:?} to {new:?}");
            count.note(asked as u8);
        }
    }
    let levels = grid().len();
    assert_eq!(
        (count.all(), count.of(Asked::First as u8), count.of(Asked::Same as u8)),
        (levels * (levels + 1), levels, levels)
    );
    assert!([Asked::Raised, Asked::Below, Asked::Apart].iter().all(|&it| count.of(it as u8) > 200), "{count:?}");
}

/// Subject 1, with class 3 and needs {0,1}, owns o0 at class 1 with need 0 and o1 at class 2 with need 0, reads the one and
/// appends to the other. Subject 2 is enrolled, subject 3 is not.
fn read_and_appended() -> Both {
    let mut monitor = Monitor::empty();
    (monitor.subjects[1], monitor.subjects[2]) = (Some(Level { class: 3, needs: 3 }), Some(TOP));
    for (object, class, mode) in [(0, 1, Mode::Read), (1, 2, Mode::Append)] {
        let mut it = Object { label: Some(Level { class, needs: 1 }), ..Object::new(1) };
        (it.rights[1], it.held[1]) = (mode.bit(), mode.bit());
        monitor.objects[object] = Some(it);
    }
    Both::new(monitor)
}

#[test]
fn check_14_stands_after_6_and_before_8() {
    let both = &mut read_and_appended();
    for (actor, object, class, needs, expected) in [
        // refused before 14 is asked
        (3, 0, 0, 0, reply::NOT_ENROLLED),
        (1, 2, 0, 0, reply::NOT_LIVE),
        (2, 0, 0, 0, reply::NO_RIGHT),
        (2, 0, 3, 2, reply::NO_RIGHT),
        // lowered: what s1 reads would then have need 2, which it has not
        (1, 0, 0, 5, reply::LOWERED),
        (1, 0, 3, 4, reply::LOWERED),
        // lowered: s1 would append to what does not dominate what it reads
        (1, 1, 0, 0, reply::LOWERED),
        (1, 1, 15, 2, reply::LOWERED),
        // lowered and nothing else
        (1, 0, 0, 1, reply::LOWERED),
        // raised, for which 8 and 9 are asked
        (1, 0, 1, 5, reply::SIMPLE),
        (1, 0, 15, 1, reply::SIMPLE),
        (1, 0, 3, 1, reply::STAR),
        (1, 0, 1, 3, reply::STAR),
        (1, 0, 2, 1, reply::CHANGED),
        (1, 0, 2, 1, reply::ALREADY),
        (1, 0, 1, 1, reply::LOWERED),
        (1, 1, 15, 0xFFFF, reply::CHANGED),
    ] {
        let level = Level { class, needs };
        assert_eq!(both.request(&change(actor, object, level)), expected, "s{actor}, o{object}, {level:?}");
    }
}

#[test]
fn an_image_is_accepted_with_any_label_whatever_the_label_was_before() {
    for (old, new) in grid().into_iter().flat_map(|old| grid().into_iter().map(move |new| (old, new))) {
        let mut unit = Unit::from_image(&image(&with_label(4, 9, Some(old)))).unwrap();
        let bytes = image(&with_label(4, 9, Some(new)));
        assert_eq!((unit.open(&bytes), circmon::read(&bytes)), (0, 0), "{old:?} to {new:?}");
        assert_eq!(unit.image()[..], bytes, "{old:?} to {new:?}");
        assert_eq!(Monitor::from_image(&bytes), Ok(with_label(4, 9, Some(new))), "{old:?} to {new:?}");
    }
}

/// The labels of a run.
struct Labels {
    /// those that the object in each slot has had since it was created
    earlier: [Vec<Level>; OBJECTS],
    /// the last one of the object that was in the slot before
    of_the_last: [Option<Level>; OBJECTS],
}

impl Labels {
    fn new() -> Labels {
        Labels { earlier: std::array::from_fn(|_| Vec::new()), of_the_last: [None; OBJECTS] }
    }

    /// While an object stays live, its label dominates each that it had. Returns how many first labels are below the last one of
    /// the object that was in the slot before and was deleted.
    fn follow(&mut self, after: &Monitor, place: &str) -> usize {
        let mut lower_again = 0;
        for (slot, object) in after.objects.iter().enumerate() {
            let earlier = &mut self.earlier[slot];
            let Some(object) = object else {
                self.of_the_last[slot] = earlier.last().copied().or(self.of_the_last[slot]);
                earlier.clear();
                continue;
            };
            if object.label == earlier.last().copied() {
                continue;
            }
            let label = object.label.unwrap_or_else(|| panic!("{place}: o{slot} has lost its label"));
            assert!(earlier.iter().all(|old| dominates(label, *old)), "{place}: o{slot}, {earlier:?}, then {label:?}");
            let lower = |last: Level| dominates(last, label) && last != label;
            lower_again += usize::from(earlier.is_empty() && self.of_the_last[slot].is_some_and(lower));
            earlier.push(label);
        }
        lower_again
    }
}

#[test]
fn no_label_falls_in_a_million_requests_while_its_object_stays_live() {
    let (mut requests, mut changes, mut raised, mut lower_again) = (0, Count::default(), 0, 0);
    for seed in 0..RUNS {
        let (table, list) = drawn(seed, shape(seed), RUN_REQUESTS);
        let mut both = Both::new(Monitor::from_table(&table).unwrap());
        let mut labels = Labels::new();
        for (at, bytes) in list.iter().enumerate() {
            let place = format!("seed {seed}, request {at}");
            let asked = Asked::of(&both.monitor, bytes);
            let reply = both.request(bytes);
            let allowed = asked.map_or(reply != reply::LOWERED, |it| it.replies().contains(&reply));
            assert!(allowed, "{place}: {asked:?} gets {reply}");
            asked.into_iter().for_each(|it| changes.note(it as u8));
            raised += usize::from(asked == Some(Asked::Raised) && reply == 0);
            if reply == 0 {
                lower_again += labels.follow(&both.monitor, &place);
            }
            requests += 1;
        }
    }
    assert!(requests >= 1_000_000);
    assert!(ALL.iter().all(|&asked| changes.of(asked as u8) > 2000), "{changes:?}");
    assert!(raised > 2000, "{raised} labels were raised");
    assert!(lower_again > 2000, "{lower_again} slots got a lower first label than the object before had");
}
