//! Parents at their edges, given to both implementations: every number in the field of a create, every profile's border, chains of
//! all 64 objects deleted at each place, many children, the order of the checks.

use reference::{reply, Kind, Level, Mode, Monitor, Object, Profile, Request, OBJECTS, SUBJECTS};
use sidebyside::profiles::{self, LEAST};
use sidebyside::{image, rows, Both};

const LOW: Level = Level { class: 1, needs: 0 };
const HIGH: Level = Level { class: 2, needs: 0b11 };
const TOP: Level = Level { class: 15, needs: 0xFFFF };

/// Every subject but 3 is enrolled at the top.
fn begun(profile: Profile) -> Both {
    let mut monitor = Monitor::begin_in(profile, [None; SUBJECTS]);
    for subject in (0..usize::from(profile.subjects)).filter(|&subject| subject != 3) {
        monitor.subjects[subject] = Some(profiles::top(profile));
    }
    Both::new(monitor)
}

fn asked(both: &mut Both, actor: usize, object: usize, kind: Kind) -> u8 {
    both.request(&Request { actor, object, kind }.encode())
}

fn under(parent: usize) -> Kind {
    Kind::Create { execute: false, parent: Some(parent) }
}

const ALONE: Kind = Kind::Create { execute: false, parent: None };

/// Six bytes with these fields: kind, actor, other, object, mode, class, needs, spare.
fn packed(fields: [u64; 8]) -> [u8; 6] {
    let widths = [4, 5, 5, 7, 3, 4, 16, 4];
    let word = fields.iter().zip(widths).fold(0, |word, (field, width)| word << width | field);
    word.to_be_bytes()[2..].try_into().expect("six bytes")
}

fn live(both: &Both) -> Vec<usize> {
    (0..OBJECTS).filter(|&object| both.monitor.objects[object].is_some()).collect()
}

#[test]
fn every_number_in_the_field_of_the_parent() {
    let mut both = begun(Profile::WIDEST);
    for object in 0..40 {
        assert_eq!(asked(&mut both, 0, object, ALONE), 0);
    }
    let (mut granted, mut not_live, mut malformed) = (0, 0, 0);
    for needs in 0..=u64::from(u16::MAX) {
        let bytes = packed([5, 1, 0, 63, 4, 0, needs, 0]);
        let mut one = both.clone();
        let (expected, count) = match needs {
            0..=40 => (reply::CHANGED, &mut granted),
            41..=64 => (reply::PARENT, &mut not_live),
            _ => (reply::MALFORMED, &mut malformed),
        };
        // a byte for the number plus one in the rest of the record
        assert_eq!(one.unit.ask(&bytes), expected, "{needs}");
        assert_eq!(one.monitor.request(&bytes), expected, "{needs}");
        let parent = if expected == 0 { needs as u8 } else { 0 };
        assert_eq!(one.unit.rows()[rows::REST + 63][8], parent, "{needs}");
        *count += 1;
    }
    assert_eq!((granted, not_live, malformed), (41, 24, 65_536 - 65));
    for (field, number) in [(2, 1), (5, 1), (7, 1), (4, 1), (4, 5)] {
        let mut fields = [5, 1, 0, 63, 4, 0, 1, 0];
        fields[field] = number;
        assert_eq!(both.request(&packed(fields)), reply::MALFORMED, "field {field} is {number}");
    }
}

#[test]
fn the_border_of_every_profile() {
    for objects in 1..=64 {
        for needs in [0, 0x0001, 0x0100, 0xFFFF] {
            let profile = Profile { subjects: 2, objects, highest_class: 3, needs };
            let last = usize::from(objects) - 1;
            let mut both = begun(profile);
            assert_eq!(asked(&mut both, 0, 0, ALONE), 0);
            for parent in 0..OBJECTS {
                // o0 is live, and so there where it is the last one too
                let expected = match parent {
                    _ if parent > last => reply::MALFORMED,
                    _ if last == 0 => reply::LIVE,
                    0 => reply::CHANGED,
                    _ => reply::PARENT,
                };
                let found = both.clone().request(&Request { actor: 1, object: last, kind: under(parent) }.encode());
                assert_eq!(found, expected, "under o{parent}, {profile:?}");
            }
            let beyond = packed([5, 1, 0, u64::from(objects), 0, 0, 1, 0]);
            assert_eq!(both.request(&beyond), reply::MALFORMED, "{profile:?}");
        }
    }
    let mut least = begun(LEAST);
    assert_eq!(asked(&mut least, 0, 0, under(0)), reply::PARENT, "there is one object, and it is not its own parent");
    assert_eq!(asked(&mut least, 0, 0, ALONE), 0);
}

/// All 64 objects, each under the one that stands before it in this order; s1 owns every other one.
fn chain(order: &[usize]) -> Both {
    let mut both = begun(Profile::WIDEST);
    for (at, &object) in order.iter().enumerate() {
        let kind = if at == 0 { ALONE } else { under(order[at - 1]) };
        assert_eq!(asked(&mut both, at % 2, object, kind), 0, "o{object}");
    }
    both
}

/// Orders of all objects: rising, falling, and two that jump.
fn orders() -> [Vec<usize>; 4] {
    let jump = |step: usize| (0..OBJECTS).map(|at| at * step % OBJECTS).collect();
    [(0..OBJECTS).collect(), (0..OBJECTS).rev().collect(), jump(5), jump(27)]
}

#[test]
fn a_chain_of_64_objects_is_deleted_from_each_place_down() {
    for order in orders() {
        let both = chain(&order);
        for (at, &object) in order.iter().enumerate() {
            let mut both = both.clone();
            assert_eq!(asked(&mut both, (at + 1) % 2, object, Kind::Delete), reply::NO_RIGHT, "o{object}");
            let before = both.unit.clone();
            assert_eq!(asked(&mut both, at % 2, object, Kind::Delete), 0, "o{object}");
            let mut left = order[..at].to_vec();
            left.sort_unstable();
            assert_eq!(live(&both), left, "o{object} is deleted");
            let number = both.unit.take_back();
            assert_eq!(number, if at == OBJECTS - 1 { 0 } else { 17 }, "o{object}: the last one took no child");
            assert_eq!(both.unit == before, number == 0, "o{object}");
        }
    }
}

#[test]
fn labels_along_a_chain_of_64_objects() {
    for order in orders() {
        let mut both = chain(&order);
        // a label below comes only once there is one above it
        let last = order[OBJECTS - 1];
        assert_eq!(asked(&mut both, 1, last, Kind::ChangeLevel(TOP)), reply::PARENT_LABEL);
        for (at, &object) in order.iter().enumerate() {
            let class = (at / 4) as u8;
            let needs = (1u32 << (at / 4)) as u16 - 1;
            if class > 0 {
                let lower = Level { class: class - 1, needs };
                // the one above the first of four has that class, and the one above each other has not
                let number = if at % 4 == 0 { 0 } else { reply::PARENT_LABEL };
                assert_eq!(asked(&mut both.clone(), at % 2, object, Kind::ChangeLevel(lower)), number, "o{object}");
            }
            assert_eq!(asked(&mut both, at % 2, object, Kind::ChangeLevel(Level { class, needs })), 0, "o{object}");
        }
        // and each may rise to that of its child, from the end
        for at in (0..OBJECTS - 1).rev() {
            let above = Level { class: 15, needs: 0xFFFF };
            assert_eq!(asked(&mut both, at % 2, order[at], Kind::ChangeLevel(above)), reply::PARENT_LABEL, "{at}");
        }
        for at in (0..OBJECTS).rev() {
            assert_eq!(asked(&mut both, at % 2, order[at], Kind::ChangeLevel(TOP)), 0, "{at}");
        }
        assert_eq!(circmon::read(&image(&both.monitor)), 0);
    }
}

#[test]
fn sixty_three_children_of_one_object() {
    for top in [0, 31, 63] {
        let mut both = begun(Profile::WIDEST);
        assert_eq!(asked(&mut both, 1, top, ALONE), 0);
        for object in (0..OBJECTS).filter(|&object| object != top) {
            let actor = [0, 1, 2, 4][object % 4];
            assert_eq!(asked(&mut both, actor, object, under(top)), 0, "o{object}");
            assert_eq!(asked(&mut both, actor, object, Kind::Give(0, Mode::Read)), u8::from(actor == 0), "o{object}");
        }
        let mut leaf = both.clone();
        assert_eq!(asked(&mut leaf, 1, 1, Kind::Delete), 0);
        assert_eq!(live(&leaf).len(), 63);
        assert_eq!(asked(&mut both, 0, top, Kind::Delete), reply::NO_RIGHT);
        assert_eq!(asked(&mut both, 1, top, Kind::Delete), 0);
        assert_eq!(live(&both), [0; 0]);
        assert!(both.unit == begun(Profile::WIDEST).unit, "nothing is left of the records");
    }
}

#[test]
fn the_order_of_the_checks_of_a_create() {
    let mut both = begun(Profile::WIDEST);
    assert_eq!(asked(&mut both, 0, 1, ALONE), 0);
    assert_eq!(asked(&mut both, 3, 1, under(9)), reply::NOT_ENROLLED);
    assert_eq!(asked(&mut both, 0, 1, under(9)), reply::LIVE);
    assert_eq!(asked(&mut both, 0, 1, under(1)), reply::LIVE, "itself");
    assert_eq!(asked(&mut both, 0, 2, under(9)), reply::PARENT);
    assert_eq!(asked(&mut both, 0, 2, under(2)), reply::PARENT, "itself");
    assert_eq!(asked(&mut both, 5, 2, under(1)), 0, "nobody needs a right on the parent");
    assert_eq!(asked(&mut both, 0, 1, Kind::Delete), 0);
    assert_eq!(asked(&mut both, 5, 2, under(1)), reply::PARENT, "the parent took the child with it");
    assert_eq!(asked(&mut both, 5, 2, ALONE), 0);
    assert_eq!(both.monitor.objects[2].as_ref().unwrap().parent, None);
}

#[test]
fn the_order_of_the_checks_of_a_change_of_level() {
    // o1 under o0, and o2; subject 2, with HIGH, reads o0 and appends to o2
    let mut monitor = begun(Profile::WIDEST).monitor;
    monitor.subjects[2] = Some(HIGH);
    for (slot, parent, modes) in [(0, None, 0b1000), (1, Some(0), 0), (2, None, 0b0010)] {
        let mut it = Object { parent, label: Some(LOW), ..Object::new(0) };
        (it.rights[2], it.held[2]) = (modes, modes);
        monitor.objects[slot] = Some(it);
    }
    let mut both = Both::new(monitor);
    let to = |class, needs| Kind::ChangeLevel(Level { class, needs });
    for (actor, object, kind, number) in [
        (3, 0, to(3, 4), reply::NOT_ENROLLED),
        (1, 9, to(3, 4), reply::NOT_LIVE),
        (1, 0, to(3, 4), reply::NO_RIGHT),
        (0, 0, to(0, 4), reply::LOWERED),
        (0, 0, to(3, 4), reply::SIMPLE),
        (0, 0, to(2, 1), reply::STAR),
        (0, 0, to(1, 0), reply::ALREADY),
        (2, 2, Kind::Release(Mode::Append), reply::CHANGED),
        (0, 0, to(2, 1), reply::PARENT_LABEL),
        (0, 1, to(2, 3), reply::CHANGED),
        (0, 0, to(2, 1), reply::CHANGED),
        (0, 1, to(2, 1), reply::LOWERED),
    ] {
        assert_eq!(asked(&mut both, actor, object, kind), number, "s{actor}, o{object}, {kind:?}");
    }
}
