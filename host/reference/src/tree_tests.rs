//! Objects under objects, from the text of the requirements: creation under a parent, deletion of a branch, the rule of labels and the
//! journal. Parents in images are in `tree_image_tests`, and the long runs in `sidebyside`, for both implementations.

use crate::*;

pub const LOW: Level = Level { class: 0, needs: 0 };
const MIDDLE: Level = Level { class: 1, needs: 0b01 };
pub const HIGH: Level = Level { class: 2, needs: 0b11 };
/// apart from MIDDLE
const APART: Level = Level { class: 2, needs: 0b10 };

/// Subjects 1 to 3 are enrolled with HIGH.
fn begun() -> Monitor {
    let mut monitor = Monitor::empty();
    monitor.subjects[1..4].fill(Some(HIGH));
    monitor
}

/// A live object without a label that subject 1 owns, for each parent: objects 0, 1, ..
pub fn with_parents(parents: &[Option<usize>]) -> Monitor {
    let mut monitor = begun();
    for (slot, &parent) in parents.iter().enumerate() {
        monitor.objects[slot] = Some(Object { parent, ..Object::new(1) });
    }
    monitor
}

/// A riser, two flats in it, and a meter in each flat.
pub fn riser() -> Monitor {
    with_parents(&[None, Some(0), Some(0), Some(1), Some(2)])
}

/// Every object under the one before it, in all 64 slots.
pub fn chain() -> Monitor {
    let parents: Vec<Option<usize>> = (0..OBJECTS).map(|slot: usize| slot.checked_sub(1)).collect();
    with_parents(&parents)
}

fn under(parent: usize) -> Kind {
    Kind::Create { execute: false, parent: Some(parent) }
}

fn asked(monitor: &mut Monitor, actor: usize, object: usize, kind: Kind) -> u8 {
    monitor.request(&Request { actor, object, kind }.encode())
}

pub fn object(monitor: &mut Monitor, slot: usize) -> &mut Object {
    monitor.objects[slot].as_mut().expect("it is live")
}

fn live(monitor: &Monitor) -> Vec<usize> {
    (0..OBJECTS).filter(|&slot| monitor.objects[slot].is_some()).collect()
}

pub fn image(monitor: &Monitor) -> [u8; IMAGE_BYTES] {
    let mut image = [0; IMAGE_BYTES];
    assert_eq!(monitor.write_image(&mut image), reply::CHANGED);
    image
}

pub fn read(monitor: &Monitor) -> u8 {
    Monitor::from_image(&image(monitor)).err().unwrap_or(0)
}

#[test]
fn create_carries_the_parent_plus_one_in_the_needs_field() {
    let request = Request { actor: 1, object: 3, kind: Kind::Create { execute: true, parent: Some(63) } };
    let bytes = request.encode();
    assert_eq!(bytes, [0x50, 0x80, 0x1C, 0x00, 0x04, 0x00]);
    assert_eq!(Request::decode(&bytes), Some(request));
    for needs in 0..=u16::MAX {
        let mut bytes = Request { kind: Kind::Create { execute: true, parent: None }, ..request }.encode();
        let [high, low] = needs.to_be_bytes();
        (bytes[3], bytes[4], bytes[5]) = (high >> 4, high << 4 | low >> 4, low << 4);
        let parent = Request::decode(&bytes).map(|it| it.kind);
        let expected = match needs {
            0 => Some(Kind::Create { execute: true, parent: None }),
            1..=64 => Some(Kind::Create { execute: true, parent: Some(usize::from(needs) - 1) }),
            _ => None,
        };
        assert_eq!(parent, expected, "needs {needs}");
    }
    // class and other subject, each by itself
    for bit in [13, 27] {
        let mut bytes = bytes;
        bytes[bit / 8] ^= 0x80 >> (bit % 8);
        assert_eq!(Request::decode(&bytes), None, "bit {bit}");
    }
}

#[test]
fn a_parent_beyond_the_profile_is_malformed_and_no_need_bounds_it() {
    let narrow = Profile { subjects: 4, objects: 5, highest_class: 0, needs: 0 };
    let mut monitor = Monitor { profile: narrow, ..with_parents(&[None, None, None, None]) };
    for parent in 0..64 {
        let expected = match parent {
            0..=3 => reply::CHANGED,
            4 => reply::PARENT,
            _ => reply::MALFORMED,
        };
        assert_eq!(asked(&mut monitor.clone(), 1, 4, under(parent)), expected, "under {parent}");
    }
    assert_eq!(asked(&mut monitor, 1, 5, under(0)), reply::MALFORMED, "the object itself is beyond it");
}

#[test]
fn the_checks_of_create_are_2_3_5_19() {
    let mut monitor = with_parents(&[None, Some(0)]);
    assert_eq!(asked(&mut monitor, 0, 1, under(9)), reply::NOT_ENROLLED);
    assert_eq!(asked(&mut monitor, 1, 1, under(9)), reply::LIVE);
    assert_eq!(asked(&mut monitor, 1, 1, under(1)), reply::LIVE, "itself, live");
    assert_eq!(asked(&mut monitor, 1, 2, under(2)), reply::PARENT, "itself, not live");
    assert_eq!(asked(&mut monitor, 1, 2, under(9)), reply::PARENT);
    assert_eq!(live(&monitor), [0, 1], "nothing is created by a refusal");
    assert_eq!(asked(&mut monitor, 2, 2, under(1)), reply::CHANGED, "under another's object, without a right on it");
    let new = object(&mut monitor, 2);
    assert_eq!((new.owner, new.parent, new.label), (2, Some(1), None));
    assert_eq!(asked(&mut monitor, 2, 3, Kind::Create { execute: true, parent: None }), reply::CHANGED);
    assert_eq!(object(&mut monitor, 3).parent, None);
}

#[test]
fn deleting_an_object_deletes_everything_below_it() {
    for (top, left) in
        [(0, vec![]), (1, vec![0, 2, 4]), (2, vec![0, 1, 3]), (3, vec![0, 1, 2, 4]), (4, vec![0, 1, 2, 3])]
    {
        let mut monitor = riser();
        assert_eq!(asked(&mut monitor, 1, top, Kind::Delete), 0);
        assert_eq!(live(&monitor), left, "o{top} is deleted");
        assert_eq!(read(&monitor), 0);
    }
    let mut monitor = chain();
    assert_eq!(asked(&mut monitor, 1, 40, Kind::Delete), 0);
    assert_eq!(live(&monitor), (0..40).collect::<Vec<_>>());
    assert_eq!(asked(&mut monitor, 1, 0, Kind::Delete), 0);
    assert_eq!(live(&monitor), []);
}

#[test]
fn a_branch_goes_on_the_top_owners_request_alone() {
    let mut monitor = riser();
    object(&mut monitor, 1).owner = 2;
    object(&mut monitor, 3).owner = 3;
    assert_eq!(asked(&mut monitor, 1, 1, Kind::Delete), reply::NO_RIGHT, "who owns the riser does not own the flat");
    assert_eq!(asked(&mut monitor, 2, 0, Kind::Delete), reply::NO_RIGHT);
    assert_eq!(live(&monitor).len(), 5, "a refusal takes nothing");
    object(&mut monitor, 3).rights[3] = 0b1111;
    object(&mut monitor, 3).held[3] = 0b0001;
    assert_eq!(asked(&mut monitor, 1, 0, Kind::Delete), 0, "others own what is below and hold accesses on it");
    assert_eq!(live(&monitor), []);
    assert_eq!(asked(&mut monitor, 2, 3, Kind::Create { execute: false, parent: None }), 0);
    let again = object(&mut monitor, 3);
    assert_eq!((again.parent, again.rights[3], again.held[3]), (None, 0, 0), "nothing is left in the slot");
}

#[test]
fn a_labelled_child_has_a_labelled_parent_whose_label_it_dominates() {
    // the label of the parent, that of the child, and whether the rule is kept
    let rows = [
        (None, None, true),
        (Some(LOW), None, true),
        (None, Some(LOW), false),
        (Some(LOW), Some(LOW), true),
        (Some(MIDDLE), Some(HIGH), true),
        (Some(MIDDLE), Some(LOW), false),
        (Some(MIDDLE), Some(APART), false),
    ];
    for (of_parent, of_child, kept) in rows {
        let mut monitor = with_parents(&[Some(1), None]);
        (object(&mut monitor, 1).label, object(&mut monitor, 0).label) = (of_parent, of_child);
        assert_eq!(read(&monitor) == 0, kept, "{of_parent:?}, {of_child:?}");
        // a change of level to the label of the child, from none, and to that of the parent
        let expected = if kept { reply::CHANGED } else { reply::PARENT_LABEL };
        if let Some(label) = of_child {
            object(&mut monitor, 0).label = None;
            assert_eq!(asked(&mut monitor, 1, 0, Kind::ChangeLevel(label)), expected, "{of_parent:?}, {of_child:?}");
        }
        if let Some(label) = of_parent {
            object(&mut monitor, 0).label = of_child;
            object(&mut monitor, 1).label = None;
            assert_eq!(asked(&mut monitor, 1, 1, Kind::ChangeLevel(label)), expected, "{of_parent:?}, {of_child:?}");
        }
    }
}

#[test]
fn check_20_looks_at_the_parent_and_at_every_child() {
    let mut monitor = riser();
    assert_eq!(asked(&mut monitor, 1, 1, Kind::ChangeLevel(LOW)), reply::PARENT_LABEL, "the riser has no label");
    assert_eq!(object(&mut monitor, 1).label, None);
    for (slot, level) in [(0, LOW), (1, MIDDLE), (2, HIGH), (3, HIGH)] {
        assert_eq!(asked(&mut monitor, 1, slot, Kind::ChangeLevel(level)), 0, "o{slot}");
    }
    assert_eq!(asked(&mut monitor, 1, 0, Kind::ChangeLevel(LOW)), reply::ALREADY);
    assert_eq!(asked(&mut monitor, 1, 0, Kind::ChangeLevel(HIGH)), reply::PARENT_LABEL, "flat 1 is not so high");
    assert_eq!(object(&mut monitor, 0).label, Some(LOW), "a refusal leaves it");
    assert_eq!(asked(&mut monitor, 1, 0, Kind::ChangeLevel(MIDDLE)), 0);
    assert_eq!(asked(&mut monitor, 1, 1, Kind::ChangeLevel(HIGH)), 0, "its meter has HIGH");
    assert_eq!(asked(&mut monitor, 1, 0, Kind::ChangeLevel(HIGH)), 0, "both flats have HIGH");
    assert_eq!(asked(&mut monitor, 1, 4, Kind::ChangeLevel(MIDDLE)), reply::PARENT_LABEL);
    assert_eq!(asked(&mut monitor, 1, 4, Kind::ChangeLevel(HIGH)), 0);
    assert_eq!(read(&monitor), 0);
}

#[test]
fn check_20_of_a_change_of_level_is_after_9() {
    // o1 under o0; subject 2, of class 2, reads o0 and appends to o2: a raise of o0 meets each check in turn
    let mut monitor = with_parents(&[None, Some(0), None]);
    for (slot, modes) in [(0, 0b1000), (1, 0), (2, 0b0010)] {
        let it = object(&mut monitor, slot);
        (it.label, it.rights[2], it.held[2]) = (Some(MIDDLE), modes, modes);
    }
    let to = |class, needs| Kind::ChangeLevel(Level { class, needs });
    for (level, number) in [(to(0, 0), 14), (to(3, 1), 8), (to(2, 1), 9)] {
        assert_eq!(asked(&mut monitor, 1, 0, level), number, "{level:?}");
    }
    assert_eq!(asked(&mut monitor, 2, 0, to(2, 1)), reply::NO_RIGHT);
    assert_eq!(asked(&mut monitor, 1, 63, to(2, 1)), reply::NOT_LIVE);
    assert_eq!(asked(&mut monitor, 1, 0, to(1, 1)), reply::ALREADY);
    object(&mut monitor, 2).held[2] = 0;
    assert_eq!(asked(&mut monitor, 1, 0, to(2, 1)), reply::PARENT_LABEL);
    assert_eq!(asked(&mut monitor, 1, 1, to(2, 1)), reply::CHANGED);
    assert_eq!(asked(&mut monitor, 1, 0, to(2, 1)), reply::CHANGED);
}

#[test]
fn a_deletion_that_took_children_empties_the_journal() {
    let mut journaled = Journaled::begin(riser());
    let ask = |journaled: &mut Journaled, object: usize, kind: Kind| {
        journaled.request(&Request { actor: 1, object, kind }.encode())
    };
    assert_eq!(ask(&mut journaled, 9, under(0)), 0);
    assert_eq!(ask(&mut journaled, 3, Kind::Delete), 0, "a leaf");
    assert_eq!(journaled.entries(), 2);
    assert_eq!(ask(&mut journaled, 1, Kind::Delete), 0, "its only child is gone: a leaf too");
    assert_eq!(journaled.entries(), 3);
    assert_eq!(journaled.request(&Request { actor: 2, object: 2, kind: Kind::Delete }.encode()), reply::NO_RIGHT);
    assert_eq!(journaled.entries(), 3, "a refusal empties nothing");
    assert_eq!(ask(&mut journaled, 2, Kind::Delete), 0, "with a child");
    assert_eq!((journaled.entries(), live(&journaled.monitor)), (0, vec![0, 9]));
    assert_eq!(journaled.take_back(), reply::EMPTY_JOURNAL);
    // counted from there
    let from_there = journaled.monitor.clone();
    assert_eq!(ask(&mut journaled, 2, under(9)), 0);
    assert_eq!(ask(&mut journaled, 2, Kind::Delete), 0);
    let [first, second, third] = [0; 3].map(|_| journaled.take_back());
    assert_eq!((first, second, third), (0, 0, 17));
    assert_eq!(journaled.monitor, from_there);
}

#[test]
fn a_leaf_taken_back_is_under_its_parent_again() {
    let mut journaled = Journaled::begin(riser());
    assert_eq!(journaled.request(&Request { actor: 1, object: 4, kind: Kind::Delete }.encode()), 0);
    assert_eq!(journaled.request(&Request { actor: 1, object: 4, kind: under(0) }.encode()), 0);
    assert_eq!([journaled.take_back(), journaled.take_back()], [0, 0]);
    assert_eq!(journaled.monitor, riser());
}
