//! Parents in images: every number in the parent bits of every object, a chain of all objects closed in each way, labels that break the
//! rule, damaged images, and profiles; by both implementations and by the sentences, which are computed here.

use circmon::Unit;
use load::Random;
use reference::{Level, Monitor, Object, Profile, IMAGE_BYTES, OBJECTS};
use sidebyside::orders::Met;
use sidebyside::tree::{broken_rule, parent_at, with_parent_bits, wrong_parent};
use sidebyside::{image, profiles, reached};

/// The number of both, under a profile.
fn number_in(profile: Profile, bytes: &[u8], what: &str) -> u8 {
    let number = Monitor::from_image_in(profile, bytes).err().unwrap_or(0);
    let proved = profiles::proved(profile).expect("a profile in its ranges");
    assert_eq!(Unit::from_image_in(proved, bytes).err().unwrap_or(0), number, "{what}");
    number
}

fn number(bytes: &[u8], what: &str) -> u8 {
    assert_eq!(circmon::read(bytes), number_in(Profile::WIDEST, bytes, what), "{what}");
    circmon::read(bytes)
}

/// What the sentences say of a state that was accepted before parents or labels of it were changed.
fn expected(monitor: &Monitor) -> u8 {
    match (wrong_parent(monitor), broken_rule(monitor)) {
        (true, _) => 19,
        (false, Some(_)) => 20,
        (false, None) => 0,
    }
}

/// Live objects with these parents, owned by s0, who is enrolled at the top.
fn with_parents(parents: impl IntoIterator<Item = (usize, Option<usize>)>) -> Monitor {
    let mut monitor = Monitor::empty();
    monitor.subjects[0] = Some(Level { class: 15, needs: 0xFFFF });
    for (slot, parent) in parents {
        monitor.objects[slot] = Some(Object { parent, ..Object::new(0) });
    }
    monitor
}

fn chain() -> Monitor {
    with_parents((0..OBJECTS).map(|slot| (slot, slot.checked_sub(1))))
}

/// Every number in the bits of every object; how often each number was the answer.
fn every_value(monitor: &Monitor, what: &str, met: &mut Met) {
    let bytes = image(monitor);
    for (slot, value) in (0..OBJECTS).flat_map(|slot| (0..=127).map(move |value| (slot, value))) {
        let what = format!("{what}, o{slot}, {value}");
        let changed = with_parent_bits(&bytes, slot, value);
        let mut state = monitor.clone();
        let expected = match &mut state.objects[slot] {
            None => {
                if value == 0 {
                    0
                } else {
                    11
                }
            }
            Some(it) => {
                it.parent = usize::from(value).checked_sub(1);
                expected(&state)
            }
        };
        assert_eq!(number(&changed, &what), expected, "{what}");
        met.note(format!("number {expected}"));
        if expected == 0 {
            let unit = Unit::from_image(&changed).expect("it is accepted");
            assert_eq!(unit.image()[..], changed[..], "{what}: written back");
            assert_eq!(Monitor::from_image(&changed), Ok(state), "{what}");
        }
    }
}

#[test]
fn every_number_in_the_parent_bits_of_every_object() {
    let mut met = Met::default();
    every_value(&with_parents((0..OBJECTS).map(|slot| (slot, None))), "all live", &mut met);
    every_value(&with_parents((0..OBJECTS).step_by(3).map(|slot| (slot, None))), "some live", &mut met);
    every_value(&chain(), "a chain", &mut met);
    let mut labelled = chain();
    labelled.objects.iter_mut().flatten().enumerate().for_each(|(at, it)| {
        it.label = Some(Level { class: (at / 5) as u8, needs: (at % 5 / 3) as u16 * 3 });
    });
    labelled.objects.iter_mut().flatten().for_each(|it| it.parent = None);
    every_value(&labelled, "labels", &mut met);
    for seed in 0..6 {
        every_value(&load::rich(seed, 40, 2000), &format!("seed {seed}"), &mut met);
    }
    println!("{met:#?}");
    met.check(3000, &["number 0", "number 11", "number 19", "number 20"]);
}

#[test]
fn a_chain_of_64_objects_closed_in_each_way() {
    let (open, mut closed) = (chain(), 0);
    assert_eq!(number(&image(&open), "a chain"), 0);
    for (from, to) in (0..OBJECTS).flat_map(|from| (0..OBJECTS).map(move |to| (from, to))) {
        let mut state = open.clone();
        state.objects[from].as_mut().unwrap().parent = Some(to);
        let number = number(&image(&state), &format!("o{from} under o{to}"));
        assert_eq!(number, if to >= from { 19 } else { 0 }, "o{from} under o{to}");
        closed += usize::from(number == 19);
        // the top taken away from under it: nothing is live there any more
        if from == 0 && to > 0 {
            let mut cut = open.clone();
            cut.objects[to - 1] = None;
            assert_eq!(circmon::read(&image(&cut)), 19, "o{to} under what is not live");
        }
    }
    assert_eq!(closed, 64 * 65 / 2);
}

#[test]
fn rings_of_each_length_with_objects_below_them() {
    for length in 1..=OBJECTS {
        for start in [0, OBJECTS - length] {
            let place = |at: usize| (start + at) % OBJECTS;
            let ring = (0..length).map(|at| (place(at), Some(place((at + 1) % length))));
            // all others stand below the first of the ring
            let others =
                (length..OBJECTS).map(|at| (place(at), Some(if at == length { place(0) } else { place(at - 1) })));
            let state = with_parents(ring.chain(others));
            assert!(wrong_parent(&state));
            assert_eq!(number(&image(&state), &format!("a ring of {length}")), 19, "a ring of {length}");
            let mut opened = state.clone();
            opened.objects[place(0)].as_mut().unwrap().parent = None;
            assert_eq!(number(&image(&opened), "opened"), 0, "a ring of {length}, opened");
        }
    }
}

/// Parents and labels of some objects drawn anew. Nobody holds anything, so that no check before 19 is in the way.
fn changed(random: &mut Random, monitor: &Monitor) -> Monitor {
    let mut state = profiles::released(monitor);
    let way = random.below(4);
    for object in state.objects.iter_mut().flatten() {
        if !random.once_in(6) {
            continue;
        }
        if way != 0 {
            let below = [8, OBJECTS, 127][random.below(3)];
            object.parent = (!random.once_in(4)).then(|| random.below(below));
        }
        if way != 1 {
            let label = Level { class: random.below(4) as u8, needs: random.below(4) as u16 };
            object.label = (!random.once_in(4)).then_some(label);
        }
    }
    state
}

#[test]
fn states_with_other_parents_and_labels() {
    let mut met = Met::default();
    for seed in 0..2500 {
        let random = &mut Random::new(seed);
        let monitor = reached(random, 400);
        for round in 0..12 {
            let (state, what) = (changed(random, &monitor), format!("seed {seed}, round {round}"));
            let (found, said) = (number(&image(&state), &what), expected(&state));
            assert_eq!(found, said, "{what}");
            met.note(format!("number {found}"));
            if wrong_parent(&state) && broken_rule(&state).is_some() {
                met.note("both 19 and 20");
            }
        }
    }
    println!("{met:#?}");
    met.check(1000, &["number 0", "number 19", "number 20", "both 19 and 20"]);
}

#[test]
fn bits_of_parents_flipped_in_images_of_runs() {
    let mut met = Met::default();
    for seed in 0..1500 {
        let random = &mut Random::new(seed ^ 0xF11B);
        let monitor = reached(random, 400);
        for round in 0..20 {
            let mut bytes = image(&monitor);
            for _ in 0..1 + random.below(3) {
                let bit = parent_at(random.below(OBJECTS)) + random.below(7);
                bytes[bit / 8] ^= 0x80 >> (bit % 8);
            }
            let what = format!("seed {seed}, round {round}");
            let found = number(&bytes, &what);
            met.note(format!("number {found}"));
            assert!([0, 11, 19, 20].contains(&found), "{what}: {found}");
        }
    }
    println!("{met:#?}");
    met.check(500, &["number 0", "number 11", "number 19", "number 20"]);
}

#[test]
fn each_check_before_19_comes_first() {
    // subject 1 holds a and r, subject 2 is not enrolled; o1 under o9, which is not live, with a label under none
    let mut monitor = with_parents([(0, None), (1, Some(9)), (2, Some(0))]);
    monitor.subjects[1] = Some(Level { class: 1, needs: 0 });
    let level = |class| Some(Level { class, needs: 0 });
    let set = |monitor: &mut Monitor, slot: usize, held: u8, label: Option<Level>, company: u8| {
        let it = monitor.objects[slot].as_mut().unwrap();
        (it.rights[1], it.held[1], it.label, it.companies[0]) = (held, held, label, company);
    };
    let read = |monitor: &Monitor, number: u8| assert_eq!(self::number(&image(monitor), "checks"), number);
    set(&mut monitor, 0, 0b1000, level(1), 1);
    set(&mut monitor, 2, 0b0010, level(0), 2);
    monitor.objects[1].as_mut().unwrap().rights[2] = 1;
    read(&monitor, 12);
    monitor.objects[1].as_mut().unwrap().rights[2] = 0;
    monitor.objects[0].as_mut().unwrap().rights[1] = 0;
    read(&monitor, 6);
    set(&mut monitor, 0, 0b1000, None, 1);
    read(&monitor, 7);
    set(&mut monitor, 0, 0b1000, level(2), 1);
    read(&monitor, 8);
    set(&mut monitor, 0, 0b1000, level(1), 1);
    read(&monitor, 9);
    set(&mut monitor, 2, 0b0010, level(1), 2);
    read(&monitor, 18);
    set(&mut monitor, 2, 0b0010, level(1), 1);
    read(&monitor, 19);
    monitor.objects[1].as_mut().unwrap().parent = Some(2);
    set(&mut monitor, 1, 0, level(0), 0);
    read(&monitor, 20);
    set(&mut monitor, 1, 0, level(1), 0);
    read(&monitor, 0);
}

#[test]
fn parents_at_the_border_of_every_profile() {
    for objects in 1..=64u8 {
        let profile = Profile { objects, ..Profile::WIDEST };
        let last = usize::from(objects) - 1;
        let mut monitor = with_parents((0..=last).map(|slot| (slot, slot.checked_sub(1))));
        monitor.profile = profile;
        let bytes = image(&monitor);
        assert_eq!(number_in(profile, &bytes, "a chain"), 0, "{objects} objects");
        for value in 0..=127 {
            let changed = with_parent_bits(&bytes, 0, value);
            let expected = if value == 0 { 0 } else { 19 };
            assert_eq!(number_in(profile, &changed, "the top"), expected, "{objects} objects, {value}");
            if objects < 64 {
                // in the record of an object beyond it
                let beyond = with_parent_bits(&bytes, last + 1, value);
                let expected = if value == 0 { 0 } else { 11 };
                assert_eq!(number_in(profile, &beyond, "beyond"), expected, "{objects} objects, {value}");
            }
        }
        if objects > 1 {
            let narrow = Profile { objects: objects - 1, ..profile };
            assert_eq!(number_in(narrow, &bytes, "narrower"), 11, "{objects} objects");
        }
    }
}

#[test]
fn images_of_the_size_without_parents_are_refused_by_their_length() {
    let bytes = image(&chain());
    assert_eq!((bytes.len(), IMAGE_BYTES), (1458, 1458));
    for length in [1274, 1401, 1402, 1403, 1457] {
        assert_eq!(number(&bytes[..length], "shorter"), 10, "{length} bytes");
    }
    let longer = [&bytes[..], &[0]].concat();
    assert_eq!(number(&longer, "longer"), 10);
}
