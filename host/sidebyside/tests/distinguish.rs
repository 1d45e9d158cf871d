//! The requests that tell two images apart, carried out on both by the proved monitor and by the second implementation.

use circmon::{distinguish, DISTINGUISH_BYTES};
use load::Random;
use reference::{Kind, Monitor, Object, Request, CONFLICT_CLASSES, IMAGE_BYTES, OBJECTS, SUBJECTS, TABLE_BYTES};
use sidebyside::telling::{tells, told};
use sidebyside::tree::parent_at;
use sidebyside::{image, reached, Count, SHAPES};

/// A subject that is enrolled, where there is one.
fn anyone(random: &mut Random, monitor: &Monitor) -> Option<usize> {
    let from = random.below(SUBJECTS);
    (0..SUBJECTS).map(|k| (from + k) % SUBJECTS).find(|&s| monitor.subjects[s].is_some())
}

/// Each free slot gets an object of an enrolled subject; false where nobody is enrolled.
fn fill(random: &mut Random, monitor: &mut Monitor) -> bool {
    for object in 0..OBJECTS {
        let Some(actor) = anyone(random, monitor) else {
            return false;
        };
        monitor.step(Request { actor, object, kind: Kind::Create { execute: random.once_in(2), parent: None } });
    }
    monitor.objects.iter().all(Option::is_some)
}

// ---- pairs from runs

#[test]
fn different_images_of_runs_get_different_replies() {
    let mut pairs = 0;
    let mut numbers = [0usize; 5];
    for seed in 0..900 {
        let random = &mut Random::new(seed);
        let shape = SHAPES[seed as usize % SHAPES.len()];
        let table = load::table(random, shape);
        let mut monitor = Monitor::from_table(&table).expect("a table that was written");
        let stranger = image(&reached(random, 1 + seed as usize % 300));
        let mut earlier = vec![image(&monitor)];
        for at in 0..120 {
            let bytes = load::bytes(random, shape, &monitor);
            monitor.request(&bytes);
            if at % 10 != 0 {
                continue;
            }
            let now = image(&monitor);
            let before = earlier[random.below(earlier.len())].clone();
            for (a, b) in [(&before, &now), (&now, &before), (&now, &stranger), (&earlier[earlier.len() - 1], &now)] {
                let what = format!("seed {seed}, request {at}");
                if a == b {
                    assert!(told(a, b, &what).is_empty(), "{what}: equal images");
                } else {
                    numbers[tells(a, b, &what)] += 1;
                    pairs += 1;
                }
            }
            earlier.push(now);
        }
    }
    assert!(pairs >= 10_000, "{pairs} pairs, {numbers:?}");
    assert_eq!(numbers[0], 0, "{numbers:?}");
}

// ---- pairs that differ in one thing only

/// What differs.
#[derive(Clone, Copy, Debug, PartialEq)]
enum Thing {
    Enrolment,
    Life,
    Owner,
    Parent,
    Label,
    Companies,
    Right,
    Access,
    Clearance,
}

const THINGS: [Thing; 9] = {
    use Thing::*;
    [Enrolment, Life, Owner, Parent, Label, Companies, Right, Access, Clearance]
};

impl Thing {
    /// How many requests tell it: a parent a delete and a create, a clearance a reading of a new object, which takes three, or four
    /// where no slot is free, any other thing one.
    fn requests(self, all_live: bool) -> usize {
        match self {
            Thing::Parent => 2,
            Thing::Clearance => 3 + usize::from(all_live),
            _ => 1,
        }
    }
}

/// The state with one thing changed, where that leaves another accepted state.
fn change(random: &mut Random, monitor: &Monitor, thing: Thing) -> Option<Monitor> {
    let mut other = monitor.clone();
    let shape = SHAPES[random.below(SHAPES.len())];
    let level = load::level(random, shape);
    let subject = random.below(SUBJECTS);
    let slot = random.below(OBJECTS);
    match thing {
        Thing::Enrolment => {
            other.subjects[subject] = if monitor.subjects[subject].is_some() { None } else { Some(level) };
        }
        Thing::Clearance => other.subjects[subject] = Some(monitor.subjects[subject].map(|_| level)?),
        Thing::Life => {
            other.objects[slot] = match monitor.objects[slot] {
                Some(_) => None,
                None => Some(Object::new(anyone(random, monitor)?)),
            }
        }
        Thing::Owner => other.objects[slot].as_mut()?.owner = subject,
        Thing::Parent => {
            let live: Vec<usize> = (0..OBJECTS).filter(|&it| monitor.objects[it].is_some()).collect();
            let parent = live.get(random.below(live.len() + 1)).copied();
            other.objects[*live.get(random.below(live.len().max(1)))?].as_mut()?.parent = parent;
        }
        Thing::Label => {
            let label = &mut other.objects[slot].as_mut()?.label;
            *label = if label.is_some() && random.once_in(2) { None } else { Some(level) };
        }
        Thing::Companies => other.objects[slot].as_mut()?.companies[subject % CONFLICT_CLASSES] = random.below(4) as u8,
        Thing::Right => other.objects[slot].as_mut()?.rights[subject] ^= random.mode().bit(),
        Thing::Access => {
            // only a right can be held
            let object = other.objects[slot].as_mut()?;
            let holder = (0..SUBJECTS).map(|k| (subject + k) % SUBJECTS).find(|&s| object.rights[s] != 0)?;
            object.held[holder] ^= object.rights[holder] & random.mode().bit();
        }
    }
    (other.fault().is_none() && other != *monitor).then_some(other)
}

/// Of states from seeds, with every slot live or as the run left them, each thing changed alone, where that gives an accepted
/// state: for each thing, how often how many requests told.
fn one_thing(seeds: std::ops::Range<u64>, all_live: bool) -> [[usize; 5]; 9] {
    let mut seen = [[0usize; 5]; 9];
    for seed in seeds {
        let random = &mut Random::new(seed);
        let requests = random.below(500);
        let mut monitor = reached(random, requests);
        if all_live && !fill(random, &mut monitor) {
            continue;
        }
        let here = image(&monitor);
        for round in 0..20 {
            for (row, &thing) in seen.iter_mut().zip(&THINGS) {
                let Some(other) = change(random, &monitor, thing) else {
                    continue;
                };
                let there = image(&other);
                let what = format!("seed {seed}, round {round}, {thing:?}, all live: {all_live}");
                row[tells(&here, &there, &what)] += 1;
                row[tells(&there, &here, &what)] += 1;
            }
        }
    }
    seen
}

#[test]
fn images_that_differ_in_one_thing() {
    let seen = one_thing(20_000..20_400, false);
    for (row, thing) in seen.iter().zip(&THINGS) {
        let pairs: usize = row.iter().sum();
        assert!(pairs > 200, "{thing:?} was changed in {pairs} pairs: {seen:?}");
        // in some states no slot is free
        let told = row[thing.requests(false)];
        assert!(told > 100, "{thing:?}: {seen:?}");
        assert_eq!(told + if *thing == Thing::Clearance { row[4] } else { 0 }, pairs, "{thing:?}: {seen:?}");
    }
}

#[test]
fn images_with_every_slot_live_that_differ_in_one_thing() {
    let seen = one_thing(30_000..30_200, true);
    for (row, thing) in seen.iter().zip(&THINGS) {
        let pairs: usize = row.iter().sum();
        assert!(pairs > 100, "{thing:?} was changed in {pairs} pairs: {seen:?}");
        // where no slot is free, the reading has a delete before it
        assert_eq!(row[thing.requests(true)], pairs, "{thing:?}: {seen:?}");
    }
}

// ---- what is refused

#[test]
fn equal_images_and_short_buffers() {
    for seed in 40_000..40_060 {
        let random = &mut Random::new(seed);
        let requests = random.below(600);
        let a = image(&reached(random, requests));
        let b = image(&reached(random, requests));
        assert!(told(&a, &a, &format!("seed {seed}")).is_empty(), "seed {seed}: equal images");
        for length in 0..DISTINGUISH_BYTES {
            let mut buffer = random.bytes(length);
            let kept = buffer.clone();
            for (one, two) in [(&a, &b), (&a, &a)] {
                assert_eq!(
                    distinguish(one, two, &mut buffer),
                    reference::reply::SHORT_BUFFER,
                    "seed {seed}, {length} bytes"
                );
                assert_eq!(buffer, kept, "seed {seed}, {length} bytes: every byte is left");
            }
        }
    }
}

/// The image with a few bits, a company number, a parent or its length changed.
fn damaged(random: &mut Random, image: &[u8]) -> Vec<u8> {
    let mut bytes = image.to_vec();
    match random.below(8) {
        0 => bytes.resize(random.below(2 * IMAGE_BYTES), 0),
        1 => bytes.truncate(IMAGE_BYTES - 1),
        way => {
            for _ in 0..1 + random.below(2) {
                // the companies stand 26 bits behind the start of a record, and the parent in the last seven
                let company = 8 * TABLE_BYTES + 177 * random.below(8) + 26 + random.below(16);
                let parent = parent_at(random.below(8)) + random.below(7);
                let bit = [parent, company, random.below(8 * IMAGE_BYTES)][(way - 2) / 2 % 3];
                bytes[bit / 8] ^= 0x80 >> (bit % 8);
            }
        }
    }
    bytes
}

#[test]
fn refused_images_give_their_number_and_leave_every_byte() {
    let (mut first, mut second) = (Count::default(), Count::default());
    for seed in 50_000..52_000 {
        let random = &mut Random::new(seed);
        let objects = 1 + random.below(64);
        let good = image(&load::rich(seed, objects, 300));
        let (one, two) = (damaged(random, &good), damaged(random, &good));
        let length = random.below(40);
        let mut buffer = random.bytes(length);
        let kept = buffer.clone();
        if let Err(n) = Monitor::from_image(&one) {
            for other in [&good, &two, &one] {
                assert_eq!(distinguish(&one, other, &mut buffer), 128 + n, "seed {seed}: the first is refused");
                assert_eq!(buffer, kept, "seed {seed}: every byte is left");
            }
            assert_eq!(distinguish(&good, &one, &mut buffer), 192 + n, "seed {seed}: the second is refused");
            assert_eq!(buffer, kept, "seed {seed}: every byte is left");
            first.note(n);
        } else if let Err(n) = Monitor::from_image(&two) {
            // two bits may cancel out, and the first may be an accepted image other than the good one
            assert_eq!(distinguish(&one, &two, &mut buffer), 192 + n, "seed {seed}: the second is refused");
            assert_eq!(buffer, kept, "seed {seed}: every byte is left");
            second.note(n);
        } else if one != good {
            tells(&one, &good, &format!("seed {seed}"));
        }
    }
    for number in [6, 8, 10, 11, 12, 18, 19, 20] {
        assert!(first.of(number) > 0, "{number} was not met: {first:?}");
    }
    assert!(second.numbers() >= 3, "{second:?}");
}
