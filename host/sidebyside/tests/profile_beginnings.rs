//! Tables and images under profiles, inside and outside, whole and damaged: the number, and every byte of the unit.

use circmon::Unit;
use load::Random;
use reference::{reply, Level, Mode, Monitor, Object, Profile, IMAGE_BYTES, SUBJECTS, TABLE_BYTES};
use sidebyside::orders::Met;
use sidebyside::profile_changes::{first_bit_beyond, CHANGES};
use sidebyside::profiles::{self, top};
use sidebyside::{image, random_rows, rows};

/// A unit with any content in it begins: the number is that of the second implementation, and so is every byte.
fn check(random: &mut Random, begin: impl FnOnce(&mut Unit) -> u8, expected: Result<Monitor, u8>, what: &str) -> u8 {
    let mut unit = Unit::from_rows(random_rows(random));
    let found = begin(&mut unit);
    let number = expected.as_ref().err().copied().unwrap_or(0);
    assert_eq!(found, number, "{what}");
    let monitor = expected.unwrap_or_else(|_| Monitor::empty());
    assert!(*unit.rows() == rows::of(&monitor), "{what}: {number}, and a byte of the unit is not as it should be");
    assert_eq!(unit.profile(), profiles::proved(monitor.profile), "{what}");
    number
}

fn started(random: &mut Random, profile: Profile, table: &[u8], what: &str) -> u8 {
    let (proved, kept) = (profiles::proved(profile).expect("in its ranges"), table.to_vec());
    let number = check(random, |unit| unit.start_in(proved, table), Monitor::from_table_in(profile, table), what);
    assert_eq!(table, kept, "{what}: the table is left");
    number
}

fn opened(random: &mut Random, profile: Profile, image: &[u8], what: &str) -> u8 {
    let (proved, kept) = (profiles::proved(profile).expect("in its ranges"), image.to_vec());
    let number = check(random, |unit| unit.open_in(proved, image), Monitor::from_image_in(profile, image), what);
    assert_eq!(image, kept, "{what}: the image is left");
    number
}

/// The bytes with nothing, a bit, or the length changed.
fn damaged(random: &mut Random, bytes: &mut Vec<u8>) {
    match random.below(12) {
        0 => bytes.resize(random.below(bytes.len() + 26), 0),
        1 | 2 => {
            let bit = random.below(8 * bytes.len());
            bytes[bit / 8] ^= 0x80 >> (bit % 8);
        }
        _ => {}
    }
}

/// A state with up to two things changed, which are noted.
fn changed(random: &mut Random, monitor: &mut Monitor, met: &mut Met) {
    for _ in 0..random.below(3) {
        let (name, change) = CHANGES[random.below(CHANGES.len())];
        if change(random, monitor).is_some() {
            met.note(name);
        }
    }
}

/// Which levels of a state are outside its profile.
fn note_levels(monitor: &Monitor, met: &mut Met) {
    let outside = |level: &Level| !monitor.profile.has_level(level);
    let clearances = monitor.subjects.iter().flatten().any(outside);
    let labels = monitor.objects.iter().flatten().filter_map(|it| it.label.as_ref()).any(outside);
    match (clearances, labels) {
        (true, false) => met.note("16 by a clearance alone"),
        (false, true) => met.note("16 by a label alone"),
        _ => {}
    }
}

#[test]
fn images_under_profiles() {
    let mut met = Met::default();
    for seed in 0..9000 {
        let random = &mut Random::new(seed);
        let profile = profiles::drawn(random);
        let mut monitor = profiles::reached(random, profile, 250);
        changed(random, &mut monitor, &mut met);
        let mut bytes = image(&monitor);
        if random.once_in(8) {
            first_bit_beyond(random, profile, &mut bytes).into_iter().for_each(|name| met.note(name));
        }
        damaged(random, &mut bytes);
        let number = opened(random, profile, &bytes, &format!("seed {seed}"));
        met.note(format!("image {number}"));
        if number == reply::PROFILE {
            note_levels(&monitor, &mut met);
        }
    }
    println!("{met:#?}");
    met.check(50, &CHANGES.map(|(name, _)| name));
    met.check(
        50,
        &["the enrolled bit beyond", "the live bit beyond", "16 by a clearance alone", "16 by a label alone"],
    );
    let numbers = [0, 10, 11, 16, 12, 6, 7, 8, 9, 18, 19, 20].map(|number| format!("image {number}"));
    met.check(30, &numbers.each_ref().map(String::as_str));
}

#[test]
fn tables_under_profiles() {
    let mut met = Met::default();
    for seed in 0..6000 {
        let random = &mut Random::new(seed);
        let profile = profiles::drawn(random);
        let mut monitor = profiles::reached(random, profile, 0);
        for (name, change) in [CHANGES[0], CHANGES[2]] {
            if random.once_in(4) && change(random, &mut monitor).is_some() {
                met.note(name);
            }
        }
        let mut bytes = monitor.table().to_vec();
        if random.once_in(8) {
            first_bit_beyond(random, profile, &mut bytes).into_iter().for_each(|name| met.note(name));
        }
        damaged(random, &mut bytes);
        met.note(format!("table {}", started(random, profile, &bytes, &format!("seed {seed}"))));
    }
    println!("{met:#?}");
    met.check(200, &["a clearance outside", "a subject enrolled beyond", "the enrolled bit beyond"]);
    met.check(200, &["table 0", "table 10", "table 11", "table 16"]);
}

#[test]
fn each_single_bit_of_tables_and_images() {
    let mut met = Met::default();
    for (seed, profile) in [
        (1, profiles::LEAST),
        (2, Profile { subjects: 4, objects: 10, highest_class: 3, needs: 0b11 }),
        (3, Profile { subjects: 16, objects: 1, highest_class: 0, needs: 0xFFFF }),
        (4, Profile { subjects: 1, objects: 64, highest_class: 15, needs: 0 }),
        (5, Profile { subjects: 15, objects: 63, highest_class: 14, needs: 0x7FFF }),
    ] {
        let random = &mut Random::new(seed);
        let monitor = profiles::reached(random, profile, 600);
        let (bytes, table) = (image(&monitor), monitor.table());
        for bit in 0..8 * IMAGE_BYTES {
            let mut flipped = bytes.clone();
            flipped[bit / 8] ^= 0x80 >> (bit % 8);
            met.note(format!("image {}", opened(random, profile, &flipped, &format!("{profile:?}, bit {bit}"))));
        }
        for bit in 0..8 * TABLE_BYTES {
            let mut flipped = table;
            flipped[bit / 8] ^= 0x80 >> (bit % 8);
            met.note(format!("table {}", started(random, profile, &flipped, &format!("{profile:?}, bit {bit}"))));
        }
    }
    println!("{met:#?}");
    met.check(
        10,
        &["image 0", "image 11", "image 16", "image 12", "image 6", "image 8", "table 0", "table 11", "table 16"],
    );
}

#[test]
fn an_image_read_under_another_profile() {
    let mut met = Met::default();
    for seed in 0..2000 {
        let random = &mut Random::new(seed);
        let (own, other) = (profiles::drawn(random), profiles::drawn(random));
        let monitor = profiles::reached(random, own, 200);
        let (bytes, what) = (image(&monitor), format!("seed {seed}: {own:?} and {other:?}"));
        assert_eq!(opened(random, own, &bytes, &what), 0, "{what}");
        met.note(format!("under another {}", opened(random, other, &bytes, &what)));
        assert_eq!(opened(random, Profile::WIDEST, &bytes, &what), 0, "{what}");
    }
    met.check(100, &["under another 0", "under another 11", "under another 16"]);
}

/// Sets what a subject has and holds on a live object.
fn on(monitor: &mut Monitor, object: usize, subject: usize, rights: u8, held: u8) {
    let it = monitor.objects[object].as_mut().expect("it is live");
    (it.rights[subject], it.held[subject]) = (rights, held);
}

#[test]
fn the_order_of_the_checks() {
    let profile = Profile { subjects: 3, objects: 5, highest_class: 2, needs: 0b110 };
    let random = &mut Random::new(1);
    let mut monitor = Monitor::begin_in(profile, [None; SUBJECTS]);
    monitor.subjects[..3].fill(Some(top(profile)));
    let object = Object { label: Some(top(profile)), ..Object::new(0) };
    monitor.objects[..5].fill(Some(object));
    let mut numbers = vec![opened(random, profile, &image(&monitor), "nothing is at fault")];
    let mut fault = |change: &dyn Fn(&mut Monitor)| {
        change(&mut monitor);
        numbers.push(opened(random, profile, &image(&monitor), "one more fault"));
    };
    let (read, append) = (Mode::Read.bit(), Mode::Append.bit());
    // each fault comes before those that were made earlier
    fault(&|it| {
        it.objects[4].as_mut().unwrap().label = Some(Level { class: 0, needs: 0 });
        it.objects[4].as_mut().unwrap().parent = Some(3);
    });
    fault(&|it| it.objects[3].as_mut().unwrap().parent = Some(5));
    fault(&|it| {
        for (object, company) in [(2, 1), (3, 15)] {
            on(it, object, 1, read, read);
            it.objects[object].as_mut().unwrap().companies[1] = company;
        }
    });
    fault(&|it| {
        it.objects[1].as_mut().unwrap().label = Some(Level { class: 0, needs: 0 });
        on(it, 0, 0, read, read);
        on(it, 1, 0, append, append);
    });
    fault(&|it| it.subjects[0] = Some(Level { class: 1, needs: 0b110 }));
    fault(&|it| it.objects[1].as_mut().unwrap().label = None);
    fault(&|it| on(it, 4, 2, 0, Mode::Execute.bit()));
    fault(&|it| on(it, 3, 15, read, 0));
    fault(&|it| it.objects[2].as_mut().unwrap().label = Some(Level { class: 2, needs: 1 }));
    fault(&|it| it.objects[63] = Some(Object::new(0)));
    assert_eq!(numbers, [0, 20, 19, 18, 9, 8, 7, 6, 12, 16, 11]);
    assert_eq!(opened(random, profile, &image(&monitor)[..IMAGE_BYTES - 1], "another length"), reply::LENGTH);
}

#[test]
fn the_order_of_the_checks_of_a_table() {
    let profile = Profile { subjects: 3, objects: 5, highest_class: 2, needs: 0b110 };
    let random = &mut Random::new(1);
    let mut monitor = Monitor::begin_in(profile, [None; SUBJECTS]);
    monitor.subjects[..3].fill(Some(top(profile)));
    let mut table = monitor.table();
    assert_eq!(started(random, profile, &table, "the clearances are inside"), 0);
    table[0] |= 0x78;
    assert_eq!(started(random, profile, &table, "a class above"), reply::PROFILE);
    table[41] |= 1;
    assert_eq!(started(random, profile, &table, "a bit beyond"), reply::STRAY_BITS);
}
