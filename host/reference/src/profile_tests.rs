//! The profile of a site, from the text of the requirements: its ranges, requests, tables, images, and the order of the checks.

use crate::*;

/// Four tasks, ten objects, classes up to 3 and the needs 0 and 1.
const SMALL: Profile = Profile { subjects: 4, objects: 10, highest_class: 3, needs: 0b11 };

const fn level(class: u8, needs: u16) -> Level {
    Level { class, needs }
}

/// The four tasks with the highest level of the profile.
fn small() -> Monitor {
    let mut monitor = Monitor::begin_in(SMALL, [None; SUBJECTS]);
    monitor.subjects[..4].fill(Some(level(3, 0b11)));
    monitor
}

fn image(monitor: &Monitor) -> [u8; IMAGE_BYTES] {
    let mut image = [0; IMAGE_BYTES];
    assert_eq!(monitor.write_image(&mut image), reply::CHANGED);
    image
}

/// The number of reading the image of a state under its profile.
fn read(monitor: &Monitor) -> u8 {
    Monitor::from_image_in(monitor.profile, &image(monitor)).err().unwrap_or(0)
}

/// The number of reading the table of a state under its profile.
fn begun(monitor: &Monitor) -> u8 {
    Monitor::from_table_in(monitor.profile, &monitor.table()).err().unwrap_or(0)
}

/// The state with one thing changed.
fn with(monitor: &Monitor, change: impl Fn(&mut Monitor)) -> Monitor {
    let mut changed = monitor.clone();
    change(&mut changed);
    changed
}

#[test]
fn the_ranges_are_looked_at_before_anything_else_is_read() {
    let bounds = [(0, false), (1, true), (2, true), (15, true), (16, true), (17, false), (64, false), (255, false)];
    for (subjects, good) in bounds {
        assert_eq!(Profile { subjects, ..SMALL }.is_in_range(), good, "{subjects} subjects");
    }
    for (objects, good) in [(0, false), (1, true), (16, true), (17, true), (64, true), (65, false), (255, false)] {
        assert_eq!(Profile { objects, ..SMALL }.is_in_range(), good, "{objects} objects");
    }
    for (highest_class, good) in [(0, true), (15, true), (16, false), (255, false)] {
        assert_eq!(Profile { highest_class, ..SMALL }.is_in_range(), good, "class {highest_class}");
    }
    for needs in [0, 1, 0x8000, 0xFFFF] {
        assert!(Profile { needs, ..SMALL }.is_in_range(), "needs {needs:x}");
    }
    for wrong in [Profile { subjects: 0, ..SMALL }, Profile { objects: 65, ..SMALL }] {
        for length in [0, 41, TABLE_BYTES, IMAGE_BYTES] {
            let bytes = vec![0xFF; length];
            assert_eq!(Monitor::from_table_in(wrong, &bytes), Err(reply::PROFILE), "{length} bytes");
            assert_eq!(Monitor::from_image_in(wrong, &bytes), Err(reply::PROFILE), "{length} bytes");
        }
    }
}

#[test]
fn what_is_outside_the_profile_in_a_request_is_malformed() {
    let asked = |actor: usize, object: usize, kind: Kind| small().request(&Request { actor, object, kind }.encode());
    let create = Kind::Create { execute: false, parent: None };
    assert_eq!((asked(3, 9, create), asked(4, 9, create), asked(3, 10, create)), (0, 2, 2));
    assert_eq!((asked(15, 0, create), asked(0, 63, create)), (2, 2));
    for kind in [|other| Kind::Give(other, Mode::Read), |other| Kind::Rescind(other, Mode::Read)] {
        assert_eq!((asked(0, 0, kind(3)), asked(0, 0, kind(4)), asked(0, 0, kind(15))), (4, 2, 2));
    }
    let to = |class, needs| asked(0, 0, Kind::ChangeLevel(level(class, needs)));
    assert_eq!((to(3, 0b11), to(4, 0b11), to(15, 0)), (4, 2, 2));
    assert_eq!((to(0, 0b100), to(3, 0b111), to(0, 0x8000)), (2, 2, 2));
}

#[test]
fn malformed_comes_before_not_enrolled() {
    let mut monitor = small();
    monitor.subjects[3] = None;
    let by = |actor: usize| Request { actor, object: 0, kind: Kind::Delete }.encode();
    assert_eq!((monitor.request(&by(3)), monitor.request(&by(4)), monitor.request(&by(0))), (3, 2, 4));
    let mut nobody = Monitor { profile: Profile { subjects: 0, ..SMALL }, ..small() };
    assert_eq!(nobody.request(&by(0)), 2, "no subject is in use");
    let mut nothing = Monitor { profile: Profile { objects: 0, ..SMALL }, ..small() };
    assert_eq!(nothing.request(&by(0)), 2, "no object is in use");
}

#[test]
fn tables_are_checked_16_10_11_16() {
    assert_eq!(begun(&small()), 0);
    let beyond = with(&small(), |it| it.subjects[4] = Some(level(0, 0)));
    let outside = with(&small(), |it| it.subjects[0] = Some(level(4, 0)));
    let need = with(&small(), |it| it.subjects[3] = Some(level(0, 0b100)));
    assert_eq!((begun(&beyond), begun(&outside), begun(&need)), (reply::STRAY_BITS, reply::PROFILE, reply::PROFILE));
    let both = with(&outside, |it| it.subjects[15] = Some(level(15, 0)));
    assert_eq!(begun(&both), reply::STRAY_BITS);
    let mut stray = outside.table();
    stray[41] |= 1;
    assert_eq!(Monitor::from_table_in(SMALL, &stray), Err(reply::STRAY_BITS));
    assert_eq!(Monitor::from_table_in(SMALL, &stray[..41]), Err(reply::LENGTH));
    // the same tables under the widest profile
    for table in [beyond, outside, need, both].map(|it| it.table()) {
        assert!(Monitor::from_table(&table).is_ok());
    }
}

/// The small state with object 9 of subject 0, who holds r on it.
fn with_object() -> Monitor {
    with(&small(), |it| {
        let mut object = Object { label: Some(level(3, 0b11)), ..Object::new(0) };
        (object.rights[0], object.held[0]) = (0b1110, 0b1000);
        it.objects[9] = Some(object);
    })
}

fn object_9(monitor: &mut Monitor) -> &mut Object {
    monitor.objects[9].as_mut().expect("object 9 is live")
}

#[test]
fn images_are_checked_16_10_11_16_12_6_7_8_9() {
    let good = with_object();
    assert_eq!(read(&good), 0);
    let star = with(&good, |it| {
        let mut lower = Object { label: Some(level(0, 0)), ..Object::new(0) };
        (lower.rights[0], lower.held[0]) = (0b0010, 0b0010);
        it.objects[0] = Some(lower);
    });
    let simple = with(&star, |it| it.subjects[0] = Some(level(2, 0b11)));
    let label = with(&simple, |it| it.objects[0].as_mut().unwrap().label = None);
    let matrix = with(&label, |it| object_9(it).held[1] = 0b0001);
    let absent = with(&matrix, |it| object_9(it).owner = 4);
    let outside = with(&absent, |it| object_9(it).label = Some(level(4, 0b11)));
    let beyond = with(&outside, |it| it.objects[10] = Some(Object::new(0)));
    let states = [(&star, 9), (&simple, 8), (&label, 7), (&matrix, 6), (&absent, 12), (&outside, 16), (&beyond, 11)];
    for (state, number) in states {
        assert_eq!(read(state), number);
    }
    assert_eq!(Monitor::from_image_in(SMALL, &image(&beyond)[..1457]), Err(reply::LENGTH));
    let clearance = with(&absent, |it| it.subjects[3] = Some(level(0, 0x8000)));
    assert_eq!(read(&clearance), reply::PROFILE);
}

#[test]
fn a_record_beyond_the_profile_is_absent_and_a_bit_in_it_gets_11() {
    let good = image(&with_object());
    // the records of subjects 4 to 15 and of objects 10 to 63, each bit by itself
    let bits = (21 * 4..21 * 16).chain(8 * 42 + 177 * 10..8 * IMAGE_BYTES);
    for bit in bits {
        let mut image = good;
        image[bit / 8] |= 0x80 >> (bit % 8);
        assert_eq!(Monitor::from_image_in(SMALL, &image), Err(reply::STRAY_BITS), "bit {bit}");
    }
}

#[test]
fn a_subject_beyond_the_profile_in_a_live_record_is_an_absent_one() {
    let changes: [fn(&mut Object); 3] = [|it| it.owner = 4, |it| it.rights[15] = 1, |it| it.held[4] = 1];
    for change in changes {
        assert_eq!(read(&with(&with_object(), |it| change(object_9(it)))), reply::ABSENT_SUBJECT);
    }
}

#[test]
fn pages_and_orders_under_the_profile() {
    let mut page = [0; PAGE_BYTES];
    let numbers = [9, 10, 63, 64].map(|object| with_object().write_page(object, &mut page));
    assert_eq!(numbers, [0, reply::NOT_LIVE, reply::NOT_LIVE, reply::MALFORMED]);
    let get = |actor, object| Get { actor, object, mode: Mode::Read }.encode();
    for (beyond, inside) in [(get(4, 9), get(3, 9)), (get(0, 10), get(0, 0))] {
        assert_eq!(with_object().start_order(&[inside, beyond].concat()), StartOrder::NoGet { at: 1 });
        assert_eq!(with_object().start_order(&[inside, inside].concat()), StartOrder::Agree);
    }
}

#[test]
fn under_the_widest_profile_nothing_is_outside() {
    let monitor = Monitor::from_table_in(Profile::WIDEST, &table_w());
    assert_eq!(monitor, Monitor::from_table(&table_w()));
    assert_eq!(monitor.map(|it| it.profile), Ok(Profile::WIDEST));
    assert_eq!(Monitor::empty().profile, Profile::WIDEST);
    let mut generator = Xorshift::new(3).unwrap();
    assert!((0..5000).all(|_| Profile::WIDEST.has_request(&generator.request())));
}
