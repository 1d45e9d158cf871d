//! What is said of requests, tables and images outside a profile: the number is the library's, and the words are so.

mod shared;

use circmon::{Unit, IMAGE_BYTES};
use circtool::cause::{judge, Cause, Verdict};
use circtool::explain::step;
use circtool::fault::{self, Absent, Fault};
use circtool::layout::{record_of, Record};
use circtool::refusal;
use circtool::request::Malformed;
use circtool::view::View;
use load::Random;
use reference::{Level, Monitor, Profile};
use shared::{second, second_profile};
use sidebyside::orders::Met;
use sidebyside::profiles::{self, FIELDS};
use sidebyside::{image, REPLIES};

/// That a reason is so of the bytes, by the second implementation's profile; its name where the profile gives it.
fn is_so(reason: &Malformed, profile: Profile, bytes: &[u8]) -> Option<&'static str> {
    let request = reference::Request::decode(bytes);
    let fields = request.map(|it| sidebyside::fields(&it));
    let [_, actor, other, object, _, class, needs] = fields?;
    let (name, given) = match reason {
        Malformed::ActorBeyond(number, given) => {
            assert!(u64::from(*number) == actor && actor >= profile.subjects.into());
            ("actor", given)
        }
        Malformed::OtherBeyond(number, given) => {
            assert!(u64::from(*number) == other && other >= profile.subjects.into());
            ("other", given)
        }
        Malformed::ObjectBeyond(number, given) => {
            assert!(u64::from(*number) == object && object >= profile.objects.into());
            ("object", given)
        }
        Malformed::ParentBeyond(number, given) => {
            assert!(u64::from(*number) + 1 == needs && needs > profile.objects.into());
            ("parent", given)
        }
        Malformed::LevelOutside(level, given) => {
            assert_eq!((u64::from(level.class), u64::from(level.needs)), (class, needs));
            assert!(!profile.has_level(&second(*level)));
            (if level.class > profile.highest_class { "class" } else { "need" }, given)
        }
        other => panic!("{other}: the bytes are a request under the widest profile"),
    };
    assert_eq!(second_profile(*given), profile);
    Some(name)
}

#[test]
fn requests_outside_the_profile_are_explained_by_it() {
    let mut met = Met::default();
    for seed in 0..150 {
        let random = &mut Random::new(seed);
        let profile = profiles::drawn(random);
        let shape = profiles::shape(profile, 5);
        let table = load::table_in(random, profile, shape);
        let mut unit = Unit::from_table_in(profiles::proved(profile).unwrap(), &table).unwrap();
        let mut monitor = Monitor::from_table_in(profile, &table).unwrap();
        for at in 0..400 {
            let bytes = profiles::bytes(random, shape, &monitor);
            let verdict = judge(&View::of(&unit), &bytes);
            let step = step(&mut unit, &bytes);
            let what = format!("seed {seed}, request {at}: {bytes:02x?}, {verdict:?}");
            assert_eq!((step.reply, verdict.number()), (monitor.request(&bytes), step.reply), "{what}");
            met.note(format!("reply {}", step.reply));
            if let Verdict::Refused(Cause::Malformed(reasons)) = &verdict {
                let said: Vec<_> = reasons.iter().filter_map(|reason| is_so(reason, profile, &bytes)).collect();
                said.iter().for_each(|name| met.note(*name));
                let words = step.note.unwrap();
                assert_eq!(words.starts_with("the bytes are no request: "), said.is_empty(), "{what}: {words}");
                assert!(said.is_empty() || words.contains(" the profile"), "{what}: {words}");
            }
        }
    }
    met.check(100, &FIELDS);
    let words: Vec<String> = REPLIES.iter().map(|number| format!("reply {number}")).collect();
    met.check(30, &words.iter().map(String::as_str).collect::<Vec<_>>());
}

/// That the places of a check are so, by the state that the image was written from.
fn faults_are_so(faults: &[Fault], monitor: &Monitor, what: &str, met: &mut Met) {
    for fault in faults {
        match fault {
            Fault::Outside { record, level, profile } => {
                let level: Level = second(*level);
                let found = match *record {
                    Record::Subject(subject) => monitor.subjects[subject],
                    Record::Object(object) => monitor.objects[object].as_ref().and_then(|it| it.label),
                };
                assert_eq!((found, second_profile(*profile)), (Some(level), monitor.profile), "{what}: {fault}");
                assert!(!monitor.profile.has_level(&level), "{what}: {fault}");
                met.note(if matches!(record, Record::Subject(_)) { "clearance outside" } else { "label outside" });
            }
            Fault::Stray { absent: Absent::SubjectBeyond(subject, _), bits } => {
                assert!(!monitor.profile.has_subject(*subject), "{what}: {fault}");
                assert!(bits.iter().all(|bit| record_of(*bit) == Record::Subject(*subject)), "{what}: {fault}");
                met.note("subject beyond");
            }
            Fault::Stray { absent: Absent::ObjectBeyond(object, _), bits } => {
                assert!(!monitor.profile.has_object(*object), "{what}: {fault}");
                assert!(bits.iter().all(|bit| record_of(*bit) == Record::Object(*object)), "{what}: {fault}");
                met.note("object beyond");
            }
            _ => met.note("another place"),
        }
    }
}

/// A state that a run under one profile reached, with some bits changed, read under another.
#[test]
fn refused_tables_and_images_are_explained_by_the_profile() {
    let mut met = Met::default();
    for seed in 0..1500 {
        let random = &mut Random::new(seed);
        let (own, profile) = (profiles::drawn(random), profiles::drawn(random));
        let monitor = Monitor { profile, ..profiles::reached(random, own, 120) };
        let mut bytes = image(&monitor);
        let damaged = random.once_in(4);
        if damaged {
            let bit = random.below(8 * IMAGE_BYTES);
            bytes[bit / 8] ^= 0x80 >> (bit % 8);
        }
        let given = profiles::proved(profile).unwrap();
        for (is_table, bytes) in [(true, &bytes[..42]), (false, &bytes[..])] {
            let what = format!("seed {seed}, {profile:?}, table: {is_table}");
            let (begun, faults) = match is_table {
                true => (Unit::from_table_in(given, bytes), fault::of_table(given, bytes)),
                false => (Unit::from_image_in(given, bytes), fault::of_image(given, bytes)),
            };
            let number = begun.err().unwrap_or(0);
            assert!(faults.iter().all(|fault| fault.number() == number), "{what}: {number}, {faults:?}");
            assert_eq!(faults.is_empty(), number == 0, "{what}: {number}");
            met.note(format!("number {number}"));
            if !damaged {
                faults_are_so(&faults, &monitor, &what, &mut met);
            }
        }
    }
    met.check(50, &["clearance outside", "label outside", "subject beyond", "object beyond"]);
    met.check(20, &["number 0", "number 11", "number 16"]);
}

#[test]
fn the_words_of_refused_tables_and_images() {
    let profile = circmon::Profile::new(4, 10, 3, 0b11).unwrap();
    let of = |monitor: &Monitor| {
        let bytes = image(monitor);
        let number = Unit::from_image_in(profile, &bytes).err().unwrap();
        refusal::of_image(profile, "a.img", &bytes, number)
    };
    let mut monitor = Monitor::empty();
    monitor.subjects[1] = Some(Level { class: 5, needs: 0b1000_0001 });
    monitor.objects[0] =
        Some(reference::Object { label: Some(Level { class: 0, needs: 0b100 }), ..reference::Object::new(1) });
    let highest = "is outside the profile, whose highest level is class 3 needs {0,1}";
    assert_eq!(
        of(&monitor),
        format!(
            "a.img: image refused with 16 (a clearance or label is outside the profile)\n  \
             the clearance of s1 (class 5 needs {{0,7}}) {highest}; missing: the class (3 is under 5) and needs {{7}}\n  \
             the label of o0 (class 0 needs {{2}}) {highest}; missing: needs {{2}}\n"
        )
    );
    let refused = refusal::of_table(profile, "a.circ:3", &monitor.table(), 16);
    assert!(refused
        .starts_with("a.circ:3: table refused with 16 (a clearance or label is outside the profile)\n  the clear"));
    monitor.subjects[9] = Some(Level { class: 0, needs: 0 });
    monitor.objects[63] = Some(reference::Object::new(1));
    let words = of(&monitor);
    let lines: Vec<&str> = words.lines().collect();
    assert_eq!(
        lines,
        [
            "a.img: image refused with 11 (a bit is set in what is absent)",
            "  subject record 9 is beyond the profile: 4 subjects, s0 to s3 are in use, and the bit at byte 23, mask 0x04 (enrolled) is set",
            "  object record 63 is beyond the profile: 10 objects, o0 to o9 are in use, and the bit at byte 1435, mask 0x01 (live) is set, and 1 more of its bits",
        ]
    );
}

/// A subject beyond the profile in the record of a live object is an absent subject.
#[test]
fn a_subject_beyond_the_profile_that_has_a_right_is_not_enrolled() {
    let profile = circmon::Profile::new(4, 10, 3, 0b11).unwrap();
    let mut monitor = Monitor::empty();
    monitor.subjects[1] = Some(Level { class: 3, needs: 1 });
    let mut object = reference::Object::new(1);
    object.rights[9] = 8;
    monitor.objects[0] = Some(object);
    let bytes = image(&monitor);
    assert_eq!(Unit::from_image_in(profile, &bytes), Err(12));
    let words = refusal::of_image(profile, "a.img", &bytes, 12);
    assert!(words.ends_with("\n  s9 is not enrolled, and on o0 it has rights r\n"), "{words}");
}
