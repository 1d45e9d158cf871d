//! Refused tables and images: the check and the place that are found are those of the library's number.

mod shared;

use circmon::{Profile, IMAGE_BYTES};
use circtool::fault::{self, Absent, Fault};
use circtool::layout::{record_of, BYTES_WITHOUT_COMPANIES, BYTES_WITHOUT_PARENTS};
use circtool::refusal;
use load::Random;
use reference::{Monitor, Object};
use shared::second;
use shared::trees::{unruly_is_so, wrong_is_so};
use sidebyside::{image, Count, SHAPES};

/// Nothing is outside it; `profile_refusals` has the others.
const WIDEST: Profile = Profile::WIDEST;

fn number_of(faults: &[Fault], what: &str) -> u8 {
    let number = faults.first().map_or(0, Fault::number);
    assert!(faults.iter().all(|fault| fault.number() == number), "{what}: places of one check only");
    number
}

fn flipped(bytes: &[u8], bit: usize) -> Vec<u8> {
    let mut damaged = bytes.to_vec();
    damaged[bit / 8] ^= 0x80 >> (bit % 8);
    damaged
}

#[test]
fn each_single_bit_of_rich_images_is_located() {
    let mut seen = Count::default();
    for (seed, objects) in [(1, 64), (2, 8), (3, 30)] {
        let bytes = image(&load::rich(seed, objects, 3000));
        for bit in 0..bytes.len() * 8 {
            let what = format!("seed {seed}, bit {bit}");
            let damaged = flipped(&bytes, bit);
            let faults = fault::of_image(WIDEST, &damaged);
            let number = circmon::read(&damaged);
            assert_eq!(number_of(&faults, &what), number, "{what}");
            seen.note(number);
            // the image was accepted before, so whatever is wrong now has to do with the record of that bit
            for fault in &faults {
                assert!(fault.records().contains(&record_of(bit)), "{what}: {fault}");
            }
            if let [Fault::Stray { bits, .. }] = faults.as_slice() {
                let set = damaged[bit / 8] & 0x80 >> (bit % 8) != 0;
                assert!(!set || *bits == [bit], "{what}: {bits:?}");
            }
        }
    }
    for number in [0, 6, 8, 9, 11, 12, 18, 19, 20] {
        assert!(seen.of(number) > 0, "{number} was not met: {seen:?}");
    }
}

#[test]
fn images_damaged_in_random_ways() {
    let mut seen = Count::default();
    for seed in 0..1000 {
        let random = &mut Random::new(seed);
        let mut bytes = image(&load::rich(seed, 1 + random.below(64), 300));
        for _ in 0..1 + random.below(4) {
            let at = random.below(bytes.len());
            bytes[at] = if random.once_in(2) { random.number() as u8 } else { 0 };
        }
        let what = format!("seed {seed}");
        let number = circmon::read(&bytes);
        assert_eq!(number_of(&fault::of_image(WIDEST, &bytes), &what), number, "{what}");
        seen.note(number);
    }
    assert!(seen.numbers() >= 4, "{seen:?}");
}

#[test]
fn states_that_break_one_property() {
    let mut seen = Count::default();
    for seed in 0..800 {
        let random = &mut Random::new(seed);
        let mut monitor = load::rich(seed, 10, 500);
        for object in monitor.objects.iter_mut().flatten() {
            if random.once_in(3) {
                spoil(seed % 7, random, object);
            }
        }
        let bytes = image(&monitor);
        let what = format!("seed {seed}");
        let number = circmon::read(&bytes);
        let faults = fault::of_image(WIDEST, &bytes);
        assert_eq!(number_of(&faults, &what), number, "{what}");
        for fault in &faults {
            is_so(fault, &monitor, &what);
        }
        seen.note(number);
    }
    for number in [6, 7, 8, 9, 12, 18, 19, 20] {
        assert!(seen.of(number) > 5, "{number} was not met often: {seen:?}");
    }
}

/// One of seven ways to break a secure state, at one object.
fn spoil(way: u64, random: &mut Random, object: &mut Object) {
    let subject = random.below(16);
    match way {
        0 => object.label = None,
        1 => object.held[subject] |= reference::Mode::Append.bit(),
        2 => object.owner = subject,
        3 => object.label = object.label.map(|label| reference::Level { class: label.class + 1, ..label }),
        4 => object.label = object.label.map(|_| reference::Level { class: 0, needs: 0 }),
        5 => object.companies = std::array::from_fn(|_| random.below(3) as u8),
        // another object of the state, or one that is not live, or none at all
        _ => {
            let below = if random.once_in(3) { 127 } else { 10 };
            object.parent = Some(random.below(below));
        }
    }
}

/// That a fault is so in the state that the image was written from.
fn is_so(fault: &Fault, state: &Monitor, what: &str) {
    let object = |at: usize| state.objects[at].as_ref().unwrap_or_else(|| panic!("{what}: o{at} is not live"));
    match fault {
        Fault::Length { .. } | Fault::Stray { .. } => panic!("{what}: the form is good"),
        Fault::Outside { .. } => panic!("{what}: under the widest profile"),
        Fault::NotEnrolled { subject, object: at, owns, rights, held } => {
            assert!(state.subjects[*subject].is_none(), "{what}");
            assert_eq!(*owns, object(*at).owner == *subject, "{what}");
            assert_eq!((rights.0, held.0), (object(*at).rights[*subject], object(*at).held[*subject]), "{what}");
        }
        Fault::Discretionary(it) => {
            assert!(object(it.object).held[it.subject] & !object(it.object).rights[it.subject] != 0, "{what}");
        }
        Fault::Label(it) => {
            assert!(object(it.object).label.is_none() && object(it.object).held[it.subject] > 1, "{what}");
        }
        Fault::Simple(it) => {
            let (clearance, label) = (state.subjects[it.subject], object(it.object).label);
            assert_eq!((it.clearance.map(second), it.label.map(second)), (clearance, label), "{what}");
            assert!(object(it.object).reads(it.subject) && !clearance.unwrap().dominates(&label.unwrap()), "{what}");
        }
        Fault::Star(pair) => {
            let (read, written) = (object(pair.read.object), object(pair.written.object));
            assert!(read.reads(pair.read.subject) && written.writes(pair.read.subject), "{what}");
            assert!(!written.label.unwrap().dominates(&read.label.unwrap()), "{what}");
        }
        Fault::Wall(breach) => shared::wall_is_so(breach, state, what),
        Fault::Parent(wrong) => wrong_is_so(wrong, state, what),
        Fault::ParentLabel(it) => unruly_is_so(it, state, what),
    }
}

#[test]
fn lengths_and_tables() {
    let bytes = image(&load::rich(7, 20, 500));
    for length in [0, 1, 41, 42, 43, BYTES_WITHOUT_COMPANIES, BYTES_WITHOUT_PARENTS, IMAGE_BYTES - 1] {
        assert_eq!(circmon::read(&bytes[..length]), 10);
        assert_eq!(fault::of_image(WIDEST, &bytes[..length]), [Fault::Length { found: length, expected: IMAGE_BYTES }]);
    }
    for seed in 0..20 {
        let table = load::table(&mut Random::new(seed), SHAPES[seed as usize % SHAPES.len()]);
        for bit in 0..42 * 8 {
            let damaged = flipped(&table, bit);
            let faults = fault::of_table(WIDEST, &damaged);
            let number = circmon::begin(&damaged, &mut [0; IMAGE_BYTES]);
            assert_eq!(number_of(&faults, "table"), number, "seed {seed}, bit {bit}");
            assert!(faults.iter().all(|it| it.records() == [record_of(bit)]), "seed {seed}, bit {bit}");
        }
    }
}

/// The message about an image that is refused.
fn message(bytes: &[u8]) -> String {
    refusal::of_image(WIDEST, "a.img", bytes, circmon::read(bytes))
}

#[test]
fn messages_name_the_check_and_the_place() {
    let empty = vec![0; IMAGE_BYTES];
    let stray = flipped(&empty, 42 * 8 + 177 + 42 + 8 * 2 + 1);
    assert_eq!(
        message(&stray),
        "a.img: image refused with 11 (a bit is set in what is absent)\n  \
         object record 1 is not live, and the bit at byte 71, mask 0x08 (right w of s2) is set\n"
    );
    let subject = flipped(&flipped(&empty, 21 * 3 + 1), 21 * 3 + 20);
    assert_eq!(
        message(&subject),
        "a.img: image refused with 11 (a bit is set in what is absent)\n  \
         subject record 3 is absent, and the bit at byte 8, mask 0x80 (class) is set, and 1 more of its bits\n"
    );
    let company = flipped(&empty, 42 * 8 + 177 * 63 + 26 + 15);
    assert_eq!(
        message(&company),
        "a.img: image refused with 11 (a bit is set in what is absent)\n  \
         object record 63 is not live, and the bit at byte 1441, mask 0x80 (company of conflict class 4) is set\n"
    );
    let parent = flipped(&empty, 42 * 8 + 177 * 64 - 1);
    assert_eq!(
        message(&parent),
        "a.img: image refused with 11 (a bit is set in what is absent)\n  \
         object record 63 is not live, and the bit at byte 1457, mask 0x01 (parent) is set\n"
    );
    let live = flipped(&empty, 42 * 8);
    assert_eq!(
        message(&live),
        "a.img: image refused with 12 (an absent subject owns, has a right or holds)\n  \
         s0 is not enrolled, and on o0 it is the owner\n"
    );
    let label = flipped(&flipped(&flipped(&empty, 0), 42 * 8), 42 * 8 + 5 + 4);
    assert!(matches!(fault::of_image(WIDEST, &label)[..], [Fault::Stray { absent: Absent::LabelOf(0), .. }]));
    assert!(message(&label).contains("object record 0 has no label, and the bit at byte 43, mask 0x40 (class) is set"));
}

#[test]
fn messages_name_the_size() {
    let empty = vec![0; IMAGE_BYTES];
    for (length, more) in [
        (1457, ""),
        (1402, ": the size of images from before objects had parents"),
        (1274, ": the size of images from before objects had companies and parents"),
    ] {
        let expected = format!("a.img: image refused with 10 (another length)\n  {length} bytes, not 1458{more}\n");
        assert_eq!(message(&empty[..length]), expected);
    }
}

#[test]
fn many_places_are_counted() {
    let mut bytes = vec![0; IMAGE_BYTES];
    bytes[42..].fill(0x55);
    let lines: Vec<String> = message(&bytes).lines().map(str::to_string).collect();
    assert_eq!(lines.len(), 7, "{lines:?}");
    let faults = fault::of_image(WIDEST, &bytes).len();
    assert_eq!(lines[6], format!("  and {} more places of this check", faults - 5));
}
