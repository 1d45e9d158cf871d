//! A unit begun from tables and images, accepted and refused, and saved: every byte of it and of the buffer.

use circmon::{Rows, Unit, IMAGE_BYTES, TABLE_BYTES, UNIT_BYTES};
use load::Random;
use reference::{Level, Monitor, SUBJECTS};
use sidebyside::{image, random_rows, Count, SHAPES};

/// What a byte must still have where nothing is written.
const LEFT: u8 = 0xEE;

/// A unit with bytes before and behind it.
#[repr(C)]
struct Guarded {
    before: [u8; 64],
    unit: Unit,
    behind: [u8; 64],
}

impl Guarded {
    fn new(rows: Rows) -> Guarded {
        Guarded { before: [LEFT; 64], unit: Unit::from_rows(rows), behind: [LEFT; 64] }
    }

    fn is_left_around(&self) -> bool {
        self.before.iter().chain(&self.behind).all(|&byte| byte == LEFT)
    }
}

/// A unit with any content, begun: the number, and the unit, which is the same whatever was in it.
fn begun(random: &mut Random, begin: impl Fn(&mut Unit) -> u8, what: &str) -> (u8, Unit) {
    let mut guarded = Guarded::new([[0; 16]; circmon::ROWS]);
    let number = begin(&mut guarded.unit);
    for rows in [[[0xFF; 16]; circmon::ROWS], random_rows(random)] {
        let mut other = Guarded::new(rows);
        assert_eq!(begin(&mut other.unit), number, "{what}");
        assert!(other.unit.rows() == guarded.unit.rows(), "{what}: what was in the unit does not matter");
        assert!(other.is_left_around() && guarded.is_left_around(), "{what}: bytes around the unit");
    }
    (number, guarded.unit)
}

/// The number of a beginning, which is that of the second implementation; the unit then has this image.
fn check(unit: (u8, Unit), monitor: Result<Monitor, u8>, what: &str) -> u8 {
    let (number, unit) = unit;
    assert_eq!(number, *monitor.as_ref().err().unwrap_or(&0), "{what}");
    let empty = Unit::from_table(&[0; TABLE_BYTES]).unwrap();
    if let Ok(monitor) = monitor {
        assert_eq!(unit.image()[..], image(&monitor)[..], "{what}");
    } else {
        assert!(unit.rows() == empty.rows(), "{what}: refused, and the unit is not the empty monitor");
        assert_eq!(unit.image()[..], image(&Monitor::empty())[..], "{what}");
    }
    number
}

fn opened(random: &mut Random, bytes: &[u8], what: &str) -> u8 {
    let kept = bytes.to_vec();
    let number = check(begun(random, |unit| unit.open(bytes), what), Monitor::from_image(bytes), what);
    assert_eq!(circmon::read(bytes), number, "{what}: read");
    assert_eq!(bytes, kept, "{what}: the image is left");
    number
}

fn started(random: &mut Random, bytes: &[u8], what: &str) -> u8 {
    check(begun(random, |unit| unit.start(bytes), what), Monitor::from_table(bytes), what)
}

/// An image that one of the checks may refuse.
fn doubtful(random: &mut Random, seed: u64) -> Vec<u8> {
    let mut monitor = load::rich(seed, 1 + random.below(64), 600);
    let way = random.below(8);
    let top = Level { class: 15, needs: 0xFFFF };
    for object in monitor.objects.iter_mut().flatten() {
        match way {
            0 => object.label = None,
            1 if random.once_in(9) => object.label = Some(top),
            2 if random.once_in(9) => object.rights = [0; SUBJECTS],
            // whoever alters this object and reads another one breaks star
            3 if random.once_in(3) => object.label = Some(Level { class: 0, needs: 0 }),
            _ => {}
        }
    }
    if way == 3 {
        monitor.subjects.iter_mut().flatten().for_each(|it| *it = top);
    }
    if way == 4 {
        monitor.subjects[random.below(SUBJECTS)] = None;
    }
    let mut bytes = image(&monitor);
    if way == 5 {
        let bit = random.below(8 * IMAGE_BYTES);
        bytes[bit / 8] ^= 0x80 >> (bit % 8);
    }
    if way == 6 {
        bytes.resize(random.below(IMAGE_BYTES + 26), 0);
    }
    bytes
}

#[test]
fn images_accepted_and_refused() {
    let mut seen = Count::default();
    for seed in 0..1600 {
        let random = &mut Random::new(seed);
        let bytes = doubtful(random, seed);
        seen.note(opened(random, &bytes, &format!("seed {seed}")));
    }
    for number in [0, 6, 7, 8, 9, 10, 11, 12] {
        assert!(seen.of(number) > 10, "{number}: {seen:?}");
    }
}

#[test]
fn tables_accepted_and_refused() {
    let mut seen = Count::default();
    for seed in 0..600 {
        let random = &mut Random::new(seed);
        let mut bytes = load::table(random, SHAPES[seed as usize % SHAPES.len()]).to_vec();
        match random.below(3) {
            0 => bytes.resize(random.below(TABLE_BYTES + 26), 0),
            1 => bytes[random.below(TABLE_BYTES)] ^= 1 << random.below(8),
            _ => {}
        }
        seen.note(started(random, &bytes, &format!("seed {seed}")));
    }
    assert!([0, 10, 11].iter().all(|&number| seen.of(number) > 10), "{seen:?}");
}

#[test]
fn every_length_of_a_buffer_that_is_saved_to() {
    let monitor = load::rich(7, 20, 2000);
    let unit = Unit::from_image(&image(&monitor)).unwrap();
    for length in 0..IMAGE_BYTES + 26 {
        let (mut proved, mut second) = (vec![LEFT; length], vec![LEFT; length]);
        assert_eq!(unit.save(&mut proved), monitor.write_image(&mut second), "{length} bytes");
        assert_eq!(proved, second, "{length} bytes");
    }
}

#[test]
fn a_unit_is_its_rows_and_nothing_else() {
    assert_eq!((size_of::<Unit>(), align_of::<Unit>()), (UNIT_BYTES, 1));
    // an address that is a multiple of nothing does as well
    let mut memory = vec![0u8; UNIT_BYTES + 1];
    let table = reference::table_w();
    for start in 0..2 {
        let place = memory[start..].as_mut_ptr().cast::<Unit>();
        // Safety: the memory is long enough, every content is a unit, and its alignment is 1.
        let unit = unsafe { &mut *place };
        assert_eq!(unit.start(&table), 0);
        assert!(unit.rows() == Unit::from_table(&table).unwrap().rows());
    }
}
