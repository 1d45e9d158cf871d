//! Images and tables, damaged: both give the same number.

use load::Random;
use reference::{Monitor, IMAGE_BYTES, TABLE_BYTES};
use sidebyside::{image, Count, SHAPES};

fn same_image_number(bytes: &[u8], what: &str) -> u8 {
    let number = Monitor::from_image(bytes).err().unwrap_or(0);
    assert_eq!(circmon::read(bytes), number, "{what}");
    number
}

fn same_table_number(bytes: &[u8], what: &str) -> u8 {
    let number = Monitor::from_table(bytes).err().unwrap_or(0);
    let mut buffer = [0xEE; IMAGE_BYTES];
    assert_eq!(circmon::begin(bytes, &mut buffer), number, "{what}");
    if number != 0 {
        assert!(buffer.iter().all(|&b| b == 0xEE), "{what}: a refusal leaves every byte");
    }
    number
}

#[test]
fn each_single_bit_of_rich_images() {
    let mut seen = Count::default();
    for (seed, objects) in [(1, 64), (2, 8), (3, 30)] {
        let bytes = image(&load::rich(seed, objects, 3000));
        for bit in 0..bytes.len() * 8 {
            let mut damaged = bytes.clone();
            damaged[bit / 8] ^= 0x80 >> (bit % 8);
            seen.note(same_image_number(&damaged, &format!("seed {seed}, bit {bit}")));
        }
    }
    // some bits make another accepted image, and each later check refuses some
    for number in [0, 6, 8, 9, 11, 12, 18] {
        assert!(seen.of(number) > 0, "{number} was not met: {seen:?}");
    }
}

#[test]
fn images_damaged_in_random_ways() {
    let mut seen = Count::default();
    for seed in 100..1100 {
        let random = &mut Random::new(seed);
        let mut bytes = image(&load::rich(seed, 1 + random.below(64), 400));
        for _ in 0..1 + random.below(4) {
            let at = random.below(bytes.len());
            match random.below(3) {
                0 => bytes[at] = random.number() as u8,
                1 => bytes[at] = 0,
                _ => {
                    let end = (at + random.below(40)).min(bytes.len());
                    bytes[at..end].fill(0);
                }
            }
        }
        seen.note(same_image_number(&bytes, &format!("seed {seed}")));
    }
    assert!(seen.numbers() >= 5, "{seen:?}");
}

#[test]
fn images_without_label_where_something_is_held() {
    // the label bit of an object on which r, w or a is held, and the label's own bits, cleared: 7
    let mut sevens = 0;
    for seed in 0..60 {
        let mut monitor = load::rich(seed, 10, 600);
        for object in monitor.objects.iter_mut().flatten() {
            object.label = None;
        }
        if same_image_number(&image(&monitor), &format!("seed {seed}")) == 7 {
            sevens += 1;
        }
    }
    assert!(sevens > 10, "{sevens}");
}

#[test]
fn every_length_up_to_some_bytes_more_than_an_image() {
    let bytes = image(&load::rich(7, 20, 2000));
    let mut long = bytes.clone();
    long.resize(IMAGE_BYTES + 26, 0);
    for length in 0..=long.len() {
        let number = same_image_number(&long[..length], &format!("length {length}"));
        assert_eq!(number, if length == IMAGE_BYTES { 0 } else { 10 });
        same_table_number(&long[..length], &format!("length {length}"));
        let mut buffer = vec![0xEE; length];
        let number = circmon::begin(&bytes[..TABLE_BYTES], &mut buffer);
        if length < IMAGE_BYTES {
            assert_eq!(number, 13);
            assert!(buffer.iter().all(|&b| b == 0xEE), "length {length}: every byte is left");
        } else {
            assert_eq!(number, 0);
            assert!(buffer[IMAGE_BYTES..].iter().all(|&b| b == 0xEE), "length {length}: later bytes are left");
        }
    }
}

#[test]
fn tables_damaged_in_each_bit_and_at_random() {
    let mut refused = 0;
    for seed in 0..40 {
        let random = &mut Random::new(seed);
        let table = load::table(random, SHAPES[4]);
        for bit in 0..TABLE_BYTES * 8 {
            let mut damaged = table;
            damaged[bit / 8] ^= 0x80 >> (bit % 8);
            refused += usize::from(same_table_number(&damaged, &format!("seed {seed}, bit {bit}")) == 11);
        }
        same_table_number(&random.bytes(TABLE_BYTES), &format!("seed {seed}"));
    }
    assert!(refused > 100, "{refused}");
}

#[test]
fn requests_on_refused_images_leave_every_byte() {
    for seed in 0..200 {
        let random = &mut Random::new(seed);
        let mut bytes = image(&load::rich(seed, 10, 300));
        let at = random.below(bytes.len());
        bytes[at] ^= 1 << random.below(8);
        if random.once_in(4) {
            bytes.truncate(random.below(IMAGE_BYTES));
        }
        let number = Monitor::from_image(&bytes).err();
        let request = random.bytes(6);
        let before = bytes.clone();
        let answer = circmon::request(&mut bytes, &request);
        if let Some(number) = number {
            assert_eq!(answer, 128 + number, "seed {seed}");
            assert_eq!(bytes, before, "seed {seed}");
        } else {
            assert!(answer < 128, "seed {seed}");
        }
    }
}
