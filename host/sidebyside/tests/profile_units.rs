//! The row of a unit that has its profile: the widest one beside calls without a profile, and any bytes in it.

use circmon::{distinguish, distinguish_in, Unit, DISTINGUISH_BYTES, PAGE_BYTES, ROWS, ROW_BYTES};
use load::{Random, Shape};
use reference::{reply, Monitor, Profile};
use sidebyside::orders::Met;
use sidebyside::profiles;
use sidebyside::rows::{self, profile_in, PROFILE};
use sidebyside::start_order::{answer, bytes};
use sidebyside::{image, random_rows, shape, Both, SHAPES};

const WIDEST: circmon::Profile = circmon::Profile::WIDEST;

#[test]
fn the_widest_profile_is_the_one_of_calls_without_a_profile() {
    let mut met = Met::default();
    for seed in 0..1500 {
        let random = &mut Random::new(seed);
        let monitor = load::rich(seed, 1 + random.below(64), 150);
        let (mut table, mut bytes) = (monitor.table().to_vec(), image(&monitor));
        let other = bytes.clone();
        for bytes in [&mut table, &mut bytes] {
            if random.once_in(2) {
                let at = random.below(bytes.len());
                bytes[at] ^= 1 << random.below(8);
            }
        }
        // whatever was in the units before
        let [mut one, mut two] = [0, 1].map(|_| Unit::from_rows(random_rows(random)));
        let numbers = (one.start(&table), two.start_in(WIDEST, &table));
        assert!(numbers.0 == numbers.1 && one.rows() == two.rows(), "seed {seed}: start");
        let numbers = (one.open(&bytes), two.open_in(WIDEST, &bytes));
        assert!(numbers.0 == numbers.1 && one.rows() == two.rows(), "seed {seed}: open");
        assert_eq!((one.profile(), numbers.0), (Some(WIDEST), circmon::read(&bytes)), "seed {seed}");
        met.note(if numbers.0 == 0 { "accepted" } else { "refused" });
        let (mut a, mut b) = ([0xEE; DISTINGUISH_BYTES], [0xEE; DISTINGUISH_BYTES]);
        let numbers = (distinguish(&bytes, &other, &mut a), distinguish_in(WIDEST, &bytes, &other, &mut b));
        assert!(numbers.0 == numbers.1 && a == b, "seed {seed}: distinguish");
    }
    met.check(300, &["accepted", "refused"]);
}

#[test]
fn replies_under_the_widest_profile_are_those_without_one() {
    for seed in 0..100 {
        let (random, shape) = (&mut Random::new(seed), shape(seed));
        let table = load::table(random, shape);
        let mut monitor = Monitor::from_table(&table).unwrap();
        let mut units = [Unit::from_table(&table).unwrap(), Unit::from_table_in(WIDEST, &table).unwrap()];
        for at in 0..500 {
            let request = load::bytes(random, shape, &monitor);
            let replies = units.each_mut().map(|unit| unit.ask(&request));
            assert_eq!(replies, [monitor.request(&request); 2], "seed {seed}, request {at}");
            assert!(units[0].rows() == units[1].rows(), "seed {seed}, request {at}");
        }
    }
}

/// A row with any bytes, in which numbers at the borders, and those that no profile has, are frequent.
fn any_row(random: &mut Random) -> [u8; ROW_BYTES] {
    let mut row: [u8; ROW_BYTES] = std::array::from_fn(|_| random.number() as u8);
    let numbers = [[0, 1, 4, 16, 17, 200, 255], [0, 1, 10, 64, 65, 200, 255], [0, 1, 3, 15, 16, 200, 255]];
    for (place, numbers) in [0, 1, 3].into_iter().zip(numbers) {
        if !random.once_in(4) {
            row[place] = numbers[random.below(numbers.len())];
        }
    }
    row
}

/// What the row says that no profile of a site has.
fn note_row(profile: Profile, met: &mut Met) {
    let strange = [
        ("no subject", profile.subjects == 0),
        ("no object", profile.objects == 0),
        ("more subjects than there are", profile.subjects > 16),
        ("more objects than there are", profile.objects > 64),
        ("a class above all", profile.highest_class > 15),
        ("in its ranges", profile.is_in_range()),
    ];
    strange.iter().filter(|(_, is_so)| *is_so).for_each(|(what, _)| met.note(*what));
}

/// A state that was reached, in half of them with nothing held, with any bytes in the row of its profile, in both
/// implementations.
fn with_any_row(random: &mut Random, shape: Shape) -> Both {
    let table = load::table(random, shape);
    let mut monitor = Monitor::from_table(&table).unwrap();
    for _ in 0..100 {
        let request = load::bytes(random, shape, &monitor);
        monitor.request(&request);
    }
    let mut rows = rows::of(&if random.once_in(2) { profiles::released(&monitor) } else { monitor });
    rows[PROFILE] = any_row(random);
    Both { monitor: rows::monitor_said(&rows), unit: Unit::from_rows(rows) }
}

/// A page of any object and the order of some gets, by the row as it stands.
fn check_reading(random: &mut Random, both: &Both, what: &str, met: &mut Met) {
    let (mut one, mut two) = ([0xEE; PAGE_BYTES], [0xEE; PAGE_BYTES]);
    let object = random.below(66) as u8;
    let number = both.unit.page(object, &mut one);
    assert_eq!(number, both.monitor.write_page(object, &mut two), "{what}: page of o{object}");
    assert_eq!(one, two, "{what}: page of o{object}");
    let found = answer(both, &bytes(&profiles::likely_gets(random, &both.monitor)));
    met.note(format!("{found:?}").split(' ').next().unwrap_or_default());
}

#[test]
fn any_bytes_in_the_row_of_the_profile() {
    let mut met = Met::default();
    for seed in 0..1500 {
        let (random, shape) = (&mut Random::new(seed), shape(seed));
        let mut both = with_any_row(random, shape);
        let row = both.unit.rows()[PROFILE];
        note_row(both.monitor.profile, &mut met);
        assert_eq!(both.unit.profile(), profiles::proved(profile_in(both.unit.rows())), "seed {seed}");
        for at in 0..150 {
            let what = format!("seed {seed}, request {at}, {:?}", both.monitor.profile);
            let request = profiles::bytes(random, shape, &both.monitor);
            let reply = both.monitor.request(&request);
            assert_eq!(both.unit.ask(&request), reply, "{what}: {request:02x?}");
            profiles::note_reply(both.monitor.profile, &request, reply, &mut met);
            if at % 30 == 0 {
                check_reading(random, &both, &what, &mut met);
                assert_eq!(both.unit.image()[..], image(&both.monitor)[..], "{what}");
            }
        }
        let mut expected = rows::of(&both.monitor);
        expected[PROFILE] = row;
        assert!(
            both.unit == Unit::from_rows(expected),
            "seed {seed}: every byte of the monitor, also those that have no meaning"
        );
    }
    println!("{met:#?}");
    met.check(100, &["no subject", "no object", "more subjects than there are", "more objects than there are"]);
    met.check(30, &["a class above all", "in its ranges", "Agree", "Clash", "NoGet"]);
    profiles::check_replies(&met, 100);
}

#[test]
fn no_subject_or_object_in_use_and_a_unit_of_zeros() {
    let mut random = Random::new(1);
    let table = load::everyone();
    for (subjects, objects) in [(0, 64), (16, 0), (0, 0), (0, 255)] {
        let mut rows = *Unit::from_table(&table).unwrap().rows();
        rows[PROFILE][..2].copy_from_slice(&[subjects, objects]);
        let monitor = rows::monitor_said(&rows);
        for unit in [Unit::from_rows(rows), Unit::from_rows([[0; ROW_BYTES]; ROWS])] {
            for at in 0..2000 {
                let request = load::bytes(&mut random, SHAPES[at % SHAPES.len()], &monitor);
                let mut asked = unit.clone();
                assert_eq!(asked.ask(&request), reply::MALFORMED, "{request:02x?}");
                assert!(asked.rows() == unit.rows() && unit.profile().is_none(), "{request:02x?}");
            }
        }
    }
}

#[test]
fn the_bytes_without_a_meaning_are_not_looked_at() {
    for seed in 0..200 {
        let (random, shape) = (&mut Random::new(seed), shape(seed));
        let mut both = with_any_row(random, shape);
        let mut rows = *both.unit.rows();
        for place in [2].into_iter().chain(6..ROW_BYTES) {
            rows[PROFILE][place] = random.number() as u8;
        }
        let mut other = Unit::from_rows(rows);
        assert_eq!(both.unit.profile(), other.profile(), "seed {seed}");
        for _ in 0..100 {
            let request = load::bytes(random, shape, &both.monitor);
            let reply = both.monitor.request(&request);
            assert_eq!([both.unit.ask(&request), other.ask(&request)], [reply; 2], "seed {seed}: {request:02x?}");
        }
        assert_eq!(both.unit.image(), other.image(), "seed {seed}");
        assert_eq!(both.unit.rows()[..PROFILE], other.rows()[..PROFILE], "seed {seed}");
    }
}
