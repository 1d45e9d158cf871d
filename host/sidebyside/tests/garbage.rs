//! Units with any bytes in them. What the rows say is computed here once more, from docs/FORMATS.md (`sidebyside::rows`).

use circmon::{Rows, Unit, IMAGE_BYTES, OBJECTS, SUBJECTS};
use load::Random;
use reference::{reply, Kind, Level, Monitor};
use sidebyside::rows::{companies_in, level_in, monitor_said, CLEARANCES, HELD, PROFILE, REST};
use sidebyside::tree::broken_rule;
use sidebyside::{image, random_rows, rows_with_subjects, shape, Count, REPLIES};

const LEFT: u8 = 0xEE;

/// The image as bits, the first of the highest weight. A number that does not fit a field gives its low bits.
#[derive(Default)]
struct Bits(Vec<bool>);

impl Bits {
    fn number(&mut self, width: u32, number: u32) {
        self.0.extend((0..width).rev().map(|k| number >> k & 1 == 1));
    }

    fn level(&mut self, level: Option<Level>) {
        let Level { class, needs } = level.unwrap_or(Level { class: 0, needs: 0 });
        self.number(1, level.is_some().into());
        self.number(4, class.into());
        self.number(16, needs.into());
    }

    fn bytes(&self) -> Vec<u8> {
        self.0.chunks(8).map(|bits| bits.iter().fold(0, |byte, &bit| byte << 1 | u8::from(bit))).collect()
    }
}

/// The image of the state that the rows say, with what an object that is not live has.
fn image_said(rows: &Rows) -> Vec<u8> {
    let mut bits = Bits::default();
    rows[CLEARANCES..PROFILE].iter().for_each(|row| bits.level(level_in(row)));
    for object in 0..OBJECTS {
        let rest = &rows[REST + object];
        bits.number(1, (rest[0] == 1).into());
        bits.number(4, rest[1].into());
        bits.level(level_in(rest));
        companies_in(rest).into_iter().for_each(|company| bits.number(4, company.into()));
        for (rights, held) in rows[object].iter().zip(&rows[HELD + object]) {
            bits.number(4, (*rights).into());
            bits.number(4, (*held).into());
        }
        bits.number(7, rest[8].into());
    }
    bits.bytes()
}

/// Most subjects are enrolled, and where an object is not live the bytes say no owner, label, company, right, access or parent.
fn rows_of_a_monitor(random: &mut Random) -> Rows {
    let mut rows = rows_with_subjects(random);
    for object in 0..OBJECTS {
        let rest = &mut rows[REST + object];
        if rest[0] != 1 {
            rest[1] = 0;
            rest[2] = rest[2].max(2) * u8::from(random.once_in(2));
            rest[6..9].fill(0);
            rows[object] = [0; SUBJECTS];
            rows[HELD + object] = [0; SUBJECTS];
        }
    }
    rows
}

/// For every third seed nobody holds anything: what is checked behind the simple and the star property is then reached.
fn held_by_few(seed: u64, rows: &mut Rows) {
    if seed % 3 == 1 {
        rows[HELD..REST].fill([0; SUBJECTS]);
    }
}

#[test]
fn saving_writes_what_the_rows_say_and_nothing_behind_it() {
    for seed in 0..1500 {
        let random = &mut Random::new(seed);
        let unit = Unit::from_rows(random_rows(random));
        let mut buffer = vec![LEFT; IMAGE_BYTES + random.below(20)];
        let kept = unit.clone();
        assert_eq!(unit.save(&mut buffer), 0, "seed {seed}");
        assert!(unit.rows() == kept.rows(), "seed {seed}: the unit is only read");
        assert_eq!(buffer[..IMAGE_BYTES], image_said(unit.rows())[..], "seed {seed}");
        assert!(buffer[IMAGE_BYTES..].iter().all(|&byte| byte == LEFT), "seed {seed}: later bytes are left");
        for length in [random.below(IMAGE_BYTES), IMAGE_BYTES - 1] {
            let mut short = random.bytes(length);
            let kept = short.clone();
            assert_eq!(unit.save(&mut short), reply::SHORT_BUFFER, "seed {seed}, {length} bytes");
            assert_eq!(short, kept, "seed {seed}: every byte is left");
        }
    }
}

#[test]
fn a_refusal_leaves_every_byte_and_a_1_the_state() {
    let mut count = Count::default();
    for seed in 0..1500 {
        let random = &mut Random::new(seed);
        let mut rows = if seed % 3 == 0 { random_rows(random) } else { rows_with_subjects(random) };
        held_by_few(seed, &mut rows);
        let mut unit = Unit::from_rows(rows);
        for at in 0..300 {
            let request = load::bytes(random, shape(seed), &monitor_said(unit.rows()));
            let before = unit.clone();
            let reply = unit.ask(&request);
            count.note(reply);
            let what = format!("seed {seed}, request {at}: {request:02x?} gets {reply}");
            assert!(reply < 2 || unit.rows() == before.rows(), "{what}, and a byte is changed");
            assert!(reply != 1 || unit.image() == before.image(), "{what}, and the state is changed");
        }
    }
    assert!(count.numbers() == REPLIES.len() && REPLIES.iter().all(|&reply| count.of(reply) > 100), "{count:?}");
}

/// The reply to a request. In a state of any bytes the rule of parent and child may be broken between two objects that a change of
/// level has nothing to do with: the proved monitor looks at all objects and replies 20 then, and the second implementation looks
/// at the object, its parent and its children. In a state that a monitor can have the two are the same.
fn asked(monitor: &mut Monitor, request: &[u8], elsewhere: &mut usize) -> u8 {
    let before = monitor.clone();
    let reply = monitor.request(request);
    let changes_level = before.decode(request).is_some_and(|it| matches!(it.kind, Kind::ChangeLevel(_)));
    if reply < 2 && changes_level && broken_rule(monitor).is_some() {
        *monitor = before;
        *elsewhere += 1;
        return reply::PARENT_LABEL;
    }
    reply
}

#[test]
fn replies_and_images_are_those_of_the_state_that_the_rows_say() {
    let (mut count, mut elsewhere) = (Count::default(), 0);
    for seed in 10_000..11_500 {
        let random = &mut Random::new(seed);
        let mut rows = rows_of_a_monitor(random);
        held_by_few(seed, &mut rows);
        let mut unit = Unit::from_rows(rows);
        let mut monitor = monitor_said(unit.rows());
        for at in 0..300 {
            let request = load::bytes(random, shape(seed), &monitor);
            let reply = asked(&mut monitor, &request, &mut elsewhere);
            count.note(reply);
            assert_eq!(unit.ask(&request), reply, "seed {seed}, request {at}: {request:02x?}");
        }
        assert!(monitor_said(unit.rows()) == monitor, "seed {seed}: the state after the requests");
        assert_eq!(unit.image()[..], image(&monitor)[..], "seed {seed}");
    }
    println!("{count:?}; 20 by a pair elsewhere: {elsewhere}");
    assert!(REPLIES.iter().all(|&reply| count.of(reply) > 100), "{count:?}");
    assert!(elsewhere > 100 && count.of(reply::PARENT_LABEL) > elsewhere, "{count:?}, {elsewhere}");
}

#[test]
fn a_number_that_is_too_large_for_the_image_is_saved_by_its_low_bits() {
    let mut rows = *Unit::from_table(&reference::table_w()).unwrap().rows();
    rows[CLEARANCES + 1][3] += 16;
    let unit = Unit::from_rows(rows);
    // the unit replies by class 19, which the image does not hold
    assert_eq!(unit.image(), Unit::from_table(&reference::table_w()).unwrap().image());
    assert_eq!(monitor_said(&rows).subjects[1], Some(Level { class: 19, needs: 3 }));
}
