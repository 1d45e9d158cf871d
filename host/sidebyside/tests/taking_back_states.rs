//! A monitor reached by takings-back counts with those reached by requests: one image is reached with and without them, and what
//! comes then is the same. Units and monitors are compared without the journal.

use circmon::{distinguish, Unit, DISTINGUISH_BYTES, MONITOR_ROWS, OBJECTS, PAGE_BYTES};
use load::{Random, Shape};
use reference::{Journaled, Kind, Monitor, Request};
use sidebyside::orders::{after_order, shuffled, Met};
use sidebyside::start_order::bytes;
use sidebyside::{image, profiles, shape, Both, SHAPES};

/// A unit reached by a list with takings-back, some of them at its end.
struct Reached {
    shape: Shape,
    table: [u8; 42],
    unit: Unit,
    second: Journaled,
    /// the requests with reply 0 that were not taken back
    left: Vec<Vec<u8>>,
}

fn reached(random: &mut Random, seed: u64, steps: usize) -> Reached {
    let shape = shape(seed);
    let table = load::table(random, shape);
    let mut second = Journaled::begin(Monitor::from_table(&table).expect("a table that was written"));
    let (mut unit, mut left) = (Unit::from_table(&table).expect("the same"), Vec::new());
    let (rate, last) = ([3, 8, 40][seed as usize % 3], steps - random.below(6));
    for at in 0..steps {
        if at >= last || random.once_in(rate) {
            let number = unit.take_back();
            assert_eq!(second.take_back(), number, "seed {seed}, step {at}");
            if number == 0 {
                left.pop();
            }
            continue;
        }
        let bytes = load::bytes(random, shape, &second.monitor);
        second.request(&bytes);
        if unit.ask(&bytes) == 0 {
            left.push(bytes);
        }
    }
    Reached { shape, table, unit, second, left }
}

impl Reached {
    /// The same state without takings-back, from the table.
    fn by_requests(&self) -> Unit {
        let mut unit = Unit::from_table(&self.table).expect("a table that was written");
        for request in &self.left {
            assert_eq!(unit.ask(request), 0, "{request:02x?}");
        }
        unit
    }
}

/// Everything that reads a unit says the same of all of them.
fn check_reading(random: &mut Random, units: &[&Unit], monitor: &Monitor, met: &mut Met) {
    for gets in (0..8).map(|_| bytes(&profiles::likely_gets(random, monitor))) {
        let found = units[0].clash(&gets);
        met.note(format!("{found:?}").split(' ').next().unwrap_or_default());
        assert!(units.iter().all(|unit| unit.clash(&gets) == found), "{gets:02x?}");
    }
    let object = random.below(OBJECTS) as u8;
    let page = |unit: &Unit| {
        let mut page = [0xEE; PAGE_BYTES];
        (unit.page(object, &mut page), page)
    };
    for unit in units {
        assert!(*unit == units[0], "the journal does not count");
        assert_eq!(unit.image()[..], image(monitor)[..]);
        assert_eq!(page(unit), page(units[0]));
    }
}

#[test]
fn one_image_reached_with_takings_back_and_without_draws_the_same_replies() {
    let mut met = Met::default();
    for seed in 0..400 {
        let random = &mut Random::new(seed);
        let steps = 20 + random.below(200);
        let mut one = reached(random, seed, steps);
        let (mut two, mut three) = (one.by_requests(), Unit::from_image(&one.unit.image()).expect("it was reached"));
        for (other, name) in [(&two, "by requests alone"), (&three, "from its image")] {
            if one.unit.rows() != other.rows() {
                met.note(format!("another journal than {name}"));
            }
        }
        check_reading(random, &[&one.unit, &two, &three], &one.second.monitor, &mut met);
        // takings-back do not stand in the further list
        for at in 0..150 {
            let request = load::bytes(random, one.shape, &one.second.monitor);
            let reply = one.second.request(&request);
            let replies = [one.unit.ask(&request), two.ask(&request), three.ask(&request)];
            assert_eq!(replies, [reply; 3], "seed {seed}, further request {at}");
        }
        check_reading(random, &[&one.unit, &two, &three], &one.second.monitor, &mut met);
    }
    println!("{met:#?}");
    met.check(200, &["another journal than by requests alone", "another journal than from its image"]);
    met.check(20, &["Agree", "Clash"]);
}

/// Two states of one table, the second some requests or takings-back further.
fn two_states(random: &mut Random, seed: u64) -> [Unit; 2] {
    let steps = 30 + random.below(100);
    let Reached { shape, unit, mut second, .. } = reached(random, seed, steps);
    let mut further = unit.clone();
    for _ in 0..random.below(4) {
        if random.once_in(2) {
            further.take_back();
            second.take_back();
        } else {
            let request = load::request(random, shape, &second.monitor).encode();
            further.ask(&request);
            second.request(&request);
        }
    }
    [unit, further]
}

#[test]
fn different_images_of_states_with_takings_back_are_told_apart() {
    let mut met = Met::default();
    for seed in 0..1500 {
        let random = &mut Random::new(seed);
        let [mut a, mut b] = two_states(random, seed);
        let mut requests = [0; DISTINGUISH_BYTES];
        let number = distinguish(&a.image(), &b.image(), &mut requests);
        assert_eq!(number == 0, a.image() == b.image(), "seed {seed}");
        assert_eq!(number == 0, a == b, "seed {seed}");
        // asked of the units themselves, with their journals
        let differ = |piece: &[u8]| a.ask(piece) != b.ask(piece);
        let told = requests[..6 * usize::from(number)].chunks(6).map(differ).fold(false, |some, it| some | it);
        assert_eq!(told, number != 0, "seed {seed}");
        met.note(if told { "different" } else { "equal" });
    }
    met.check(200, &["different", "equal"]);
}

/// Gives by the owners of live objects, of rights that they have.
fn gives(random: &mut Random, monitor: &Monitor) -> Vec<Vec<u8>> {
    let draw = |_| {
        let mut request = load::request(random, SHAPES[2], monitor);
        request.kind = Kind::Give(random.below(6), random.mode());
        Request::encode(&request).to_vec()
    };
    (0..8).map(draw).collect()
}

#[test]
fn orders_that_leave_different_journals_leave_equal_units() {
    let mut met = Met::default();
    for seed in 0..300 {
        let random = &mut Random::new(seed);
        let both = Both::new(load::rich(seed, 16, 300));
        let list = gives(random, &both.monitor);
        let orders = [shuffled(random, list.len()), shuffled(random, list.len())];
        let [one, two] = orders.each_ref().map(|order| after_order(&both, &list, order).both);
        let [a, b] = [&one, &two].map(|it| it.unit.rows());
        assert!(a[..MONITOR_ROWS] == b[..MONITOR_ROWS] && one.unit == two.unit, "seed {seed}");
        assert_eq!(one.unit.image(), two.unit.image(), "seed {seed}");
        met.note(if a == b { "the same journal" } else { "different journals" });
    }
    met.check(100, &["different journals"]);
}

#[test]
fn journals_do_not_count_in_a_comparison_and_monitors_do() {
    let mut unit = Unit::from_table(&reference::table_w()).unwrap();
    let begun = unit.clone();
    // o1 is created: the slot keeps its number
    assert_eq!(unit.ask(&[0x50, 0x80, 0x08, 0, 0, 0]), 0);
    assert!(unit != begun);
    assert_eq!(unit.take_back(), 0);
    assert!(unit == begun && unit.rows() != begun.rows());
    for row in 0..circmon::ROWS {
        let mut rows = *begun.rows();
        rows[row][row % 16] ^= 1;
        assert_eq!(Unit::from_rows(rows) == begun, row >= MONITOR_ROWS, "row {row}");
    }
}
