//! Whole states: begun, opened, saved, pages of their objects, and one request on an image; and test loads made from a seed;
//! beside the second implementation.

use crate::loads::{prepare, shape};
use crate::timing::{each, median, print_head, print_row, ROUNDS};
use circmon::Unit;
use load::Random;
use reference::{Journaled, Kind, Mode, Monitor, Request, IMAGE_BYTES, OBJECTS, PAGE_BYTES, REQUEST_BYTES};

/// How often each work is repeated in a round.
const REPEAT: usize = 200;

/// The microseconds of the proved monitor and of the second implementation, taken in turns.
fn row(work: &str, proved: &mut dyn FnMut(), reference: &mut dyn FnMut()) {
    let (mut ours, mut theirs) = (Vec::new(), Vec::new());
    for _ in 0..ROUNDS {
        ours.push(each(REPEAT, proved));
        theirs.push(each(REPEAT, reference));
    }
    print_row(work, median(ours), median(theirs));
}

/// Beginnings from a table, begun as a unit and begun as an image, and the states with so many objects.
pub fn images() {
    print_head("images: microseconds, and the ratio to the second implementation");
    tables();
    for (objects, dense) in [(4, false), (16, false), (64, false), (4, true), (16, true), (64, true)] {
        let (monitor, _) = prepare(&mut Random::new(7), objects, dense);
        let what = format!("{objects} objects, {}", if dense { "dense" } else { "sparse" });
        let mut image = [0; IMAGE_BYTES];
        monitor.write_image(&mut image);
        units(&monitor, &image, &what);
        calls(&image, &what);
    }
    pages("page, sparse", false);
    pages("page, dense", true);
    load_from_seed(100);
}

/// The table is short and the image long: a beginning that is written is nearly the time of writing alone.
fn tables() {
    let table = load::table(&mut Random::new(7), shape(4));
    let mut unit = Unit::from_table(&table).expect("a table that was written");
    // a unit begins with an empty journal, and so does what it is compared with
    row("start from a table", &mut || assert_eq!(unit.start(&table), 0), &mut || {
        assert!(Monitor::from_table(&table).map(Journaled::begin).is_ok_and(|it| it.entries() == 0))
    });
    let (mut one, mut two) = ([0; IMAGE_BYTES], [0; IMAGE_BYTES]);
    row("begin from a table, write", &mut || assert_eq!(circmon::begin(&table, &mut one), 0), &mut || {
        assert_eq!(Monitor::from_table(&table).expect("a table that was written").write_image(&mut two), 0)
    });
    assert_eq!(one, two);
}

/// A unit opened from the image and saved.
fn units(monitor: &Monitor, image: &[u8; IMAGE_BYTES], what: &str) {
    let mut unit = Unit::from_image(image).expect("an image that was written");
    row(&format!("open, {what}"), &mut || assert_eq!(unit.open(image), 0), &mut || {
        assert!(Monitor::from_image(image).map(Journaled::begin).is_ok_and(|it| it.entries() == 0))
    });
    let (mut one, mut two) = ([0; IMAGE_BYTES], [0; IMAGE_BYTES]);
    row(&format!("save, {what}"), &mut || assert_eq!(unit.save(&mut one), 0), &mut || {
        assert_eq!(monitor.write_image(&mut two), 0)
    });
    assert_eq!(one, two);
}

/// The pages of the live objects in turn. What one costs does not depend on how many there are.
fn pages(work: &str, dense: bool) {
    let (monitor, _) = prepare(&mut Random::new(7), OBJECTS, dense);
    let mut image = [0; IMAGE_BYTES];
    monitor.write_image(&mut image);
    let unit = Unit::from_image(&image).expect("an image that was written");
    let live: Vec<u8> = (0..OBJECTS as u8).filter(|&object| monitor.objects[usize::from(object)].is_some()).collect();
    let (mut ours, mut theirs) = (live.iter().cycle(), live.iter().cycle());
    let (mut one, mut two) = ([0; PAGE_BYTES], [0; PAGE_BYTES]);
    row(work, &mut || assert_eq!(unit.page(*ours.next().expect("a live object"), &mut one), 0), &mut || {
        assert_eq!(monitor.write_page(*theirs.next().expect("a live object"), &mut two), 0)
    });
    assert_eq!(one, two);
}

/// So many requests made from a seed. What one costs does not depend on how many there are.
fn load_from_seed(requests: usize) {
    let (mut one, mut two) = (vec![0; requests * REQUEST_BYTES], vec![0; requests * REQUEST_BYTES]);
    row(
        &format!("load, {requests} requests from seed 1"),
        &mut || assert_eq!(circmon::load(1, &mut one).number, 0),
        &mut || assert_eq!(reference::write_load(1, &mut two).0, 0),
    );
    assert_eq!(one, two);
}

/// Calls on images: one is read, and one is read, changed and written.
fn calls(image: &[u8; IMAGE_BYTES], what: &str) {
    row(&format!("read, {what}"), &mut || assert_eq!(circmon::read(image), 0), &mut || {
        assert!(Monitor::from_image(image).is_ok())
    });
    let release = Request { actor: 0, object: 0, kind: Kind::Release(Mode::Execute) }.encode();
    let (mut one, mut two) = (*image, *image);
    row(
        &format!("read, request, write, {what}"),
        &mut || assert!(circmon::request(&mut one, &release) < 128),
        &mut || {
            let mut monitor = Monitor::from_image(&two).expect("an image that was written");
            monitor.request(&release);
            monitor.write_image(&mut two);
        },
    );
    assert_eq!(one, two);
}
