//! One list of requests through every form of the library: a unit in memory, calls on images, a replay and the program.

use circmon::{Unit, REQUEST_BYTES, TABLE_BYTES};
use load::Random;
use reference::{marked_run, table_w, Monitor, MOST_REQUESTS};
use sidebyside::{drawn, fed, image, program, shape, Count, REPLIES};
use std::process::Command;

/// What is replied to the pieces from a table, and the image after them where the form has one.
type Said = (Vec<u8>, Option<Vec<u8>>);
type Form = fn(&[u8], &[Vec<u8>]) -> Said;

const FORMS: [(&str, Form); 5] = [
    ("a unit", on_a_unit),
    ("a unit opened anew from its image", on_a_unit_opened_anew),
    ("an image", on_an_image),
    ("a replay", by_replay),
    ("the program", by_program),
];

fn by_the_second_implementation(table: &[u8], pieces: &[Vec<u8>]) -> Said {
    let mut monitor = Monitor::from_table(table).unwrap();
    let replies = pieces.iter().map(|piece| monitor.request(piece)).collect();
    (replies, Some(image(&monitor)))
}

fn on_a_unit(table: &[u8], pieces: &[Vec<u8>]) -> Said {
    let mut unit = Unit::from_table(table).unwrap();
    let replies = pieces.iter().map(|piece| unit.ask(piece)).collect();
    (replies, Some(unit.image().to_vec()))
}

fn on_a_unit_opened_anew(table: &[u8], pieces: &[Vec<u8>]) -> Said {
    let mut unit = Unit::from_table(table).unwrap();
    let mut replies = Vec::new();
    for part in pieces.chunks(9) {
        unit = Unit::from_image(&unit.image()).unwrap();
        replies.extend(part.iter().map(|piece| unit.ask(piece)));
    }
    (replies, Some(unit.image().to_vec()))
}

fn on_an_image(table: &[u8], pieces: &[Vec<u8>]) -> Said {
    let mut image = [0; circmon::IMAGE_BYTES];
    assert_eq!(circmon::begin(table, &mut image), 0);
    let replies = pieces.iter().map(|piece| circmon::request(&mut image, piece)).collect();
    (replies, Some(image.to_vec()))
}

fn by_replay(table: &[u8], pieces: &[Vec<u8>]) -> Said {
    let mut replies = vec![0xEE; pieces.len()];
    assert_eq!(circmon::replay(table, &pieces.concat(), &mut replies), 0);
    (replies, None)
}

fn by_program(table: &[u8], pieces: &[Vec<u8>]) -> Said {
    let output = fed(&mut Command::new(program()), &[table, &pieces.concat()].concat());
    let lines = String::from_utf8(output.stdout).unwrap();
    (lines.lines().map(|line| line.parse().unwrap()).collect(), None)
}

/// The replies, the same in every form, after which every form that has an image leaves the same one.
fn replies(table: &[u8; TABLE_BYTES], pieces: &[Vec<u8>], what: &str) -> Vec<u8> {
    let (replies, image) = by_the_second_implementation(table, pieces);
    for (name, form) in FORMS {
        let (found, left) = form(table, pieces);
        assert_eq!(found, replies, "{what}, by {name}");
        assert!(left.is_none() || left == image, "{what}, by {name}: the image");
    }
    replies
}

#[test]
fn the_marked_run_in_every_form() {
    let pieces: Vec<Vec<u8>> = marked_run().iter().map(|(request, _)| request.encode().to_vec()).collect();
    // after each step, so that every image on the way is compared
    for steps in 0..=pieces.len() {
        let expected: Vec<u8> = marked_run()[..steps].iter().map(|(_, reply)| *reply).collect();
        assert_eq!(replies(&table_w(), &pieces[..steps], &format!("{steps} steps")), expected);
    }
}

#[test]
fn a_hundred_thousand_requests_in_every_form() {
    let mut count = Count::default();
    for seed in 60_000..60_025 {
        // a replay and the program cut what they are given into six bytes, all but the last
        let (table, mut pieces) = drawn(seed, shape(seed), MOST_REQUESTS - 1);
        pieces.iter_mut().for_each(|piece| piece.resize(REQUEST_BYTES, 0));
        let last = 1 + seed as usize % REQUEST_BYTES;
        pieces.push(Random::new(seed).bytes(last));
        replies(&table, &pieces, &format!("seed {seed}")).into_iter().for_each(|reply| count.note(reply));
    }
    assert!(count.all() >= 100_000, "{count:?}");
    assert!(REPLIES.iter().all(|&reply| count.of(reply) > 100), "{count:?}");
}
