//! docs/FORMATS.md says how a test load is drawn: its table of draws and its example, held to what the library writes. The table
//! is read here as a small language: `1 + d mod 7`, or `d mod 16 in give and rescind`, clauses with a comma between them.

mod shared;

use circmon::{load, Counted, REQUEST_BYTES};
use circtool::words::hex;
use reference::Xorshift;
use shared::formats::{document, fields, table};

/// The kinds by their names on the page, from kind 1 on.
fn kinds() -> Vec<String> {
    table("kind | name").iter().map(|row| row[1].clone()).collect()
}

/// Whether the words name this kind.
fn names(words: &str, known: &[String], kind: u64) -> bool {
    if let Some((first, last)) = words.strip_prefix("kinds ").and_then(|range| range.split_once(" to ")) {
        return (first.parse().unwrap()..=last.parse().unwrap()).contains(&kind);
    }
    let wanted: Vec<&str> = words.split(" and ").collect();
    assert!(wanted.iter().all(|name| known.iter().any(|kind| kind == name)), "{words}");
    wanted.contains(&known[kind as usize - 1].as_str())
}

/// A number plus, or times, `d mod` another one; or `d mod` a number alone.
fn value(expression: &str, draw: u64) -> u64 {
    if let Some(inner) = expression.strip_suffix(')') {
        let (factor, rest) = inner.split_once(" * (").unwrap();
        return factor.parse::<u64>().unwrap() * value(rest, draw);
    }
    if let Some((more, rest)) = expression.split_once(" + ") {
        return more.parse::<u64>().unwrap() + value(rest, draw);
    }
    draw % expression.strip_prefix("d mod ").unwrap().parse::<u64>().unwrap()
}

/// What a cell of the table says of a draw, in a request of this kind; 0 where no clause names the kind.
fn said(cell: &str, known: &[String], kind: Option<u64>, draw: u64) -> u64 {
    for clause in cell.split(", ") {
        match clause.split_once(" in ") {
            None => return value(clause, draw),
            Some((expression, words)) if names(words, known, kind.unwrap()) => return value(expression, draw),
            Some(_) => {}
        }
    }
    0
}

#[test]
fn every_field_is_what_the_table_says_of_its_draw() {
    let (draws, places, known) = (table("draw of a request"), fields("field of a request"), kinds());
    let order: Vec<&str> = draws.iter().map(|row| row[0].as_str()).collect();
    assert_eq!(order, ["1", "2", "3", "4", "5", "6", "7"]);
    let mut written = vec![0; 400 * REQUEST_BYTES];
    for seed in (1..=200).chain([u32::MAX]) {
        let count = written.len() / REQUEST_BYTES;
        assert_eq!(load(seed, &mut written), Counted { number: 0, count: count as u64 });
        let mut generator = Xorshift::new(seed).unwrap();
        for bytes in written.chunks(REQUEST_BYTES) {
            let word = bytes.iter().fold(0, |word, &byte| word << 8 | u64::from(byte));
            let mut kind = None;
            let mut left = word;
            for row in &draws {
                let (first, width) = places[&row[1]];
                let shift = 48 - first - width;
                let number = word >> shift & ((1 << width) - 1);
                let wanted = said(&row[2], &known, kind, generator.draw().into());
                assert_eq!(number, wanted, "{} of seed {seed}: {}", row[1], hex(bytes));
                kind = kind.or(Some(number));
                left -= number << shift;
            }
            assert_eq!(left, 0, "what no draw gives: {}", hex(bytes));
        }
    }
}

#[test]
fn the_example() {
    let document = document();
    let (_, section) = document.split_once("## Test loads").unwrap();
    let shown: Vec<&str> = section.lines().filter(|line| line.starts_with("     2")).map(str::trim).collect();
    let mut written = [0; 2 * REQUEST_BYTES];
    assert_eq!(load(1, &mut written), Counted { number: 0, count: 2 });
    assert_eq!(shown, written.chunks(REQUEST_BYTES).map(hex).collect::<Vec<_>>());
    assert!(section.contains(&Xorshift::new(1).unwrap().draw().to_string()));
}
