//! docs/FORMATS.md says what the library does: its tables of fields, modes and checks, its pictures, its worked examples, and
//! the C program that was written from it.

mod shared;

use circmon::{Level, Unit, PAGE_BYTES};
use circtool::words::{hex, reply_words};
use load::Random;
use reference::{Kind, Monitor, Request};
use shared::formats::{document, fields, table, Fields};
use sidebyside::{compiled, image, root, REPLIES, SHAPES};
use std::collections::BTreeMap;
use std::process::Command;

/// The number in a field of a record that begins at this bit.
fn read(bytes: &[u8], at: usize, (first, width): (usize, usize)) -> u64 {
    let bit = |place: usize| u64::from(bytes[place / 8] >> (7 - place % 8) & 1);
    (at + first..at + first + width).fold(0, |number, place| number << 1 | bit(place))
}

/// The fields of a request by their names on the page.
fn numbers(request: &Request) -> [(&'static str, u64); 8] {
    let named = ["kind", "actor", "other", "object", "mode", "class", "needs", "spare"];
    let numbers = sidebyside::fields(request);
    // spare is none of them, and 0
    std::array::from_fn(|at| (named[at], numbers.get(at).copied().unwrap_or(0)))
}

#[test]
fn requests_are_packed_as_the_page_says() {
    let fields = fields("field of a request");
    let shifts: BTreeMap<String, u32> =
        table("field of a request").iter().map(|row| (row[0].clone(), row[3].parse().unwrap())).collect();
    assert_eq!(fields.values().map(|it| it.1).sum::<usize>(), 48);
    for seed in 0..20 {
        let shape = SHAPES[seed as usize % SHAPES.len()];
        let random = &mut Random::new(seed);
        let table = load::table(random, shape);
        let (mut monitor, mut unit) = (Monitor::from_table(&table).unwrap(), Unit::from_table(&table).unwrap());
        for _ in 0..500 {
            let request = load::request(random, shape, &monitor);
            let word: u64 = numbers(&request).iter().map(|(name, number)| number << shifts[*name]).sum();
            let bytes = &word.to_be_bytes()[2..];
            for (name, number) in numbers(&request) {
                assert_eq!(read(bytes, 0, fields[name]), number, "{name} of {request:?}");
            }
            assert_eq!(unit.ask(bytes), monitor.step(request), "{request:?}");
        }
        assert_eq!(unit.image()[..], image(&monitor)[..]);
    }
}

/// Whether the page allows these fields in a kind.
fn allowed(rows: &[Vec<String>], kind: u64, mode: u64, other: u64, class: u64, needs: u64, spare: u64) -> bool {
    let Some(row) = rows.iter().find(|row| row[0] == kind.to_string()) else { return false };
    let modes: &[u64] = match row[2].as_str() {
        "1 to 4" => &[1, 2, 3, 4],
        "0 or 4" => &[0, 4],
        "0" => &[0],
        other => panic!("the modes of kind {kind}: {other}"),
    };
    let used: Vec<&str> = row[3].split(", ").collect();
    let unused = [("other", other), ("class", class), ("needs", needs), ("spare", spare)];
    modes.contains(&mode) && unused.iter().all(|(name, number)| *number == 0 || used.contains(name))
}

#[test]
fn kinds_modes_and_unused_fields_are_those_of_the_page() {
    let rows = table("kind | name");
    let everyone = Monitor::begin([Some(reference::Level { class: 1, needs: 1 }); 16]).table();
    let unit = Unit::from_table(&everyone).unwrap();
    let mut well_formed = 0;
    for at in 0..16 * 8 * 16u64 {
        let (kind, mode, bits) = (at % 16, at / 16 % 8, at / 128);
        let [other, class, needs, spare] = [0, 1, 2, 3].map(|bit| bits >> bit & 1);
        let word = kind << 44 | other << 34 | mode << 24 | class << 20 | needs << 4 | spare;
        let reply = unit.clone().ask(&word.to_be_bytes()[2..]);
        let expected = allowed(&rows, kind, mode, other, class, needs, spare);
        assert_eq!(reply != 2, expected, "kind {kind}, mode {mode}, {other} {class} {needs} {spare}");
        well_formed += usize::from(expected);
    }
    assert_eq!(well_formed, 4 + 4 + 8 + 8 + 4 + 1 + 4 + 2);
}

#[test]
fn each_kind_gets_exactly_the_replies_of_its_checks() {
    let rows = table("kind | name");
    let mut seen: BTreeMap<u64, Vec<u8>> = BTreeMap::new();
    for seed in 0..300 {
        let run = shared::run(seed, SHAPES[seed as usize % SHAPES.len()], 1000);
        let mut unit = Unit::from_table(&run.table).unwrap();
        for bytes in run.requests.iter().filter(|bytes| bytes.len() == 6) {
            seen.entry(u64::from(bytes[0] >> 4)).or_default().push(unit.ask(bytes));
        }
    }
    for row in rows {
        let mut expected: Vec<u8> = row[4].split(", ").map(|check| check.parse().unwrap()).collect();
        expected.extend(if row[6] == "never" { vec![0] } else { vec![0, 1] });
        expected.sort_unstable();
        let replies = seen.get_mut(&row[0].parse().unwrap()).unwrap();
        replies.sort_unstable();
        replies.dedup();
        assert_eq!(*replies, expected, "{}", row[1]);
    }
}

#[test]
fn the_numbers_of_requests_are_those_of_the_page_and_have_words() {
    let rows = table("number | request");
    let numbers: Vec<u8> = rows.iter().filter(|row| !row[1].is_empty()).map(|row| row[0].parse().unwrap()).collect();
    assert_eq!(numbers, REPLIES);
    assert!(REPLIES.iter().all(|&number| !reply_words(number).contains("a number that")));
}

/// As the page says it of a level over another, need by need.
fn over(a: Level, b: Level) -> bool {
    a.class >= b.class && (0..16).all(|need| b.needs >> need & 1 <= a.needs >> need & 1)
}

#[test]
fn the_answers_of_a_comparison_are_those_of_the_page() {
    let rows = table("comparison | name");
    let yes = |it: bool| if it { "yes" } else { "no" };
    let levels: Vec<Level> = (0..4 * 8).map(|at| Level { class: at as u8 / 8, needs: at % 8 }).collect();
    for (a, b) in levels.iter().flat_map(|a| levels.iter().map(move |b| (*a, *b))) {
        let answer = circmon::compare(a, b);
        let row = rows.iter().find(|row| row[1] == format!("{answer:?}").to_lowercase()).unwrap();
        assert_eq!(row[0], (answer as u8).to_string(), "{answer:?}");
        assert_eq!(row[2..], [yes(over(a, b)), yes(over(b, a))], "{a:?} with {b:?}: {answer:?}");
    }
    assert_eq!(rows.len(), 4);
}

/// A level in a record, where the bit before it is set.
fn level(bytes: &[u8], at: usize, present: (usize, usize), fields: &Fields) -> Option<reference::Level> {
    let level = reference::Level {
        class: read(bytes, at, fields["class"]) as u8,
        needs: read(bytes, at, fields["needs"]) as u16,
    };
    (read(bytes, at, present) == 1).then_some(level)
}

fn object(bytes: &[u8], at: usize, fields: &Fields) -> Option<reference::Object> {
    let sets = |(first, width)| std::array::from_fn(|s| read(bytes, at, (first + 8 * s, width)) as u8);
    (read(bytes, at, fields["live"]) == 1).then(|| reference::Object {
        owner: read(bytes, at, fields["owner"]) as usize,
        label: level(bytes, at, fields["labelled"], fields),
        companies: std::array::from_fn(|class| {
            let (first, width) = fields["company"];
            read(bytes, at, (first + 4 * class, width)) as u8
        }),
        rights: sets(fields["rights"]),
        held: sets(fields["held"]),
        parent: (read(bytes, at, fields["parent"]) as usize).checked_sub(1),
    })
}

#[test]
fn tables_and_images_have_the_fields_of_the_page() {
    let (of_subject, of_object) = (fields("field of a subject"), fields("field of an object"));
    for seed in 0..200 {
        let run = shared::run(seed, SHAPES[seed as usize % SHAPES.len()], 300);
        let mut unit = Unit::from_table(&run.table).unwrap();
        for bytes in &run.requests {
            unit.ask(bytes);
        }
        for subject in 0..16 {
            let found = level(&unit.image(), 21 * subject, of_subject["enrolled"], &of_subject);
            assert_eq!(found, run.monitor.subjects[subject], "seed {seed}, subject {subject}");
        }
        for slot in 0..64 {
            let found = object(&unit.image(), 336 + 177 * slot, &of_object);
            assert_eq!(found, run.monitor.objects[slot], "seed {seed}, object {slot}");
        }
    }
}

#[test]
fn the_pictures_have_two_letters_for_each_bit() {
    for (heading, first) in
        [("field of a request", "| kind "), ("field of a subject", "|e| class "), ("field of an object", "|l| owner ")]
    {
        let page = document();
        let line = page.lines().find(|line| line.trim_start().starts_with(first)).unwrap();
        let widths: Vec<usize> = line.trim().trim_matches('|').split('|').map(|cell| cell.len().div_ceil(2)).collect();
        let mut fields = fields(heading);
        // between the sets of s0 and the parent, the last of a record, stand those of the other subjects
        let parent = fields.remove("parent");
        assert!(parent.is_none_or(|(_, width)| widths.last() == Some(&width)), "{line}");
        let mut fields: Vec<(usize, usize)> = fields.into_values().collect();
        fields.sort_unstable();
        let fields: Vec<usize> = fields.into_iter().map(|it| it.1).collect();
        assert_eq!(widths[..fields.len()], fields, "{line}");
    }
}

/// The worked examples: the bits of the fields, the bits of the bytes, and the bytes.
fn examples() -> Vec<Vec<u8>> {
    let page = document();
    let lines: Vec<&str> = page.lines().collect();
    let bits = |line: &str| line.chars().filter(|letter| "01".contains(*letter)).collect::<String>();
    let mut found = Vec::new();
    for at in 2..lines.len() {
        let groups: Vec<&str> =
            lines[at].split_whitespace().take_while(|it| it.len() == 8 && bits(it) == *it).collect();
        if groups.is_empty() {
            continue;
        }
        let bytes: Vec<u8> = groups.iter().map(|it| u8::from_str_radix(it, 2).unwrap()).collect();
        assert!(groups.concat().starts_with(&bits(lines[at - 2])), "{}", lines[at - 2]);
        assert!(
            lines[at + 1].split_whitespace().collect::<Vec<_>>().join(" ").starts_with(&hex(&bytes)),
            "{}",
            lines[at + 1]
        );
        found.push(bytes);
    }
    found
}

#[test]
fn the_worked_examples_are_what_the_library_reads_and_writes() {
    let [request, table, in_image] = <[Vec<u8>; 3]>::try_from(examples()).unwrap();
    let decoded = Request::decode(&request).unwrap();
    let circtool = circtool::request::Request::decode(&request).unwrap();
    assert_eq!(circtool.sentence(), "s1 changes the level of o1 to class 2 needs {0}");
    let table = [table, vec![0; 34]].concat();
    let mut unit = Unit::from_table(&table).unwrap();
    let subjects: Vec<_> = Monitor::from_table(&table).unwrap().subjects.into_iter().flatten().collect();
    assert_eq!(subjects.iter().map(|it| (it.class, it.needs)).collect::<Vec<_>>(), [(1, 1), (3, 3), (0, 0)]);
    let by = |kind| Request { kind, ..decoded }.encode();
    let companies = Kind::SetCompanies([3, 0, 0, 1]);
    for kind in
        [Kind::Create { execute: true, parent: None }, decoded.kind, companies, Kind::Get(reference::Mode::Write)]
    {
        assert_eq!(unit.ask(&by(kind)), 0, "{kind:?}");
    }
    assert_eq!(unit.image()[64..72], in_image);
    let mut written = [0; PAGE_BYTES];
    assert_eq!(unit.page(1, &mut written), 0);
    let (page, written) = (document(), String::from_utf8(written.to_vec()).unwrap());
    let example = page.lines().skip_while(|line| !line.starts_with("An example: of o1 ")).skip(2).map(str::trim);
    let lines: Vec<&str> = written.lines().collect();
    assert_eq!(example.take(3).collect::<Vec<_>>(), [lines[0], lines[1], lines[16]]);
}

#[test]
fn the_program_written_from_the_page_makes_each_kind() {
    let binary = compiled(&root().join("examples/formats.c"), &shared::folder("formats"), &["-std=c11"]);
    let text = shared::out(&Command::new(binary).output().unwrap());
    let bytes =
        |line: &str| -> Vec<u8> { line[..17].split(' ').map(|it| u8::from_str_radix(it, 16).unwrap()).collect() };
    let mut lines = text.lines();
    let table = [bytes(lines.next().unwrap()), vec![0; 36]].concat();
    let mut monitor = Monitor::from_table(&table).unwrap();
    let mut kinds = Vec::new();
    for line in lines.by_ref().take_while(|line| !line.contains("of the image")) {
        let request = circtool::request::Request::decode(&bytes(line)).unwrap();
        let reply = monitor.request(&bytes(line));
        assert_eq!(line[19..], format!("{}: {reply}", request.sentence()), "{text}");
        kinds.push(bytes(line)[0] >> 4);
    }
    kinds.sort_unstable();
    kinds.dedup();
    assert_eq!(kinds, [1, 2, 3, 4, 5, 6, 7, 8]);
    assert!(text.contains(&format!("{}  bytes 64 to 71 of the image\n", hex(&image(&monitor)[64..72]))), "{text}");
}
