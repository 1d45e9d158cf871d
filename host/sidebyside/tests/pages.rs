//! Access pages: both implementations along the long runs, every length of a buffer, the order of the refusals, and units with
//! any bytes in them, whose pages are computed here once more from the words of docs/FORMATS.md.

use circmon::{Rows, Unit, OBJECTS, PAGE_BYTES, SUBJECTS};
use load::Random;
use reference::{reply, Kind, Level, Mode, Monitor, Request};
use sidebyside::{drawn, image, random_rows, shape, Count, RUNS, RUN_REQUESTS};

/// Bytes before and behind a buffer, which no call may write.
const AROUND: usize = 16;
const LONGEST: usize = 300;

/// A buffer with bytes around it. No two neighbours are equal, so that what is moved by a byte is seen too.
#[derive(Clone, Copy, PartialEq, Eq, Debug)]
struct Guarded([u8; AROUND + LONGEST + AROUND]);

impl Guarded {
    fn new() -> Guarded {
        Guarded(std::array::from_fn(|at| (37 * at + 200) as u8))
    }

    fn buffer(&mut self, length: usize) -> &mut [u8] {
        &mut self.0[AROUND..][..length]
    }

    /// The same bytes with this page written.
    fn with(page: &[u8]) -> Guarded {
        let mut guarded = Guarded::new();
        guarded.buffer(page.len()).copy_from_slice(page);
        guarded
    }
}

/// The number of the proved monitor and all bytes after it.
fn proved(unit: &Unit, object: u8, length: usize) -> (u8, Guarded) {
    let mut guarded = Guarded::new();
    (unit.page(object, guarded.buffer(length)), guarded)
}

/// The same of the second implementation.
fn second(monitor: &Monitor, object: u8, length: usize) -> (u8, Guarded) {
    let mut guarded = Guarded::new();
    (monitor.write_page(object, guarded.buffer(length)), guarded)
}

/// The lines of a page without their newlines: those of the subjects, and the last.
fn lines(page: &[u8]) -> ([&[u8]; SUBJECTS], &[u8]) {
    let (lines, last) = page.split_at(page.len() - 18);
    let mut lines = lines.chunks(15).map(|line| line.strip_suffix(b"\n").expect("a newline"));
    (std::array::from_fn(|_| lines.next().expect("a line")), last.strip_suffix(b"\n").expect("a newline"))
}

/// A number in decimal digits.
fn number(digits: &[u8]) -> u8 {
    assert!(digits.iter().all(u8::is_ascii_digit), "{digits:?}");
    digits.iter().fold(0, |number, digit| 10 * number + (digit - b'0'))
}

/// What the pages had.
#[derive(Default, Debug)]
struct Seen {
    numbers: Count,
    /// at each place of the rights and of the accesses: its letter, and a dash
    letters: [[usize; 2]; 8],
    /// how many accesses the lines had
    held: Count,
    /// the numbers of holders of each mode, and the totals
    holders: [Count; 4],
    totals: Count,
}

impl Seen {
    /// Looks at a page by its characters alone: its sums are the same down the lines and over the modes.
    fn look(&mut self, page: &[u8], what: &str) {
        let (lines, last) = lines(page);
        let mut sum = 0;
        for line in lines {
            let held = number(&line[13..]);
            assert_eq!(usize::from(held), line[8..12].iter().filter(|&&letter| letter != b'-').count(), "{what}");
            self.held.note(held);
            for (place, &letter) in line[3..7].iter().chain(&line[8..12]).enumerate() {
                assert!([b"rwae"[place % 4], b'-'].contains(&letter), "{what}: {letter}");
                self.letters[place][usize::from(letter == b'-')] += 1;
            }
            sum += held;
        }
        let holders = [3, 6, 9, 12].map(|at| number(&last[at..at + 2]));
        let total = number(&last[15..]);
        assert_eq!((sum, holders.iter().sum()), (total, total), "{what}");
        self.totals.note(total);
        self.holders.iter_mut().zip(holders).for_each(|(count, holders)| count.note(holders));
    }
}

/// The page of an object in a buffer of this length, which is the same for both.
fn compare(both: (&Unit, &Monitor), object: u8, length: usize, seen: &mut Seen, what: &str) {
    let (number, bytes) = proved(both.0, object, length);
    assert_eq!((number, bytes), second(both.1, object, length), "{what}: o{object}, {length} bytes");
    seen.numbers.note(number);
    if number == 0 {
        seen.look(&bytes.0[AROUND..][..PAGE_BYTES], what);
    }
}

/// Mostly the exact length; short and longer ones too.
fn length(random: &mut Random) -> usize {
    match random.below(8) {
        0 => random.below(PAGE_BYTES),
        1 => PAGE_BYTES + random.below(LONGEST - PAGE_BYTES + 1),
        _ => PAGE_BYTES,
    }
}

/// A run: after each request the page of its object, and after every fourth that of any number of an object.
fn compare_run(seed: u64, seen: &mut Seen) {
    let random = &mut Random::new(seed);
    let (table, requests) = drawn(seed, shape(seed), RUN_REQUESTS);
    let (mut unit, mut monitor) = (Unit::from_table(&table).unwrap(), Monitor::from_table(&table).unwrap());
    for (at, request) in requests.iter().enumerate() {
        let what = (seed, at);
        assert_eq!(unit.ask(request), monitor.request(request), "{what:?}");
        let object = Request::decode(request).map(|it| it.object as u8);
        let any = (object.is_none() || at % 4 == 0).then(|| random.number() as u8);
        for object in object.into_iter().chain(any) {
            compare((&unit, &monitor), object, length(random), seen, &format!("{what:?}"));
        }
    }
}

#[test]
fn pages_along_a_million_requests() {
    let mut seen = Seen::default();
    for seed in 0..RUNS {
        compare_run(seed, &mut seen);
    }
    assert!(RUNS as usize * RUN_REQUESTS >= 1_000_000 && seen.numbers.all() >= 1_000_000, "{seen:?}");
    assert!(seen.numbers.numbers() == 4 && [0, 2, 4, 13].iter().all(|&it| seen.numbers.of(it) > 10_000), "{seen:?}");
    assert!(seen.letters.as_flattened().iter().all(|&times| times > 10_000), "{seen:?}");
    assert!(seen.held.numbers() == 5 && (0..=4).all(|held| seen.held.of(held) > 10_000), "{seen:?}");
}

/// The pairs of a subject and a mode, in any order.
fn pairs(random: &mut Random) -> Vec<(usize, Mode)> {
    let mut pairs: Vec<_> = (0..SUBJECTS).flat_map(|subject| Mode::ALL.map(|mode| (subject, mode))).collect();
    for at in 1..pairs.len() {
        pairs.swap(at, random.below(at + 1));
    }
    pairs
}

/// What lets everybody hold everything on one object, access by access, and then nobody anything in another order.
fn all_then_nothing(random: &mut Random, level: Level) -> (u8, Vec<Request>) {
    let (owner, object) = (random.below(SUBJECTS), random.below(OBJECTS));
    let by = |actor: usize, kind: Kind| Request { actor, object, kind };
    let mut requests =
        vec![by(owner, Kind::Create { execute: true, parent: None }), by(owner, Kind::ChangeLevel(level))];
    for (subject, mode) in pairs(random) {
        requests.extend([by(owner, Kind::Give(subject, mode)), by(subject, Kind::Get(mode))]);
    }
    requests.extend(pairs(random).into_iter().map(|(subject, mode)| by(subject, Kind::Release(mode))));
    (object as u8, requests)
}

#[test]
fn pages_of_an_object_with_every_number_of_holders() {
    let mut seen = Seen::default();
    let level = Level { class: 1, needs: 1 };
    for seed in 0..50 {
        let mut monitor = Monitor::begin([Some(level); SUBJECTS]);
        let mut unit = Unit::from_table(&monitor.table()).unwrap();
        let (object, requests) = all_then_nothing(&mut Random::new(seed), level);
        for request in requests {
            let what = format!("seed {seed}: {request:?}");
            let reply = monitor.step(request);
            assert!(reply < 2 && unit.ask(&request.encode()) == reply, "{what}");
            compare((&unit, &monitor), object, PAGE_BYTES, &mut seen, &what);
        }
    }
    assert!((0..=64).all(|total| seen.totals.of(total) >= 50), "{seen:?}");
    assert!(seen.holders.iter().all(|count| (0..=16).all(|holders| count.of(holders) >= 50)), "{seen:?}");
}

/// The number for an object, whether it is live, and the length of the buffer, in the order 2, 4, 13.
fn number_said(monitor: &Monitor, object: u8, length: usize) -> u8 {
    match monitor.objects.get(usize::from(object)) {
        None => reply::MALFORMED,
        Some(None) => reply::NOT_LIVE,
        Some(Some(_)) if length < 258 => reply::SHORT_BUFFER,
        Some(Some(_)) => 0,
    }
}

#[test]
fn every_object_and_every_length_of_a_buffer() {
    let monitor = load::rich(7, 40, 2000);
    let unit = Unit::from_image(&image(&monitor)).unwrap();
    let mut seen = Seen::default();
    for object in 0..=255 {
        for length in 0..=LONGEST {
            let what = format!("o{object}, {length} bytes");
            compare((&unit, &monitor), object, length, &mut seen, &what);
            let (number, bytes) = proved(&unit, object, length);
            assert_eq!(number, number_said(&monitor, object, length), "{what}");
            assert!(number == 0 || bytes == Guarded::new(), "{what}: a refusal leaves every byte");
            assert!(number != 0 || bytes == Guarded::with(&bytes.0[AROUND..][..PAGE_BYTES]), "{what}: what is around");
        }
    }
    assert!([0, 2, 4, 13].iter().all(|&number| seen.numbers.of(number) > 1000), "{seen:?}");
}

/// The set in its four places, r of weight 8 first; higher bits are not looked at.
fn places(set: u8) -> String {
    [(8, 'r'), (4, 'w'), (2, 'a'), (1, 'e')]
        .map(|(weight, letter)| if set & weight == 0 { '-' } else { letter })
        .iter()
        .collect()
}

/// The page that the rows of a unit say, or the number, in the words of docs/FORMATS.md.
fn page_said(rows: &Rows, object: u8) -> Result<String, u8> {
    let object = usize::from(object);
    if object > 63 {
        return Err(2);
    }
    if rows[128 + object][0] != 1 {
        return Err(4);
    }
    let held: Vec<String> = rows[64 + object].iter().map(|&set| places(set)).collect();
    let letters = |text: &str| text.chars().filter(|&letter| letter != '-').count();
    let line = |(subject, held): (usize, &String)| {
        format!("{subject:02} {} {held} {}\n", places(rows[object][subject]), letters(held))
    };
    let lines: String = held.iter().enumerate().map(line).collect();
    let of = |mode: char| held.iter().filter(|it| it.contains(mode)).count();
    let (r, w, a, e) = (of('r'), of('w'), of('a'), of('e'));
    Ok(format!("{lines}to {r:02} {w:02} {a:02} {e:02} {:02}\n", letters(&held.concat())))
}

#[test]
fn pages_of_units_with_any_bytes() {
    let mut seen = Seen::default();
    let (mut neither, mut wide) = (0, 0);
    for seed in 0..1500 {
        let random = &mut Random::new(seed);
        let unit = Unit::from_rows(random_rows(random));
        let kept = unit.clone();
        neither += unit.rows()[128..192].iter().filter(|rest| rest[0] > 1).count();
        wide += unit.rows()[..128].iter().filter(|sets| sets.iter().any(|&set| set > 15)).count();
        for object in (0..OBJECTS as u8 + 2).chain([random.number() as u8]) {
            let what = format!("seed {seed}, o{object}");
            let (number, bytes) = proved(&unit, object, PAGE_BYTES + random.below(20));
            seen.numbers.note(number);
            let said = page_said(unit.rows(), object);
            assert_eq!(number, *said.as_ref().err().unwrap_or(&0), "{what}");
            let page = said.unwrap_or_default();
            assert_eq!(bytes, Guarded::with(page.as_bytes()), "{what}: {page}");
            if number == 0 {
                seen.look(page.as_bytes(), &what);
                let short = random.below(PAGE_BYTES);
                assert_eq!(proved(&unit, object, short), (13, Guarded::new()), "{what}, {short} bytes");
            }
        }
        assert!(unit.rows() == kept.rows(), "seed {seed}: the unit is only read");
    }
    assert!([0, 2, 4].iter().all(|&number| seen.numbers.of(number) > 1000), "{seen:?}");
    assert!((15..=40).all(|total| seen.totals.of(total) > 30), "{seen:?}");
    assert!(
        neither > 1000 && wide > 1000,
        "{neither} objects with a byte other than 0 or 1, {wide} with a set above 15"
    );
}
