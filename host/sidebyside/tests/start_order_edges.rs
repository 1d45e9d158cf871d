//! Start order at its edges: every length to 13 bytes, pieces that are no gets at every place, as many pieces as are looked at
//! and one more, and units with any bytes in them, for which the rule about two gets is computed here a third time.

use circmon::{StartOrder, Unit, MOST_GETS, OBJECTS, SUBJECTS};
use load::Random;
use reference::{Get, Kind, Level, Mode, Monitor, Object, Request};
use sidebyside::orders::Met;
use sidebyside::pair::Pair;
use sidebyside::rows::{companies_in, is_live, label_of, profile_in, CLEARANCES, HELD, PROFILE, REST};
use sidebyside::start_order::{answer, bytes};
use sidebyside::{image, random_rows, wall, Both};

/// Subject 3 is cleared for everything and has all rights: object 0 has a label above that of object 63.
fn state() -> Both {
    let mut monitor = Monitor::empty();
    monitor.subjects[3] = Some(Level { class: 15, needs: 0xFFFF });
    for (slot, class) in [(0, 2), (63, 1)] {
        let mut object = Object { label: Some(Level { class, needs: 0 }), ..Object::new(3) };
        object.rights[3] = 0b1111;
        monitor.objects[slot] = Some(object);
    }
    Both::new(monitor)
}

/// Each is granted alone; of these `READ` and `APPEND` would together break the star property, and no other two.
const READ: Get = Get { actor: 3, object: 0, mode: Mode::Read };
const APPEND: Get = Get { actor: 3, object: 63, mode: Mode::Append };
const EXECUTE: Get = Get { actor: 3, object: 0, mode: Mode::Execute };
/// The actor is not enrolled.
const REFUSED: Get = Get { actor: 4, object: 0, mode: Mode::Read };

#[test]
fn every_length_to_13_bytes() {
    let both = state();
    for (gets, whole) in [
        ([READ, APPEND, READ], StartOrder::Clash { first: 0, second: 1 }),
        ([READ, EXECUTE, APPEND], StartOrder::Agree),
        ([APPEND, REFUSED, READ], StartOrder::Agree),
    ] {
        for length in 0..=13 {
            let expected = match (length / 6, length % 6) {
                (at, 1..) => StartOrder::NoGet { at },
                (2, 0) => whole,
                _ => StartOrder::Agree,
            };
            assert_eq!(answer(&both, &bytes(&gets)[..length]), expected, "{gets:?}, {length} bytes");
        }
    }
}

/// Six bytes of the fields: kind 4 bits, actor 5, other 5, object 7, mode 3, class 4, needs 16, spare 4.
fn packed(kind: u64, actor: u64, other: u64, object: u64, mode: u64, rest: u64) -> [u8; 6] {
    let word = kind << 44 | actor << 39 | other << 34 | object << 27 | mode << 24 | rest;
    word.to_be_bytes()[2..].try_into().expect("six bytes")
}

/// Pieces that are no well-formed gets: every other kind, well formed where it is one, and a get with each field out of range.
fn no_gets() -> Vec<[u8; 6]> {
    let level = Level { class: 2, needs: 1 };
    let kinds = [
        Kind::Release(Mode::Read),
        Kind::Give(3, Mode::Read),
        Kind::Rescind(3, Mode::Read),
        Kind::Create { execute: true, parent: None },
        Kind::Delete,
        Kind::ChangeLevel(level),
        Kind::SetCompanies([0, 0, 0, 1]),
    ];
    let well_formed = kinds.map(|kind| Request { actor: 3, object: 0, kind }.encode());
    assert!(well_formed.iter().all(|piece| Request::decode(piece).is_some()));
    assert_eq!(packed(1, 3, 0, 0, 1, 0), READ.encode());
    let malformed = [
        packed(1, 16, 0, 0, 1, 0),
        packed(1, 31, 0, 0, 1, 0),
        packed(1, 3, 1, 0, 1, 0),
        packed(1, 3, 16, 0, 1, 0),
        packed(1, 3, 0, 64, 1, 0),
        packed(1, 3, 0, 127, 1, 0),
        packed(1, 3, 0, 0, 0, 0),
        packed(1, 3, 0, 0, 5, 0),
        packed(1, 3, 0, 0, 7, 0),
        packed(1, 3, 0, 0, 1, 1 << 20),
        packed(1, 3, 0, 0, 1, 1 << 4),
        packed(1, 3, 0, 0, 1, 1 << 19),
        packed(1, 3, 0, 0, 1, 1),
        packed(1, 3, 0, 0, 1, 8),
        [0; 6],
        [0xFF; 6],
    ];
    let other_kinds = (0..16).filter(|kind| *kind != 1).map(|kind| packed(kind, 3, 0, 0, 1, 0));
    well_formed.into_iter().chain(malformed).chain(other_kinds).collect()
}

#[test]
fn pieces_that_are_no_gets_at_every_place() {
    let both = state();
    // a clash stands before, around and behind the piece: what is no get is told first
    for gets in [[READ, APPEND, READ, EXECUTE, REFUSED], [REFUSED, EXECUTE, REFUSED, READ, APPEND]] {
        for (piece, at) in no_gets().into_iter().flat_map(|piece| (0..gets.len()).map(move |at| (piece, at))) {
            let mut requests = bytes(&gets);
            requests[6 * at..][..6].copy_from_slice(&piece);
            assert_eq!(answer(&both, &requests), StartOrder::NoGet { at }, "{piece:02x?} at {at}");
            // of two such pieces the first is told, and a short one behind it is not
            for later in at + 1..gets.len() {
                let mut two = requests.clone();
                two[6 * later..][..6].copy_from_slice(&[0; 6]);
                two.push(0x10);
                assert_eq!(answer(&both, &two), StartOrder::NoGet { at }, "{piece:02x?} at {at} and {later}");
            }
        }
    }
}

/// As many gets as are looked at: refused ones, but for these at their places.
fn most_gets(others: &[(usize, Get)]) -> Vec<u8> {
    let mut gets = vec![REFUSED; MOST_GETS];
    others.iter().for_each(|(place, get)| gets[*place] = *get);
    bytes(&gets)
}

#[test]
fn as_many_pieces_as_are_looked_at_and_one_more() {
    let both = state();
    let last = MOST_GETS - 1;
    assert_eq!(answer(&both, &most_gets(&[])), StartOrder::Agree);
    for (first, second) in [(0, 1), (0, last), (255, 256), (1000, 3000), (last - 1, last)] {
        let clash = most_gets(&[(first, READ), (second, APPEND)]);
        assert_eq!(clash.len(), 24_576);
        assert_eq!(answer(&both, &clash), StartOrder::Clash { first, second });
        // the last piece is short, and then there is one more
        assert_eq!(answer(&both, &clash[..24_575]), StartOrder::NoGet { at: last });
        for more in 1..=7 {
            let requests = [&clash[..], &clash[..more]].concat();
            assert_eq!(answer(&both, &requests), StartOrder::TooMany, "{} bytes", requests.len());
        }
    }
    // no piece is looked at where there are too many
    for length in [24_577, 24_582, 100_000] {
        assert_eq!(answer(&both, &vec![0xFF; length]), StartOrder::TooMany, "{length} bytes");
    }
    assert_eq!(answer(&both, &[0xFF; 24_576]), StartOrder::NoGet { at: 0 });
    let mut requests = most_gets(&[(0, READ), (1, APPEND)]);
    requests[6 * last] ^= 0x80;
    assert_eq!(answer(&both, &requests), StartOrder::NoGet { at: last });
    // every get is granted alone, and every pair is looked at
    let reads = [bytes(&vec![READ; last]), APPEND.encode().to_vec()].concat();
    assert_eq!(both.unit.clash(&reads[..6 * last]), StartOrder::Agree);
    assert_eq!(both.unit.clash(&reads), StartOrder::Clash { first: 0, second: last });
}

/// What is fixed of any content of a unit: the least two places whose gets are granted on it as it stands, have the same actor,
/// and ask of the labels or of the companies of their objects what these do not keep.
fn said(unit: &Unit, requests: &[u8]) -> StartOrder {
    let pieces: Vec<&[u8]> = requests.chunks(6).collect();
    let profile = profile_in(unit.rows());
    let inside = |get: &Get| profile.has_subject(get.actor) && profile.has_object(get.object);
    let gets: Vec<Option<Get>> = pieces.iter().map(|piece| Get::decode(piece).filter(inside)).collect();
    if let Some(at) = gets.iter().position(Option::is_none) {
        return StartOrder::NoGet { at };
    }
    let gets: Vec<Get> = gets.into_iter().flatten().collect();
    let granted: Vec<bool> = pieces.iter().map(|piece| unit.clone().ask(piece) < 2).collect();
    let label = |get: Get| label_of(unit.rows(), get.object);
    let companies = |get: Get| companies_in(&unit.rows()[REST + get.object]);
    for first in 0..gets.len() {
        for second in first + 1..gets.len() {
            let (a, b) = (gets[first], gets[second]);
            let star = Pair { held: a.mode, wanted: b.mode }.is_kept(label(a), label(b));
            let wall = !wall::between((a.mode, companies(a)), (b.mode, companies(b))).any();
            if granted[first] && granted[second] && a.actor == b.actor && !(star && wall) {
                return StartOrder::Clash { first, second };
            }
        }
    }
    StartOrder::Agree
}

/// Any bytes; or the same with every subject cleared for everything, most objects live and labelled, few accesses held and mostly a
/// profile that has more than all; or a state that was reached with some bytes changed, in half of them with nothing held.
fn garbage(random: &mut Random, seed: u64) -> Unit {
    let mut rows = random_rows(random);
    if seed % 3 == 1 {
        rows[CLEARANCES..PROFILE].iter_mut().for_each(|row| row[2..6].copy_from_slice(&[1, 0xFF, 0xFF, 0xFF]));
        for row in &mut rows[REST..CLEARANCES] {
            row[0] = if random.once_in(4) { row[0] } else { 1 };
            row[2] = if random.once_in(4) { row[2] } else { 1 };
        }
        if !random.once_in(4) {
            rows[PROFILE].iter_mut().for_each(|byte| *byte |= 0xC0);
        }
    }
    if seed % 3 == 2 {
        rows = *Unit::from_image(&image(&load::rich(seed, 1 + random.below(64), 400))).expect("accepted").rows();
        for _ in 0..random.below(40) {
            rows[random.below(rows.len())][random.below(SUBJECTS)] = random.number() as u8;
        }
    }
    if seed % 3 != 0 && random.once_in(2) {
        let often = 1 + random.below(400);
        for byte in rows[HELD..REST].iter_mut().flatten() {
            *byte *= u8::from(random.once_in(often));
        }
    }
    Unit::from_rows(rows)
}

/// Gets of two actors, most of them on live objects with the right; sometimes any bytes behind them.
fn requests(random: &mut Random, unit: &Unit) -> Vec<u8> {
    let actors = [random.below(SUBJECTS), random.below(SUBJECTS)];
    let rows = unit.rows();
    let (mut gets, count) = (Vec::new(), 1 + random.below(12));
    while gets.len() < count {
        let get = Get { actor: actors[random.below(2)], object: random.below(OBJECTS), mode: random.mode() };
        let likely = is_live(rows, get.object) && rows[get.object][get.actor] & get.mode.bit() != 0;
        if likely || random.once_in(20) {
            gets.push(get);
        }
    }
    let more = if random.once_in(20) { random.below(13) } else { 0 };
    [bytes(&gets), random.bytes(more)].concat()
}

#[test]
fn units_with_any_bytes_in_them() {
    let mut met = Met::default();
    for seed in 0..9000 {
        let random = &mut Random::new(seed);
        let unit = garbage(random, seed);
        let kept = unit.clone();
        for _ in 0..20 {
            let requests = requests(random, &unit);
            let found = unit.clash(&requests);
            assert_eq!(found, said(&unit, &requests), "seed {seed}: {requests:02x?}");
            assert!(unit.rows() == kept.rows(), "seed {seed}: the unit is only read");
            let word = format!("{found:?}");
            met.note(format!("{} {}", seed % 3, word.split(' ').next().unwrap_or_default()));
        }
    }
    println!("{met:#?}");
    for way in 0..3 {
        met.check(500, &["Agree", "NoGet"].map(|word| format!("{way} {word}")).each_ref().map(String::as_str));
    }
    met.check(500, &["1 Clash", "2 Clash"]);
}
