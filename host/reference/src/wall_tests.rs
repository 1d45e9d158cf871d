//! The wall between competing companies, from the text of the requirements: its two rules, the requests and images that it
//! refuses, and where check 18 stands among the others. The long runs are in `sidebyside`, for both implementations.

use crate::wall::{from_needs, kept, to_needs};
use crate::*;

const NONE: Companies = [0; CONFLICT_CLASSES];
const A: Companies = [1, 0, 0, 0];
const B: Companies = [2, 0, 0, 0];
/// of another conflict class than A and B
const OTHER: Companies = [0, 0, 0, 9];
/// A's number in its class, and one more
const WITH_A: Companies = [1, 0, 0, 9];

const LOW: Level = Level { class: 0, needs: 0 };
const HIGH: Level = Level { class: 3, needs: 0b11 };

/// Subject 1 owns objects 0, 1, .. with these companies and the label HIGH, to which subjects 1 and 2 have all rights.
fn with_objects(companies: &[Companies]) -> Monitor {
    let mut monitor = Monitor::empty();
    monitor.subjects[1..3].fill(Some(HIGH));
    for (slot, &companies) in companies.iter().enumerate() {
        let mut object = Object { label: Some(HIGH), companies, ..Object::new(1) };
        object.rights[1..3].fill(0b1111);
        monitor.objects[slot] = Some(object);
    }
    monitor
}

fn asked(monitor: &mut Monitor, actor: usize, object: usize, kind: Kind) -> u8 {
    monitor.request(&Request { actor, object, kind }.encode())
}

fn object(monitor: &mut Monitor, slot: usize) -> &mut Object {
    monitor.objects[slot].as_mut().expect("it is live")
}

fn image(monitor: &Monitor) -> [u8; IMAGE_BYTES] {
    let mut image = [0; IMAGE_BYTES];
    assert_eq!(monitor.write_image(&mut image), reply::CHANGED);
    image
}

fn read(monitor: &Monitor) -> u8 {
    Monitor::from_image(&image(monitor)).err().unwrap_or(0)
}

/// The reply to a get of subject 2 that holds a mode on object 0 and wants one on object 1.
fn second(companies: [Companies; 2], held: Mode, wanted: Mode) -> u8 {
    let mut monitor = with_objects(&companies);
    assert_eq!(asked(&mut monitor, 2, 0, Kind::Get(held)), 0);
    asked(&mut monitor, 2, 1, Kind::Get(wanted))
}

/// Every two modes.
fn pairs() -> impl Iterator<Item = (Mode, Mode)> {
    Mode::ALL.into_iter().flat_map(|held| Mode::ALL.map(|wanted| (held, wanted)))
}

#[test]
fn any_two_accesses_have_a_0_or_equal_numbers_in_each_class() {
    for (held, wanted) in pairs() {
        assert_eq!(second([A, B], held, wanted), reply::WALL, "{held:?}, {wanted:?}");
        assert_eq!(second([A, A], held, wanted), reply::CHANGED, "{held:?}, {wanted:?}");
        assert_eq!(second([[1, 2, 3, 4], [1, 2, 3, 5]], held, wanted), reply::WALL, "{held:?}, {wanted:?}");
        // the same number in another class is another company
        let other = second([[5, 0, 0, 0], [0, 5, 0, 0]], Mode::Execute, wanted);
        assert_eq!(other, reply::CHANGED, "{wanted:?}");
    }
}

#[test]
fn what_is_read_flows_only_to_what_has_its_numbers() {
    // the text: "r or w on P and a or w on Q", of a mode on P and one on Q
    let said = |p: Mode, q: Mode| {
        let letter = |mode: Mode| ['r', 'w', 'a', 'e'][mode as usize];
        "rw".contains(letter(p)) && "aw".contains(letter(q))
    };
    for (held, wanted) in pairs() {
        for (on_held, on_wanted) in [(A, NONE), (NONE, A), (A, OTHER), (A, WITH_A), (WITH_A, A), (NONE, NONE)] {
            let flows = |p: Companies, q: Companies| (0..4).all(|class| p[class] == 0 || p[class] == q[class]);
            let broken =
                said(held, wanted) && !flows(on_held, on_wanted) || said(wanted, held) && !flows(on_wanted, on_held);
            let expected = if broken { reply::WALL } else { reply::CHANGED };
            assert_eq!(
                second([on_held, on_wanted], held, wanted),
                expected,
                "{held:?} {on_held:?}, {wanted:?} {on_wanted:?}"
            );
        }
    }
}

#[test]
fn the_second_rule_is_directed() {
    assert_eq!(second([A, NONE], Mode::Read, Mode::Append), reply::WALL, "what A has must not go to nobody's");
    assert_eq!(second([NONE, A], Mode::Read, Mode::Append), reply::CHANGED, "nobody's may go to A");
    assert_eq!(second([A, NONE], Mode::Append, Mode::Read), reply::CHANGED);
    assert_eq!(second([A, WITH_A], Mode::Read, Mode::Append), reply::CHANGED, "A's may go where A is named");
    assert_eq!(second([WITH_A, A], Mode::Read, Mode::Append), reply::WALL);
}

#[test]
fn one_object_and_two_subjects() {
    let mut monitor = with_objects(&[WITH_A, B]);
    for mode in Mode::ALL {
        assert_eq!(asked(&mut monitor, 1, 0, Kind::Get(mode)), 0, "{mode:?} beside the others on the same object");
    }
    assert_eq!(asked(&mut monitor, 2, 1, Kind::Get(Mode::Write)), 0, "another subject");
    assert_eq!(asked(&mut monitor, 1, 1, Kind::Get(Mode::Execute)), reply::WALL);
    assert_eq!(monitor.objects[1].as_ref().unwrap().held[1], 0, "nothing is held after a refusal");
    for mode in Mode::ALL {
        assert_eq!(asked(&mut monitor, 1, 0, Kind::Release(mode)), 0);
    }
    assert_eq!(asked(&mut monitor, 1, 1, Kind::Get(Mode::Execute)), 0, "what is released counts no more");
}

#[test]
fn the_checks_of_a_get_end_with_18() {
    // broken by all: no right, no label, a clearance too low, star and wall; each check in turn is met
    let mut monitor = with_objects(&[A, B]);
    assert_eq!(asked(&mut monitor, 2, 0, Kind::Get(Mode::Read)), 0);
    object(&mut monitor, 1).label = None;
    object(&mut monitor, 1).rights[2] = 0;
    let get = |monitor: &mut Monitor, mode: Mode| asked(&mut monitor.clone(), 2, 1, Kind::Get(mode));
    let all = |monitor: &mut Monitor| Mode::ALL.map(|mode| get(monitor, mode));
    assert_eq!(asked(&mut monitor.clone(), 3, 1, Kind::Get(Mode::Execute)), reply::NOT_ENROLLED);
    assert_eq!(asked(&mut monitor.clone(), 2, 2, Kind::Get(Mode::Execute)), reply::NOT_LIVE);
    assert_eq!(all(&mut monitor), [6; 4]);
    object(&mut monitor, 1).rights[2] = 0b1111;
    assert_eq!(all(&mut monitor), [7, 7, 7, 18], "e has no check 7, 8 or 9");
    object(&mut monitor, 1).label = Some(Level { class: 4, needs: 0 });
    assert_eq!(all(&mut monitor), [8, 8, 9, 18], "a has no check 8");
    object(&mut monitor, 1).label = Some(LOW);
    assert_eq!(all(&mut monitor), [18, 9, 9, 18]);
    object(&mut monitor, 1).label = Some(HIGH);
    assert_eq!(all(&mut monitor), [18; 4]);
    object(&mut monitor, 1).companies = A;
    assert_eq!(all(&mut monitor), [0; 4]);
}

#[test]
fn kind_8_by_the_owner_with_the_four_numbers_in_the_needs_field() {
    let request = Request { actor: 1, object: 0, kind: Kind::SetCompanies([1, 2, 3, 15]) };
    let bytes = request.encode();
    assert_eq!(bytes, [0x80, 0x80, 0x00, 0x01, 0x23, 0xF0]);
    assert_eq!(Request::decode(&bytes), Some(request));
    assert_eq!((from_needs(0x123F), to_needs([1, 2, 3, 15])), ([1, 2, 3, 15], 0x123F));
    assert!((0..=u16::MAX).all(|needs| to_needs(from_needs(needs)) == needs));
    let mut monitor = with_objects(&[NONE]);
    assert_eq!([0, 1].map(|_| monitor.request(&bytes)), [0, 1]);
    assert_eq!(object(&mut monitor, 0).companies, [1, 2, 3, 15]);
    // other subject, mode, class and spare, each by itself
    for bit in [13, 23, 27, 47] {
        let mut bytes = bytes;
        bytes[bit / 8] ^= 0x80 >> (bit % 8);
        assert_eq!(monitor.request(&bytes), reply::MALFORMED, "bit {bit}");
    }
    for (actor, slot, number) in [(3, 0, 3), (3, 1, 3), (1, 1, 4), (2, 1, 4), (2, 0, 6), (1, 0, 0)] {
        assert_eq!(asked(&mut monitor, actor, slot, Kind::SetCompanies(B)), number, "s{actor} on o{slot}");
    }
    assert_eq!(asked(&mut monitor, 1, 0, Kind::SetCompanies(NONE)), 0, "back to none");
}

#[test]
fn kind_8_looks_at_all_subjects_in_the_state_after_it() {
    let mut monitor = with_objects(&[A, A, NONE]);
    for slot in 0..2 {
        assert_eq!(asked(&mut monitor, 2, slot, Kind::Get(Mode::Execute)), 0);
    }
    assert_eq!(asked(&mut monitor, 1, 1, Kind::SetCompanies(B)), reply::WALL, "subject 2, not the owner, holds both");
    assert_eq!(object(&mut monitor, 1).companies, A);
    assert_eq!(asked(&mut monitor, 1, 1, Kind::SetCompanies(A)), reply::ALREADY);
    assert_eq!(asked(&mut monitor, 1, 1, Kind::SetCompanies(WITH_A)), 0, "nothing is read or written");
    assert_eq!(asked(&mut monitor, 1, 1, Kind::SetCompanies(NONE)), 0);
    // the second rule: what is read may not gain a number that what is appended to does not have
    assert_eq!(asked(&mut monitor, 2, 1, Kind::Get(Mode::Read)), 0);
    assert_eq!(asked(&mut monitor, 2, 2, Kind::Get(Mode::Append)), 0);
    assert_eq!(asked(&mut monitor, 1, 1, Kind::SetCompanies(A)), reply::WALL);
    assert_eq!(asked(&mut monitor, 1, 2, Kind::SetCompanies(A)), 0);
    assert_eq!(asked(&mut monitor, 1, 1, Kind::SetCompanies(A)), 0);
    assert_eq!(asked(&mut monitor, 1, 2, Kind::SetCompanies(NONE)), reply::WALL, "nor may that lose it");
}

#[test]
fn a_profile_bounds_subjects_and_objects_of_kind_8_and_no_number() {
    let narrow = Profile { subjects: 2, objects: 1, highest_class: 0, needs: 0 };
    let mut monitor = Monitor::begin_in(narrow, [None; SUBJECTS]);
    monitor.subjects[1] = Some(LOW);
    monitor.objects[0] = Some(Object::new(1));
    for companies in [[15; 4], NONE, [8, 0, 0, 1]] {
        assert_eq!(asked(&mut monitor, 1, 0, Kind::SetCompanies(companies)), 0, "{companies:?}");
        assert_eq!(Monitor::from_image_in(narrow, &image(&monitor)), Ok(monitor.clone()), "{companies:?}");
    }
    assert_eq!(asked(&mut monitor, 2, 0, Kind::SetCompanies(NONE)), reply::MALFORMED);
    assert_eq!(asked(&mut monitor, 1, 1, Kind::SetCompanies(NONE)), reply::MALFORMED);
    assert_eq!(asked(&mut monitor, 0, 0, Kind::SetCompanies(NONE)), reply::NOT_ENROLLED);
}

#[test]
fn the_numbers_are_0_at_creation_and_do_not_belong_to_the_label() {
    let mut monitor = with_objects(&[[7; 4]]);
    assert_eq!(asked(&mut monitor, 1, 0, Kind::Delete), 0);
    assert_eq!(asked(&mut monitor, 1, 0, Kind::Create { execute: false, parent: None }), 0);
    assert_eq!(object(&mut monitor, 0).companies, NONE);
    assert_eq!(asked(&mut monitor, 1, 0, Kind::SetCompanies(B)), 0, "without a label");
    assert_eq!(read(&monitor), 0);
    assert_eq!(asked(&mut monitor, 1, 0, Kind::ChangeLevel(LOW)), 0);
    assert_eq!(object(&mut monitor, 0).companies, B);
    let mut journaled = Journaled::begin(monitor);
    let delete = Request { actor: 1, object: 0, kind: Kind::Delete }.encode();
    assert_eq!((journaled.request(&delete), journaled.take_back()), (0, 0));
    assert_eq!(object(&mut journaled.monitor, 0).companies, B);
    let set = Request { actor: 1, object: 0, kind: Kind::SetCompanies(A) }.encode();
    assert_eq!((journaled.request(&set), journaled.take_back()), (0, 0));
    assert_eq!(object(&mut journaled.monitor, 0).companies, B, "those before it");
}

#[test]
fn images_have_the_numbers_behind_the_needs_and_are_checked_for_18_after_9() {
    let mut monitor = with_objects(&[NONE, [1, 2, 3, 15]]);
    // live, owner, label, then the numbers: from bit 26 of the record of object 1 on
    let at = 8 * 42 + 177 + 26;
    let written = image(&monitor);
    let bits: String =
        (at..at + 16).map(|bit| if written[bit / 8] >> (7 - bit % 8) & 1 == 1 { '1' } else { '0' }).collect();
    assert_eq!(bits, "0001001000111111");
    assert_eq!(Monitor::from_image(&written), Ok(monitor.clone()));
    assert_eq!(Monitor::from_image(&written[..1274]), Err(reply::LENGTH), "the size before there were companies");
    assert_eq!(Monitor::from_image(&written[..1457]), Err(reply::LENGTH));
    // a number in the record of an object that is not live
    for bit in 0..16 {
        let mut stray = written;
        let place = 8 * 42 + 177 * 63 + 26 + bit;
        stray[place / 8] |= 0x80 >> (place % 8);
        assert_eq!(Monitor::from_image(&stray), Err(reply::STRAY_BITS), "bit {bit}");
    }
    object(&mut monitor, 0).companies = [2, 0, 0, 0];
    for slot in 0..2 {
        object(&mut monitor, slot).held[2] = 0b0001;
    }
    assert_eq!(read(&monitor), reply::WALL, "the first rule, by e alone");
    object(&mut monitor, 0).companies = NONE;
    assert_eq!(read(&monitor), 0);
    (object(&mut monitor, 0).held[2], object(&mut monitor, 1).held[2]) = (0b0010, 0b1000);
    assert_eq!(read(&monitor), reply::WALL, "the second rule");
    object(&mut monitor, 0).label = Some(LOW);
    assert_eq!(read(&monitor), reply::STAR, "star comes before it");
    object(&mut monitor, 0).rights[2] = 0;
    assert_eq!(read(&monitor), reply::NO_RIGHT);
}

#[test]
fn the_ways_of_the_wall_answer_alike() {
    let numbers = [NONE, A, B, OTHER, WITH_A, [2, 0, 0, 9], [1, 2, 0, 0]];
    let mut kept_in = 0;
    for (p, q) in numbers.iter().flat_map(|p| numbers.map(|q| (*p, q))) {
        for sets in 0..=255u8 {
            let mut monitor = with_objects(&[p, q]);
            (object(&mut monitor, 0).held[2], object(&mut monitor, 1).held[2]) = (sets / 16, sets % 16);
            let answers = [Star::Plain, Star::Listed, Star::Tabled].map(|way| kept(way, &monitor.objects, 2));
            assert_eq!(answers, [answers[0]; 3], "{p:?} {q:?} {sets:08b}");
            kept_in += usize::from(answers[0]);
        }
    }
    assert!((4000..10_000).contains(&kept_in), "both answers are met often: kept in {kept_in}");
}
