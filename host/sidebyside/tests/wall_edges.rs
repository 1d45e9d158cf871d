//! Requests of kind 8 at their edges, given to both implementations: each field wrong in turn, every company, narrow profiles, the
//! order of the checks, and the two rules of the wall for each two modes.

use reference::{reply, Companies, Kind, Level, Mode, Monitor, Object, Profile, Request, CONFLICT_CLASSES};
use sidebyside::profiles::{self, LEAST};
use sidebyside::wall::between;
use sidebyside::{rows, Both};

const NONE: Companies = [0; CONFLICT_CLASSES];
const HIGH: Level = Level { class: 3, needs: 0b11 };

/// Subject 1 makes objects with these companies and one label, and gives subject 2 every right to them. Subject 3 is not enrolled.
fn with_objects(companies: &[Companies]) -> Both {
    let mut monitor = Monitor::empty();
    monitor.subjects[1..3].fill(Some(HIGH));
    let mut both = Both::new(monitor);
    for (object, &companies) in companies.iter().enumerate() {
        let made =
            [Kind::Create { execute: true, parent: None }, Kind::ChangeLevel(HIGH), Kind::SetCompanies(companies)];
        for kind in made.into_iter().chain(Mode::ALL.map(|mode| Kind::Give(2, mode))) {
            assert!(asked(&mut both, 1, object, kind) < 2, "{kind:?}");
        }
    }
    both
}

fn asked(both: &mut Both, actor: usize, object: usize, kind: Kind) -> u8 {
    both.request(&Request { actor, object, kind }.encode())
}

/// Six bytes with these fields: kind, actor, other, object, mode, class, needs, spare.
fn packed(fields: [u64; 8]) -> [u8; 6] {
    let widths = [4, 5, 5, 7, 3, 4, 16, 4];
    let word = fields.iter().zip(widths).fold(0, |word, (field, width)| word << width | field);
    word.to_be_bytes()[2..].try_into().expect("six bytes")
}

const GOOD: [u64; 8] = [8, 1, 0, 0, 0, 0, 0x1234, 0];

#[test]
fn each_field_wrong_in_turn() {
    let mut both = with_objects(&[NONE]);
    // the field, and what it may not be
    let wrong: [(usize, Vec<u64>); 7] = [
        (0, (9..16).chain([0]).collect()),
        (1, (16..32).collect()),
        (2, (1..32).collect()),
        (3, (64..128).collect()),
        (4, (1..8).collect()),
        (5, (1..16).collect()),
        (7, (1..16).collect()),
    ];
    let mut refused = 0;
    for (field, numbers) in wrong {
        for number in numbers {
            let mut fields = GOOD;
            fields[field] = number;
            assert_eq!(both.request(&packed(fields)), reply::MALFORMED, "field {field} is {number}");
            refused += 1;
        }
    }
    assert_eq!(refused, 8 + 16 + 31 + 64 + 7 + 15 + 15);
    let good = packed(GOOD);
    for length in (0..12).filter(|&length| length != 6) {
        let bytes = [good, good].concat()[..length].to_vec();
        assert_eq!(both.request(&bytes), reply::MALFORMED, "{length} bytes");
    }
    assert_eq!([both.request(&good), both.request(&good)], [reply::CHANGED, reply::ALREADY]);
    assert_eq!(both.monitor.objects[0].as_ref().unwrap().companies, [1, 2, 3, 4]);
    assert_eq!(both.unit.rows()[rows::REST][6..8], [0x12, 0x34], "the first class is highest");
}

#[test]
fn every_company_of_every_class() {
    let mut both = with_objects(&[NONE, NONE]);
    for class in 0..CONFLICT_CLASSES {
        for company in 1..16 {
            let mut companies = NONE;
            companies[class] = company;
            let set = Request { actor: 1, object: 1, kind: Kind::SetCompanies(companies) }.encode();
            let needs = u64::from(company) << (12 - 4 * class);
            assert_eq!(set, packed([8, 1, 0, 1, 0, 0, needs, 0]), "{companies:?}");
            assert_eq!([both.request(&set), both.request(&set)], [0, 1], "{companies:?}");
            // another company of the same class: the two are never held together, and with the same one they are
            let mut other = NONE;
            for rival in 1..16 {
                other[class] = rival;
                assert!(asked(&mut both, 1, 0, Kind::SetCompanies(other)) < 2);
                assert_eq!(asked(&mut both, 2, 0, Kind::Get(Mode::Execute)), 0);
                let number = if rival == company { 0 } else { reply::WALL };
                assert_eq!(asked(&mut both, 2, 1, Kind::Get(Mode::Execute)), number, "{companies:?} {other:?}");
                [0, 1]
                    .iter()
                    .for_each(|&object| assert!(asked(&mut both, 2, object, Kind::Release(Mode::Execute)) < 2));
            }
        }
    }
}

#[test]
fn both_rules_for_each_two_modes() {
    let numbers = [NONE, [1, 0, 0, 0], [2, 0, 0, 0], [0, 1, 0, 0], [1, 1, 0, 0], [1, 0, 0, 2], [1, 2, 3, 4]];
    let mut refused = 0;
    for (p, q) in numbers.iter().flat_map(|p| numbers.map(|q| (*p, q))) {
        for (held, wanted) in Mode::ALL.into_iter().flat_map(|held| Mode::ALL.map(|wanted| (held, wanted))) {
            let expected = if between((held, p), (wanted, q)).any() { reply::WALL } else { reply::CHANGED };
            // by a get, and by companies that come to what is held
            let mut both = with_objects(&[p, q]);
            assert_eq!(asked(&mut both, 2, 0, Kind::Get(held)), 0);
            assert_eq!(asked(&mut both, 2, 1, Kind::Get(wanted)), expected, "{held:?} {p:?}, {wanted:?} {q:?}");
            let mut both = with_objects(&[NONE, NONE]);
            assert_eq!(asked(&mut both, 2, 0, Kind::Get(held)), 0);
            assert_eq!(asked(&mut both, 2, 1, Kind::Get(wanted)), 0);
            let first = asked(&mut both, 1, 1, Kind::SetCompanies(q));
            let second = asked(&mut both, 1, 0, Kind::SetCompanies(p));
            let set = first < 2 && second < 2;
            assert_eq!(
                set,
                !between((held, NONE), (wanted, q)).any() && expected == 0,
                "{held:?} {p:?}, {wanted:?} {q:?}"
            );
            refused += usize::from(expected == reply::WALL);
        }
    }
    assert!((200..400).contains(&refused), "{refused}");
}

#[test]
fn the_order_of_the_checks() {
    let mut both = with_objects(&[[1, 0, 0, 0], [2, 0, 0, 0]]);
    assert_eq!(asked(&mut both, 2, 0, Kind::Get(Mode::Read)), 0);
    let set = Kind::SetCompanies([3, 0, 0, 0]);
    assert_eq!(asked(&mut both, 3, 9, set), reply::NOT_ENROLLED);
    assert_eq!(asked(&mut both, 2, 9, set), reply::NOT_LIVE);
    assert_eq!(asked(&mut both, 2, 0, set), reply::NO_RIGHT);
    assert_eq!(asked(&mut both, 1, 0, set), reply::CHANGED, "it holds no other");
    // a get that every check refuses in turn: 6, 7, 8, 9, 18
    let changed = |change: &dyn Fn(&mut Object)| {
        let mut monitor = both.monitor.clone();
        change(monitor.objects[1].as_mut().unwrap());
        Mode::ALL.map(|mode| asked(&mut Both::new(monitor.clone()), 2, 1, Kind::Get(mode)))
    };
    assert_eq!(changed(&|it| (it.label, it.rights[2]) = (None, 0)), [6, 6, 6, 6]);
    assert_eq!(changed(&|it| it.label = None), [7, 7, 7, 18]);
    assert_eq!(changed(&|it| it.label = Some(Level { class: 4, needs: 0 })), [8, 8, 9, 18]);
    assert_eq!(changed(&|it| it.label = Some(Level { class: 0, needs: 0 })), [18, 9, 9, 18]);
    assert_eq!(changed(&|_| {}), [18; 4]);
    assert_eq!(changed(&|it| it.companies = [3, 0, 0, 0]), [0; 4]);
}

#[test]
fn no_profile_bounds_the_numbers() {
    let narrow = [LEAST, Profile { subjects: 2, objects: 3, highest_class: 1, needs: 0x0002 }];
    for profile in narrow {
        let mut monitor = Monitor::begin_in(profile, [None; 16]);
        monitor.subjects[0] = Some(profiles::top(profile));
        monitor.objects[0] = Some(Object::new(0));
        let mut both = Both::new(monitor);
        for needs in [0xFFFFu16, 0x8000, 1, 2, 0x1248, 0] {
            let bytes = packed([8, 0, 0, 0, 0, 0, needs.into(), 0]);
            assert_eq!([both.request(&bytes), both.request(&bytes)], [0, 1], "{needs:04x} under {profile:?}");
        }
        let (subjects, objects) = (u64::from(profile.subjects), u64::from(profile.objects));
        assert_eq!(both.request(&packed([8, subjects, 0, 0, 0, 0, 0, 0])), reply::MALFORMED, "{profile:?}");
        assert_eq!(both.request(&packed([8, 0, 0, objects, 0, 0, 0, 0])), reply::MALFORMED, "{profile:?}");
    }
}
