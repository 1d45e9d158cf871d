//! The wall along runs: both implementations on a million requests with companies, and 18 exactly where a rule of the wall, computed
//! here from its sentence, would be broken and no earlier check refuses.

use circmon::Unit;
use load::Shape;
use reference::{Kind, Mode, Monitor, Request, SUBJECTS};
use sidebyside::orders::Met;
use sidebyside::wall::{broken, Broken, NAMES};
use sidebyside::{drawn, image, with_effect, RUNS, RUN_REQUESTS};

/// Few companies on few objects, so that one subject often meets two of them; levels are few too, so that star refuses less.
const SHAPES: [Shape; 4] = [
    Shape { objects: 3, subjects: 3, classes: 1, needs: 0, companies: 2, parents: 0, damaged: 12 },
    Shape { objects: 6, subjects: 4, classes: 2, needs: 1, companies: 1, parents: 0, damaged: 20 },
    Shape { objects: 12, subjects: 3, classes: 1, needs: 1, companies: 3, parents: 0, damaged: 30 },
    Shape { objects: 64, subjects: 16, classes: 2, needs: 0, companies: 15, parents: 0, damaged: 40 },
];

fn letter(mode: Mode) -> char {
    ['r', 'w', 'a', 'e'][mode as usize]
}

/// The refusal by a check before 18: that of a state in which no object has a company, nor gets one.
fn earlier(before: &Monitor, request: &Request) -> Option<u8> {
    let mut without = before.clone();
    without.objects.iter_mut().flatten().for_each(|it| it.companies = [0; 4]);
    let kind = match request.kind {
        Kind::SetCompanies(_) => Kind::SetCompanies([0; 4]),
        kind => kind,
    };
    match without.step(Request { kind, ..*request }) {
        0 | 1 => None,
        number => Some(number),
    }
}

/// The rules that the request would break by what somebody holds: the actor of a get, anybody of companies.
fn would_break(before: &Monitor, request: &Request) -> Broken {
    let after = with_effect(before, request);
    let subjects = if matches!(request.kind, Kind::Get(_)) { request.actor..request.actor + 1 } else { 0..SUBJECTS };
    subjects
        .map(|subject| broken(&after, subject))
        .fold(Broken::default(), |all, it| Broken { first: all.first || it.first, second: all.second || it.second })
}

/// Notes a get or a setting of companies, and that its reply is what the sentences say.
fn note(before: &Monitor, request: &Request, reply: u8, met: &mut Met) {
    let name = match request.kind {
        Kind::Get(mode) => format!("get of {}", letter(mode)),
        Kind::SetCompanies(_) => "companies".to_string(),
        _ => {
            assert_ne!(reply, 18, "{request:?}");
            return;
        }
    };
    met.note(format!("{name} gets {reply}"));
    if let Some(number) = earlier(before, request) {
        assert_eq!(reply, number, "{request:?}");
        return;
    }
    let rules = would_break(before, request);
    assert_eq!(reply == 18, rules.any(), "{request:?} gets {reply}: {rules:?}");
    if let Some(rules) = rules.name() {
        met.note(format!("{name} breaks {rules}"));
    }
    if reply == 0 && matches!(request.kind, Kind::SetCompanies(_)) {
        let it = before.objects[request.object].as_ref().expect("a request that is granted");
        met.note(if it.label.is_none() { "set without a label" } else { "set with a label" });
    }
}

fn follow(seed: u64, met: &mut Met) {
    let shape = SHAPES[seed as usize % SHAPES.len()];
    let (table, requests) = drawn(seed ^ 0x3A11, shape, RUN_REQUESTS);
    let (mut monitor, mut unit) = (Monitor::from_table(&table).unwrap(), Unit::from_table(&table).unwrap());
    for (at, bytes) in requests.iter().enumerate() {
        let before = monitor.clone();
        let reply = monitor.request(bytes);
        assert_eq!(unit.ask(bytes), reply, "seed {seed}, request {at}: {bytes:02x?}");
        met.note("request");
        match Request::decode(bytes) {
            Some(request) => note(&before, &request, reply, met),
            // a piece of any length; kind 8 is in the first four bits
            None if bytes.first().is_some_and(|byte| byte >> 4 == 8) => met.note(format!("companies gets {reply}")),
            None => {}
        }
        if at % 40 == 0 || at + 1 == requests.len() {
            assert_eq!(unit.image()[..], image(&monitor)[..], "seed {seed}: images after request {at}");
        }
    }
    let begun = Unit::from_image(&image(&monitor));
    assert_eq!(begun.as_ref(), Ok(&unit), "seed {seed}: read back");
    assert!((0..SUBJECTS).all(|subject| !broken(&monitor, subject).any()), "seed {seed}: the wall is kept");
}

/// How often each must be met at least, of what the wall refuses: by the first rule alone, by the second alone, by both. The first
/// rule alone is rare for r and w: what is read beside another company and written beside one breaks the second too.
const REFUSED: [(&str, [usize; 3]); 4] = [
    ("get of r", [100, 3000, 500]),
    ("get of w", [20, 3000, 500]),
    ("get of a", [500, 3000, 300]),
    ("companies", [1000, 3000, 1000]),
];

#[test]
fn a_million_requests_with_companies() {
    let mut met = Met::default();
    (0..RUNS).for_each(|seed| follow(seed, &mut met));
    println!("{met:#?}");
    assert!(met.of("request") >= 1_000_000, "{met:#?}");
    for (mode, reply) in ["r", "w", "a", "e"].iter().flat_map(|mode| [0, 1, 18].map(|reply| (mode, reply))) {
        met.check(500, &[&format!("get of {mode} gets {reply}")]);
    }
    for (name, often) in REFUSED {
        NAMES.iter().zip(often).for_each(|(rules, often)| met.check(often, &[&format!("{name} breaks {rules}")]));
    }
    // e is neither read nor written: it has nothing to do with the second rule
    met.check(500, &["get of e breaks the first rule alone"]);
    assert_eq!(met.of("get of e breaks the second rule alone") + met.of("get of e breaks both rules"), 0, "{met:#?}");
    [0, 1, 2, 3, 4, 6, 18].iter().for_each(|reply| met.check(500, &[&format!("companies gets {reply}")]));
    met.check(500, &["set without a label", "set with a label"]);
}
