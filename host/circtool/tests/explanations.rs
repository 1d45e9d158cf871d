//! Explanations: the cause that is found without the number has the number that the library gave, and it is so.

mod shared;

use circmon::Level;
use circmon::Unit;
use circtool::action::Action;
use circtool::cause::{judge, By, Cause, Missing, Verdict};
use circtool::effect::after;
use circtool::explain::{explain, step};
use circtool::mode::Modes;
use circtool::paint::Paint;
use circtool::properties::{Holding, Pair};
use circtool::view::View;
use circtool::wall::Breach;
use reference::{Kind, Monitor, Request, OBJECTS};
use shared::second;
use shared::trees::unruly_is_so;
use sidebyside::{with_effect, with_or_without_parents, Count, REPLIES};

/// That both levels are there and the first does not dominate the second, by the second implementation.
fn not_dominated(level: Option<Level>, other: Option<Level>) {
    assert!(!second(level.unwrap()).dominates(&second(other.unwrap())));
}

/// That the holding is so in this state.
fn holds(it: &Holding, state: &Monitor) {
    let object = state.objects[it.object].as_ref().expect("a live object");
    assert_eq!(it.held, Modes(object.held[it.subject]));
    assert_eq!(it.rights, Modes(object.rights[it.subject]));
    assert_eq!(it.label.map(second), object.label);
    assert_eq!(it.companies.0, object.companies);
    assert_eq!(it.clearance.map(second), state.subjects[it.subject]);
}

fn missing_is_so(it: &Missing, before: &Monitor, request: &Request) {
    let object = before.objects[it.object].as_ref().expect("a live object");
    assert_eq!((it.actor, it.object, it.owner), (request.actor, request.object, object.owner));
    assert_eq!(it.rights, Modes(object.rights[it.actor]));
    assert!(!it.needs_ownership || object.owner != it.actor);
    assert!(it.needs_right.is_none_or(|mode| !it.rights.has(mode)));
    assert!(it.needs_ownership || it.needs_right.is_some(), "nothing is missing");
}

fn lowered_is_so(object: usize, old: Level, new: Level, before: &Monitor, request: &Request) {
    let it = before.objects[object].as_ref().expect("a live object");
    assert_eq!((object, it.owner), (request.object, request.actor));
    assert_eq!((it.label, request.kind), (Some(second(old)), Kind::ChangeLevel(second(new))));
    not_dominated(Some(new), Some(old));
}

fn simple_is_so(place: &Holding, by: By, before: &Monitor, request: &Request) {
    holds(place, &with_effect(before, request));
    let by_level = matches!(request.kind, Kind::ChangeLevel(_));
    assert_eq!((place.object, by == By::Level), (request.object, by_level));
    assert!(!place.held.reading().is_empty());
    not_dominated(place.clearance, place.label);
    assert!(by_level || place.subject == request.actor, "a get breaks simple for its actor only");
}

fn star_is_so(pair: &Pair, by: By, before: &Monitor, request: &Request) {
    let after = with_effect(before, request);
    holds(&pair.read, &after);
    holds(&pair.written, &after);
    let by_level = matches!(request.kind, Kind::ChangeLevel(_));
    assert_eq!((pair.read.subject, by == By::Level), (pair.written.subject, by_level));
    assert!(!pair.read.held.reading().is_empty() && !pair.written.held.writing().is_empty());
    not_dominated(pair.written.label, pair.read.label);
    assert!([pair.read.object, pair.written.object].contains(&request.object));
    assert!(by_level || pair.read.subject == request.actor, "a get breaks star for its actor only");
}

fn wall_is_so(breach: &Breach, by: By, before: &Monitor, request: &Request) {
    let after = with_effect(before, request);
    holds(&breach.from, &after);
    holds(&breach.to, &after);
    shared::wall_is_so(breach, &after, &format!("{request:?}"));
    let by_companies = matches!(request.kind, Kind::SetCompanies(_));
    assert_eq!(by, if by_companies { By::Companies } else { By::Access });
    assert!([breach.from.object, breach.to.object].contains(&request.object));
    assert!(by_companies || breach.from.subject == request.actor, "a get breaks the wall for its actor only");
}

/// That the cause is so, by the second implementation's state before the request.
fn cause_is_so(cause: &Cause, before: &Monitor, bytes: &[u8]) {
    let Some(request) = Request::decode(bytes) else {
        assert_eq!(cause.number(), 2);
        return;
    };
    match cause {
        Cause::Malformed(reasons) => panic!("malformed: {reasons:?}"),
        Cause::NotEnrolled { subject } => {
            let other = match request.kind {
                Kind::Give(other, _) | Kind::Rescind(other, _) => other,
                _ => request.actor,
            };
            assert!([request.actor, other].contains(subject) && before.subjects[*subject].is_none());
        }
        Cause::NotLive { object } => assert!(*object == request.object && before.objects[*object].is_none()),
        Cause::Live { object, owner } => {
            assert_eq!(*object, request.object);
            assert_eq!(before.objects[*object].as_ref().map(|it| it.owner), Some(*owner));
        }
        Cause::Missing(it) => missing_is_so(it, before, &request),
        Cause::Lowered { object, old, new } => lowered_is_so(*object, *old, *new, before, &request),
        Cause::NoLabel { object } => {
            assert_eq!(*object, request.object);
            assert!(before.objects[*object].as_ref().is_some_and(|it| it.label.is_none()));
        }
        Cause::Simple { place, by } => simple_is_so(place, *by, before, &request),
        Cause::Star { pair, by } => star_is_so(pair, *by, before, &request),
        Cause::Wall { breach, by } => wall_is_so(breach, *by, before, &request),
        Cause::Parent { object, parent } => {
            assert!(before.objects[*object].is_none() && before.objects[*parent].is_none());
            let create = |execute| Kind::Create { execute, parent: Some(*parent) };
            assert!(*object == request.object && [create(true), create(false)].contains(&request.kind));
        }
        Cause::ParentLabel { unruly, changed } => {
            unruly_is_so(unruly, &with_effect(before, &request), &format!("{request:?}"));
            assert!(*changed == request.object && [unruly.child, unruly.parent].contains(changed));
        }
    }
}

/// What is said of a delete that takes more than its object, by the second implementation's state before and after it.
fn taken_words(before: &Monitor, bytes: &[u8]) -> Option<String> {
    let mut after = before.clone();
    after.request(bytes);
    let own = Request::decode(bytes)?.object;
    let gone = |&slot: &usize| slot != own && before.objects[slot].is_some() && after.objects[slot].is_none();
    let names: Vec<String> = (0..OBJECTS).filter(gone).map(|slot| format!("o{slot}")).collect();
    match names.len() {
        0 => None,
        1 => Some(format!("1 object below it goes with it: {}", names[0])),
        count => Some(format!("{count} objects below it go with it: {}", names.join(", "))),
    }
}

/// One run; counts the replies.
fn explain_run(seed: u64, length: usize, count: &mut Count) {
    let run = shared::run(seed, with_or_without_parents(seed), length);
    let mut unit = Unit::from_table(&run.table).unwrap();
    let mut monitor = Monitor::from_table(&run.table).unwrap();
    for (at, bytes) in run.requests.iter().enumerate() {
        let before = View::new(&unit.image());
        let verdict = judge(&before, bytes);
        let step = step(&mut unit, bytes);
        let place = format!("seed {seed}, request {at}: {bytes:02x?}");
        assert_eq!(step.reply, run.replies[at], "{place}");
        assert_eq!(verdict.number(), step.reply, "{place}: {verdict:?}");
        match verdict {
            Verdict::Refused(cause) => {
                let words = cause.to_string();
                let checked = std::panic::catch_unwind(|| cause_is_so(&cause, &monitor, bytes));
                assert!(checked.is_ok(), "{place}: {words}");
                assert_eq!(step.note, Some(words), "{place}");
            }
            _ => {
                assert_eq!(step.note, taken_words(&monitor, bytes), "{place}");
                // the state after it, in which star and simple are looked for, is the one that the library leaves
                let request = circtool::request::Request::decode(bytes).unwrap();
                assert_eq!(after(&before, &request), View::new(&unit.image()), "{place}");
            }
        }
        monitor.request(bytes);
        count.note(step.reply);
    }
}

#[test]
fn causes_found_along_runs_are_the_library_s_and_are_so() {
    let mut count = Count::default();
    for seed in 0..60 {
        explain_run(seed, 1000, &mut count);
    }
    assert!(count.all() >= 20_000);
    assert!(REPLIES.iter().all(|&reply| count.of(reply) > 200), "each reply is met often: {count:?}");
}

/// The steps of a script with their replies and reasons.
fn steps(script: &str) -> Vec<(u8, String)> {
    let bytes = circtool::assemble::assemble(script).unwrap();
    let mut unit = Unit::from_table(&bytes[..42]).unwrap();
    let steps = bytes[42..].chunks(6).map(|piece| step(&mut unit, piece));
    steps.map(|step| (step.reply, step.note.unwrap_or_default())).collect()
}

const SUBJECTS: &str = "subject 0 class 1 needs {0}\nsubject 1 class 3 needs {0,1}\nsubject 2 class 3 needs {}\n";

fn last(requests: &str) -> (u8, String) {
    steps(&format!("{SUBJECTS}{requests}")).pop().unwrap()
}

#[test]
fn rights_and_ownership_are_named() {
    for (requests, reason) in [
        ("s0 get r o0", "s0 has no right r on o0; the owner is s1; the rights of s0: a"),
        ("s0 delete o0", "s0 does not own o0; the owner is s1; the rights of s0: a"),
        ("s0 give s2 a o0", "s0 does not own o0; the owner is s1; the rights of s0: a"),
        ("s0 give s2 r o0", "s0 does not own o0 and has no right r on it; the owner is s1; the rights of s0: a"),
        ("s1 give s0 e o0", "s1 has no right e on o0; the owner is s1; the rights of s1: r, w, a"),
        ("s2 level o0 class 0 needs {}", "s2 does not own o0; the owner is s1; the rights of s2: none"),
    ] {
        let script = format!("s1 create o0\ns1 give s0 a o0\n{requests}");
        assert_eq!(last(&script), (6, reason.to_string()), "{requests}");
    }
    assert_eq!(last("s7 create o0"), (3, "s7 is not enrolled".to_string()));
    assert_eq!(last("s1 give s9 r o0"), (3, "s9 is not enrolled".to_string()));
    assert_eq!(last("s1 get r o3"), (4, "o3 is not live".to_string()));
    assert_eq!(last("s1 create o3\ns2 create o3"), (5, "o3 is live, and s1 owns it".to_string()));
    assert_eq!(last("bytes 50"), (2, "the bytes are no request: 1 byte, not 6".to_string()));
}

#[test]
fn levels_and_what_fails_in_them_are_named() {
    let labelled = "s1 create o0\ns1 give s0 r o0\ns1 give s2 w o0\ns1 level o0 class 2 needs {0}\n";
    let (reply, reason) = last(&format!("{labelled}s0 get r o0"));
    let clearance =
        "the clearance of s0 (class 1 needs {0}) is below the label of o0 (class 2 needs {0}) and does not \
                     dominate it; missing: the class (1 is under 2)";
    assert_eq!((reply, reason.as_str()), (8, clearance));
    let (reply, reason) = last(&format!("{labelled}s2 get w o0"));
    let clearance =
        "the clearance of s2 (class 3 needs {}) is apart from the label of o0 (class 2 needs {0}), neither \
                     dominates the other; missing: needs {0}";
    assert_eq!((reply, reason.as_str()), (8, clearance));
    // change of level looks at everyone who holds, not at the owner alone
    let (reply, reason) = last(
        "s1 create o0\ns1 level o0 class 0 needs {}\ns1 give s2 r o0\ns2 get r o0\n\
                                s1 level o0 class 1 needs {1,15}",
    );
    let holder =
        "s2 holds r on o0, and with the new level the clearance of s2 (class 3 needs {}) is apart from the label \
                  of o0 (class 1 needs {1,15}), neither dominates the other; missing: needs {1,15}";
    assert_eq!((reply, reason.as_str()), (8, holder));
    let (reply, reason) = last("s1 create o0\ns1 get a o0");
    assert!(reply == 7 && reason.starts_with("o0 has no label; that is not class 0"), "{reason}");
}

#[test]
fn star_names_the_subject_and_both_objects() {
    let two = "s1 create o4\ns1 create o5\ns1 give s2 r o4\ns1 give s2 a o5\n";
    let (reply, reason) = last(&format!(
        "{two}s1 level o4 class 2 needs {{0}}\ns1 level o5 class 1 needs {{0,1}}\ns1 get r o4\ns1 get a o5"
    ));
    let expected =
        "s1 would hold r on o4 (class 2 needs {0}) and a on o5 (class 1 needs {0,1}), and the label of o5 is \
                    apart from that of o4, neither dominates the other; missing: the class (1 is under 2)";
    assert_eq!((reply, reason.as_str()), (9, expected));
    // the pair is another subject's, and the label is that after the change
    let (reply, reason) = last(&format!(
        "{two}s1 level o4 class 0 needs {{}}\ns1 level o5 class 0 needs {{3}}\ns2 get r o4\ns2 get a o5\n\
         s1 level o4 class 1 needs {{}}"
    ));
    let expected = "with the new level s2 holds r on o4 (class 1 needs {}) and a on o5 (class 0 needs {3}), and the \
                    label of o5 is apart from that of o4, neither dominates the other; missing: the class (0 is \
                    under 1)";
    assert_eq!((reply, reason.as_str()), (9, expected));
}

#[test]
fn a_lowered_label_is_named_with_the_old_one() {
    let labelled = "s1 create o0\ns1 level o0 class 2 needs {0}\ns1 get r o0\n";
    let old = "the label of o0 (class 2 needs {0})";
    let end = "no request lowers a label, and only a delete ends it; a taking-back may restore an earlier one";
    for (level, why) in [
        (
            "class 0 needs {}",
            format!("is below {old} and does not dominate it; missing: the class (0 is under 2) and needs {{0}}"),
        ),
        ("class 1 needs {0}", format!("is below {old} and does not dominate it; missing: the class (1 is under 2)")),
        ("class 3 needs {}", format!("is apart from {old}, neither dominates the other; missing: needs {{0}}")),
        // s1, who reads o0, is not cleared for need 9: that is check 8, and comes later
        ("class 2 needs {9}", format!("is apart from {old}, neither dominates the other; missing: needs {{0}}")),
    ] {
        let expected = format!("the new label ({level}) {why}; {end}");
        assert_eq!(last(&format!("{labelled}s1 level o0 {level}")), (14, expected), "{level}");
    }
    assert_eq!(last(&format!("{labelled}s0 level o0 class 0 needs {{}}")).0, 6);
    assert_eq!(last(&format!("{labelled}s1 delete o0\ns1 create o0\ns1 level o0 class 0 needs {{}}")).0, 0);
}

#[test]
fn colour_adds_no_word() {
    let script = std::fs::read_to_string(shared::root().join("examples/lobby-display.circ")).unwrap();
    let bytes = circtool::assemble::assemble(&script).unwrap();
    let actions = Action::all_in(&bytes[42..]);
    let text = |paint| explain(&mut Unit::from_table(&bytes[..42]).unwrap(), &actions, &[], paint);
    let coloured = text(Paint::COLOURED);
    assert!(coloured.contains("\x1b[31m7 refused: no label\x1b[0m"), "{coloured}");
    assert_eq!(shared::without_colour(&coloured), text(Paint::PLAIN));
}
