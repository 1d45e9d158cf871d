//! Of each refusal with 8, 9 or 20, of requests and of images, and of each with 14 the answer of the comparison is said and exactly
//! what is missing: beside the second implementation's comparison, and need by need.

mod shared;

use circmon::{Profile, Unit};
use circtool::explain::step;
use circtool::fault;
use load::Random;
use reference::{Comparison, Kind, Level, Monitor, Request, OBJECTS};
use sidebyside::{image, profiles, with_effect, with_or_without_parents, SHAPES};
use std::collections::BTreeMap;

/// How often each answer was said with what is missing, by number.
type Said = BTreeMap<(u8, &'static str, &'static str), usize>;

/// Every answer that refuses, with everything that can be missing.
fn all(number: u8) -> Vec<(u8, &'static str, &'static str)> {
    ["below", "apart"].iter().flat_map(|answer| ["class", "needs", "both"].map(|it| (number, *answer, it))).collect()
}

fn words(level: Level) -> String {
    format!("class {} needs {}", level.class, set(|need| has(level, need)))
}

fn has(level: Level, need: u32) -> bool {
    level.needs / 2u16.pow(need) % 2 == 1
}

fn set(member: impl Fn(u32) -> bool) -> String {
    let needs: Vec<String> = (0..16).filter(|need| member(*need)).map(|need| need.to_string()).collect();
    format!("{{{}}}", needs.join(","))
}

/// What must be said of a level that does not dominate the other, and what it is counted as.
fn expected(level: Level, other: Level, name: &str) -> (String, &'static str, &'static str) {
    let (answer, said) = match level.compare(&other) {
        Comparison::Below => ("below", format!("is below {name} and does not dominate it")),
        Comparison::Apart => ("apart", format!("is apart from {name}, neither dominates the other")),
        answer => panic!("{} with {}: {answer:?} refuses nothing", words(level), words(other)),
    };
    let class = format!("the class ({} is under {})", level.class, other.class);
    let lacks = |need| has(other, need) && !has(level, need);
    let (what, missing) = match (level.class < other.class, (0..16).any(lacks)) {
        (true, false) => ("class", class),
        (false, true) => ("needs", format!("needs {}", set(lacks))),
        (true, true) => ("both", format!("{class} and needs {}", set(lacks))),
        (false, false) => panic!("{} with {}: nothing is missing", words(level), words(other)),
    };
    (format!("{said}; missing: {missing}"), answer, what)
}

/// The numbers that stand in the text behind each place of the words.
fn numbers(text: &str, before: &str) -> Vec<usize> {
    let digits = |it: &str| it.chars().take_while(char::is_ascii_digit).collect::<String>();
    text.split(before).skip(1).map(|it| digits(it).parse().unwrap()).collect()
}

fn label(state: &Monitor, object: usize) -> Level {
    state.objects[object].as_ref().unwrap().label.unwrap()
}

/// The reason of a refusal with 8 ends in what the clearance lacks of the label, by the state that breaks the property.
fn simple(reason: &str, state: &Monitor, said: &mut Said) {
    let start = reason.find("the clearance of s").unwrap_or_else(|| panic!("{reason}"));
    let (subject, object) = (numbers(reason, "the clearance of s")[0], numbers(reason, "the label of o")[0]);
    let (clearance, label) = (state.subjects[subject].unwrap(), label(state, object));
    let (words, name) = (words(clearance), format!("the label of o{object} ({})", words(label)));
    let (tail, answer, missing) = expected(clearance, label, &name);
    assert_eq!(reason[start..], format!("the clearance of s{subject} ({words}) {tail}"));
    *said.entry((8, answer, missing)).or_default() += 1;
}

/// The reason of a refusal with 9 ends in what the label of the written object lacks of that of the read one.
fn star(reason: &str, state: &Monitor, said: &mut Said) {
    let start = reason.find(", and the label of o").unwrap_or_else(|| panic!("{reason}"));
    let [read, written] = numbers(&reason[..start], " on o")[..] else { panic!("{reason}") };
    let (tail, answer, missing) = expected(label(state, written), label(state, read), &format!("that of o{read}"));
    assert_eq!(reason[start..], format!(", and the label of o{written} {tail}"));
    *said.entry((9, answer, missing)).or_default() += 1;
}

/// The reason of a refusal with 14 is what the new label lacks of the old one, and what ends a label.
fn lowered(reason: &str, before: &Monitor, request: &Request, said: &mut Said) {
    let Kind::ChangeLevel(new) = request.kind else { panic!("{request:?}: {reason}") };
    let old = label(before, request.object);
    let name = format!("the label of o{} ({})", request.object, words(old));
    let (tail, answer, missing) = expected(new, old, &name);
    let end = "no request lowers a label, and only a delete ends it; a taking-back may restore an earlier one";
    assert_eq!(reason, format!("the new label ({}) {tail}; {end}", words(new)));
    *said.entry((14, answer, missing)).or_default() += 1;
}

/// The reason of a refusal with 20 has what the label of the child lacks of that of the parent, where the parent has one.
fn parent_label(reason: &str, state: &Monitor, said: &mut Said) {
    let [child, parent] = numbers(&format!(" {}", &reason[..reason.find(',').unwrap()]), " o")[..] else {
        panic!("{reason}")
    };
    let rule = "a labelled child has a labelled parent, whose label it dominates";
    let own = label(state, child);
    let Some(above) = state.objects[parent].as_ref().unwrap().label else {
        let start = format!("o{child} is under o{parent}, which has no label, and so it cannot have the label");
        assert_eq!(reason, format!("{start} {}; {rule}", words(own)));
        return *said.entry((20, "absent", "label")).or_default() += 1;
    };
    let reason = reason.replace("the new label of", "the label of");
    let (tail, answer, missing) = expected(own, above, &format!("the label of o{parent} ({})", words(above)));
    let start = format!("o{child} is under o{parent}, and the label of o{child} ({})", words(own));
    assert_eq!(reason, format!("{start} {tail}; {rule}"));
    *said.entry((20, answer, missing)).or_default() += 1;
}

fn check(number: u8, reason: &str, state: &Monitor, said: &mut Said) {
    match number {
        8 => simple(reason, state, said),
        9 => star(reason, state, said),
        20 => parent_label(reason, state, said),
        _ => panic!("{number}: {reason}"),
    }
}

#[test]
fn requests_refused_with_14_8_9_or_20() {
    let mut said = Said::new();
    for seed in 0..300 {
        let run = shared::run(seed, with_or_without_parents(seed), 1000);
        let mut unit = Unit::from_table(&run.table).unwrap();
        let mut monitor = Monitor::from_table(&run.table).unwrap();
        for bytes in &run.requests {
            let step = step(&mut unit, bytes);
            if let 14 | 8 | 9 | 20 = step.reply {
                let (request, reason) = (Request::decode(bytes).unwrap(), step.note.unwrap());
                match step.reply {
                    14 => lowered(&reason, &monitor, &request, &mut said),
                    number => check(number, &reason, &with_effect(&monitor, &request), &mut said),
                }
            }
            monitor.request(bytes);
        }
    }
    for it in [all(14), all(8), all(9), all(20), vec![(20, "absent", "label")]].concat() {
        assert!(said.get(&it).is_some_and(|times| *times > 30), "{it:?} was not met often: {said:?}");
    }
}

/// A state in which some labels are drawn anew; for every other seed the old ones dominate them, which keeps the simple
/// property. For every fourth nobody holds anything, and half of the objects are under one with a lower number.
fn relabelled(seed: u64) -> Monitor {
    let random = &mut Random::new(seed);
    let mut monitor = load::rich(seed, 40, 3000);
    for label in monitor.objects.iter_mut().flatten().filter_map(|it| it.label.as_mut()) {
        let drawn = load::level(random, SHAPES[2]);
        let lower = Level { class: label.class.min(drawn.class), needs: label.needs & drawn.needs };
        if random.once_in(4) {
            *label = if seed % 2 == 0 { lower } else { drawn };
        }
    }
    if seed % 4 == 3 {
        monitor = profiles::released(&monitor);
        let live: Vec<usize> = (0..OBJECTS).filter(|&slot| monitor.objects[slot].is_some()).collect();
        for at in 0..live.len() {
            let parent = (at > 0 && random.once_in(2)).then(|| live[random.below(at)]);
            monitor.objects[live[at]].as_mut().unwrap().parent = parent;
        }
    }
    monitor
}

#[test]
fn images_refused_with_8_9_or_20() {
    let mut said = Said::new();
    for seed in 0..1000 {
        let monitor = relabelled(seed);
        let bytes = image(&monitor);
        let number = circmon::read(&bytes);
        let faults = fault::of_image(Profile::WIDEST, &bytes);
        assert!(number == 0 || !faults.is_empty(), "seed {seed}: refused with {number}");
        for fault in faults {
            assert_eq!(fault.number(), number, "seed {seed}: {fault}");
            check(number, &fault.to_string(), &monitor, &mut said);
        }
    }
    for it in [all(8), all(9), all(20)].concat() {
        assert!(said.get(&it).is_some_and(|times| *times > 2), "{it:?} was not met: {said:?}");
    }
}
