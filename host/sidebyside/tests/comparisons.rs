//! Comparisons of two levels: the library beside the second implementation and beside the words of dominance, and checks 14,
//! 8 and 9 of the long runs beside the library's comparison.

use circmon::{Comparison, Level, Unit};
use load::Random;
use reference::{Kind, Mode, Monitor, Object, Request, SUBJECTS};
use sidebyside::{drawn, level, shape, with_effect, Count, RUNS, RUN_REQUESTS};

const ALL: [Comparison; 4] = [Comparison::Equal, Comparison::Above, Comparison::Below, Comparison::Apart];

/// The same level in the second implementation.
fn second(level: Level) -> reference::Level {
    reference::Level { class: level.class, needs: level.needs }
}

/// By the words, need by need.
fn dominates(a: Level, b: Level) -> bool {
    level::dominates(second(a), second(b))
}

/// "equal, above (only A dominates), below (only B does) or apart (neither)"
fn by_the_words(a: Level, b: Level) -> Comparison {
    match (dominates(a, b), dominates(b, a)) {
        (true, true) => Comparison::Equal,
        (true, false) => Comparison::Above,
        (false, true) => Comparison::Below,
        (false, false) => Comparison::Apart,
    }
}

fn by_the_second(a: Level, b: Level) -> Comparison {
    match second(a).compare(&second(b)) {
        reference::Comparison::Equal => Comparison::Equal,
        reference::Comparison::Above => Comparison::Above,
        reference::Comparison::Below => Comparison::Below,
        reference::Comparison::Apart => Comparison::Apart,
    }
}

/// The answer with the two levels the other way round.
fn mirrored(answer: Comparison) -> Comparison {
    match answer {
        Comparison::Above => Comparison::Below,
        Comparison::Below => Comparison::Above,
        same => same,
    }
}

/// What docs/EMBEDDING.md says: given what is missing, what was below is equal, and what was apart is above.
fn given_what_is_missing(a: Level, b: Level, answer: Comparison) {
    let given = Level { class: a.class.max(b.class), needs: a.needs | b.needs };
    let expected = match answer {
        Comparison::Equal | Comparison::Below => Comparison::Equal,
        Comparison::Above | Comparison::Apart => Comparison::Above,
    };
    assert_eq!(circmon::compare(given, b), expected, "{a:?} with {b:?}");
}

/// One pair, both ways round.
fn check(a: Level, b: Level, count: &mut Count) {
    let answer = circmon::compare(a, b);
    assert_eq!(answer, by_the_words(a, b), "{a:?} with {b:?}");
    assert_eq!(answer, by_the_second(a, b), "{a:?} with {b:?}, by the second implementation");
    assert_eq!(circmon::compare(b, a), mirrored(answer), "{b:?} with {a:?}");
    assert_eq!(answer == Comparison::Equal, a == b, "{a:?} with {b:?}");
    assert_eq!(answer.dominates(), dominates(a, b), "{a:?} over {b:?}");
    given_what_is_missing(a, b, answer);
    count.note(answer as u8);
}

/// That each answer was met more often than this.
fn each_met(count: &Count, answers: &[Comparison], often: usize) {
    for answer in answers {
        assert!(count.of(*answer as u8) > often, "{answer:?}: {count:?}");
    }
}

#[test]
fn all_pairs_of_classes() {
    let mut count = Count::default();
    let needs = [(0, 0), (1, 1), (0, 1), (0x8000, 0), (1, 2), (3, 1), (0x7FFF, 0x8000), (0xFFFF, 0xFFFF), (0, 0xFFFF)];
    for (a, b) in (0..=255).flat_map(|a| (0..=255).map(move |b| (a, b))) {
        for (needs_a, needs_b) in needs {
            check(Level { class: a, needs: needs_a }, Level { class: b, needs: needs_b }, &mut count);
        }
    }
    assert_eq!(count.all(), 256 * 256 * needs.len());
    each_met(&count, &ALL, 500);
}

#[test]
fn all_sets_of_needs_beside_chosen_ones() {
    let mut count = Count::default();
    let single = (0..16).map(|need| 1 << need);
    let chosen: Vec<u16> = [0, 0x00FF, 0xAAAA].into_iter().chain(single).flat_map(|set: u16| [set, !set]).collect();
    for (needs_a, needs_b) in (0..=0xFFFF).flat_map(|a| chosen.iter().map(move |b| (a, *b))) {
        for (class_a, class_b) in [(7, 7), (8, 7), (0, 15)] {
            check(Level { class: class_a, needs: needs_a }, Level { class: class_b, needs: needs_b }, &mut count);
        }
    }
    assert_eq!(count.all(), 65536 * 3 * chosen.len());
    each_met(&count, &ALL, 30);
}

/// A level that has to do with this one: two drawn by themselves are apart nearly always.
fn near(random: &mut Random, level: Level) -> Level {
    let needs = random.number() as u16;
    let needs = match random.below(4) {
        0 => level.needs,
        1 => level.needs & needs,
        2 => level.needs | needs,
        _ => needs,
    };
    Level { class: if random.once_in(3) { level.class } else { random.number() as u8 }, needs }
}

#[test]
fn a_million_pairs_at_random() {
    let (random, mut count) = (&mut Random::new(21), Count::default());
    for _ in 0..1_000_000 {
        let a = Level { class: random.number() as u8, needs: random.number() as u16 };
        check(a, near(random, a), &mut count);
    }
    each_met(&count, &ALL, 50_000);
}

/// The comparisons that checks 14, 8 and 9 of a request are about.
struct Asked {
    /// the new label with the old, where there is one
    raising: Vec<Comparison>,
    simple: Vec<Comparison>,
    star: Vec<Comparison>,
}

/// How the library compares two levels that are there.
fn answer(a: Option<reference::Level>, b: Option<reference::Level>) -> Comparison {
    let level = |it: Option<reference::Level>| it.map(|it| Level { class: it.class, needs: it.needs });
    circmon::compare(level(a).expect("a level"), level(b).expect("a level"))
}

/// The clearances of these subjects with the label, for those who would read the object.
fn simple(after: &Monitor, object: &Object, subjects: impl Iterator<Item = usize>) -> Vec<Comparison> {
    subjects.filter(|s| object.reads(*s)).map(|s| answer(after.subjects[s], object.label)).collect()
}

/// The labels of what these subjects would write with those of what they would read.
fn star(after: &Monitor, subjects: impl Iterator<Item = usize>) -> Vec<Comparison> {
    let mut answers = Vec::new();
    for s in subjects {
        let read: Vec<&Object> = after.objects.iter().flatten().filter(|it| it.reads(s)).collect();
        for q in after.objects.iter().flatten().filter(|it| it.writes(s)) {
            answers.extend(read.iter().map(|p| answer(q.label, p.label)));
        }
    }
    answers
}

/// The label that a change of level asks for with the one that the object has.
fn raising(object: &Object, kind: Kind) -> Vec<Comparison> {
    match kind {
        Kind::ChangeLevel(level) => object.label.iter().map(|old| answer(Some(level), Some(*old))).collect(),
        _ => Vec::new(),
    }
}

/// What a request asks for that no check before 14 and 8 refuses; nothing where one does, or where no levels are compared.
fn asked(before: &Monitor, request: &Request) -> Option<Asked> {
    let Request { actor, object, kind } = *request;
    before.subjects[actor]?;
    let it = before.objects[object].as_ref()?;
    let subjects = match kind {
        Kind::Get(mode) if mode != Mode::Execute && it.rights[actor] & mode.bit() != 0 => actor..actor + 1,
        Kind::ChangeLevel(_) if it.owner == actor => 0..SUBJECTS,
        _ => return None,
    };
    let after = with_effect(before, request);
    let changed = after.objects[object].as_ref()?;
    changed.label?;
    Some(Asked {
        raising: raising(it, kind),
        simple: simple(&after, changed, subjects.clone()),
        star: star(&after, subjects),
    })
}

/// Below or apart: what the three checks refuse.
fn failing(answers: &[Comparison]) -> impl Iterator<Item = &Comparison> {
    answers.iter().filter(|it| matches!(it, Comparison::Below | Comparison::Apart))
}

/// How often each answer was met, in all comparisons and in those that fail where the request is refused.
#[derive(Default, Debug)]
struct Met {
    raising: Count,
    simple: Count,
    star: Count,
    refused_14: Count,
    refused_8: Count,
    refused_9: Count,
}

impl Met {
    /// The reply to a request that gets as far as these comparisons is the first check of 14, 8 and 9 that fails.
    fn note(&mut self, asked: &Asked, reply: u8, place: &str) {
        let mut first = None;
        for (number, answers, all, refused) in [
            (14, &asked.raising, &mut self.raising, &mut self.refused_14),
            (8, &asked.simple, &mut self.simple, &mut self.refused_8),
            (9, &asked.star, &mut self.star, &mut self.refused_9),
        ] {
            answers.iter().for_each(|it| all.note(*it as u8));
            if first.is_none() && failing(answers).count() > 0 {
                first = Some(number);
                failing(answers).for_each(|it| refused.note(*it as u8));
            }
        }
        match first {
            Some(number) => assert_eq!(reply, number, "{place}"),
            // behind them the wall is looked at, in a get, and the labels of parent and children, in a change of level
            None => assert!(reply < 2 || reply == 18 || reply == 20, "{place}: {reply}"),
        }
    }
}

/// One of the long runs; how many requests got as far as check 14 or 8.
fn follow(seed: u64, met: &mut Met) -> usize {
    let (table, requests) = drawn(seed, shape(seed), RUN_REQUESTS);
    let (mut monitor, mut unit) = (Monitor::from_table(&table).unwrap(), Unit::from_table(&table).unwrap());
    let mut reached = 0;
    for (at, bytes) in requests.iter().enumerate() {
        let place = format!("seed {seed}, request {at}: {bytes:02x?}");
        let asked = Request::decode(bytes).and_then(|request| asked(&monitor, &request));
        let reply = unit.ask(bytes);
        assert_eq!(monitor.request(bytes), reply, "{place}");
        match &asked {
            Some(asked) => met.note(asked, reply, &place),
            None => assert!(![14, 8, 9].contains(&reply), "{place}: {reply}"),
        }
        reached += usize::from(asked.is_some());
    }
    reached
}

#[test]
fn checks_14_8_and_9_of_a_million_requests_are_what_the_comparison_says() {
    let mut met = Met::default();
    let reached: usize = (0..RUNS).map(|seed| follow(seed, &mut met)).sum();
    assert!(RUNS as usize * RUN_REQUESTS >= 1_000_000 && reached > 100_000, "{reached}: {met:?}");
    for count in [&met.raising, &met.simple, &met.star] {
        each_met(count, &ALL, 1000);
    }
    for count in [&met.refused_14, &met.refused_8, &met.refused_9] {
        each_met(count, &[Comparison::Below, Comparison::Apart], 1000);
    }
}
