//! The star check in states that requests reach, mode by mode: each get of the long runs that no earlier check refuses, beside
//! the accesses that its subject held before it. Where star is kept, check 18 comes behind it.

use circmon::{Unit, SUBJECTS};
use reference::{reply, Kind, Mode, Monitor, Request, Star};
use sidebyside::level::label_dominates;
use sidebyside::pair::{observes, Met, Pair};
use sidebyside::{drawn, image, shape, wall, with_effect, Both, RUNS, RUN_REQUESTS};

/// The accesses that a subject holds: the slot of the object and the mode.
fn accesses(monitor: &Monitor, subject: usize) -> Vec<(usize, Mode)> {
    let mut held = Vec::new();
    for (slot, object) in monitor.objects.iter().enumerate() {
        let set = object.as_ref().map_or(0, |it| it.held[subject]);
        held.extend(Mode::ALL.into_iter().filter(|mode| set & mode.bit() != 0).map(|mode| (slot, mode)));
    }
    held
}

#[test]
fn what_is_held_already_is_granted_whatever_else_is_held() {
    let mut beside = Met::default();
    for seed in 0..200 {
        let (table, list) = drawn(seed, shape(seed), 500);
        let mut both = Both::new(Monitor::from_table(&table).unwrap());
        both.monitor.star = Star::Tabled;
        for some in list.chunks(50) {
            for bytes in some {
                both.request(bytes);
            }
            for actor in 0..SUBJECTS {
                asked_again(&mut both, actor, &mut beside);
            }
        }
    }
    beside.check_kept(Pair::all(), 40);
}

/// The subject asks for each access that it holds; those on other objects are noted beside it.
fn asked_again(both: &mut Both, actor: usize, beside: &mut Met) {
    let held = accesses(&both.monitor, actor);
    for &(object, wanted) in &held {
        let request = Request { actor, object, kind: Kind::Get(wanted) };
        assert_eq!(both.request(&request.encode()), reply::ALREADY, "{request:?}, held: {held:?}");
        for &(_, held) in held.iter().filter(|(slot, _)| *slot != object) {
            beside.note(Pair { held, wanted }, true);
        }
    }
}

/// What check 9 of a get looks at.
#[derive(Default)]
struct Asked {
    /// whether the access is held already
    already: bool,
    /// whether the wall is broken with the access
    walled: bool,
    /// the mode of each access that the subject holds on another object with the mode wanted, where the labels are as these ask
    kept: Vec<Pair>,
    /// the same of accesses on any object, where the labels are not
    not_kept: Vec<Pair>,
}

/// Nothing where the request is no get, or a check before 9 refuses it.
fn asked(before: &Monitor, request: &Request) -> Option<Asked> {
    let Request { actor, object, kind: Kind::Get(wanted) } = *request else { return None };
    let label = |slot: usize| before.objects[slot].as_ref().and_then(|it| it.label);
    let clearance = before.subjects[actor]?;
    before.objects[object].as_ref().filter(|it| it.rights[actor] & wanted.bit() != 0)?;
    if wanted != Mode::Execute && label(object).is_none() {
        return None;
    }
    if observes(wanted) && !label_dominates(Some(clearance), label(object)) {
        return None;
    }
    let walled = wall::broken(&with_effect(before, request), actor).any();
    let mut asked = Asked { walled, ..Asked::default() };
    for (slot, held) in accesses(before, actor) {
        let pair = Pair { held, wanted };
        if !pair.is_kept(label(slot), label(object)) {
            asked.not_kept.push(pair);
        } else if slot != object {
            asked.kept.push(pair);
        }
        asked.already |= (slot, held) == (object, wanted);
    }
    Some(asked)
}

impl Asked {
    /// 9 exactly where some access held before is not as its pair asks, and else 18 exactly where the wall is broken.
    fn reply(&self) -> u8 {
        match (self.not_kept.is_empty(), self.walled, self.already) {
            (false, _, _) => reply::STAR,
            (true, true, _) => reply::WALL,
            (true, false, true) => reply::ALREADY,
            (true, false, false) => reply::CHANGED,
        }
    }
}

/// How often each pair was met.
#[derive(Default)]
struct Runs {
    /// gets that reach check 9
    reached: usize,
    /// kept in a get that is granted and changes the state, not kept in one that is refused with 9
    met: Met,
    /// refused with 9 by accesses in one mode alone
    alone: Met,
}

impl Runs {
    fn note(&mut self, asked: &Asked) {
        self.reached += 1;
        match asked.reply() {
            reply::STAR => {
                each_once(&asked.not_kept).for_each(|pair| self.met.note(pair, false));
                if each_once(&asked.not_kept).count() == 1 {
                    self.alone.note(asked.not_kept[0], false);
                }
            }
            reply::CHANGED => each_once(&asked.kept).for_each(|pair| self.met.note(pair, true)),
            _ => {}
        }
    }

    fn follow(&mut self, seed: u64) {
        let (table, requests) = drawn(seed, shape(seed), RUN_REQUESTS);
        let (mut monitor, mut unit) = (Monitor::from_table(&table).unwrap(), Unit::from_table(&table).unwrap());
        monitor.star = Star::Tabled;
        for (at, bytes) in requests.iter().enumerate() {
            let request = Request::decode(bytes);
            let is_get = request.is_some_and(|it| matches!(it.kind, Kind::Get(_)));
            let asked = request.and_then(|it| asked(&monitor, &it));
            let reply = unit.ask(bytes);
            assert_eq!(monitor.request(bytes), reply, "seed {seed}, request {at}: {request:?}");
            if let Some(asked) = asked {
                assert_eq!(reply, asked.reply(), "seed {seed}, request {at}: {request:?}, {:?}", asked.not_kept);
                self.note(&asked);
            } else if is_get {
                assert!((3..9).contains(&reply), "seed {seed}, request {at}: {request:?} gets {reply}");
            }
        }
        assert_eq!(unit.image()[..], image(&monitor)[..], "seed {seed}");
    }
}

/// The pairs in this list, each of them once.
fn each_once(pairs: &[Pair]) -> impl Iterator<Item = Pair> + '_ {
    Pair::all().filter(|pair| pairs.contains(pair))
}

#[test]
fn a_get_in_a_million_requests_is_refused_with_9_exactly_where_a_pair_is_not_kept() {
    let mut runs = Runs::default();
    (0..RUNS).for_each(|seed| runs.follow(seed));
    assert!(RUNS as usize * RUN_REQUESTS >= 1_000_000 && runs.reached > 150_000, "{}", runs.reached);
    runs.met.check_kept(Pair::all(), 600);
    runs.met.check_not_kept(2000);
    runs.alone.check_not_kept(500);
}
