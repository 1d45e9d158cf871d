//! Objects under objects along runs: both implementations on a million requests, and 19, 20 and what a delete takes exactly as the
//! sentences say, which are computed here.

use circmon::Unit;
use load::Shape;
use reference::{Journaled, Kind, Monitor, Request, OBJECTS};
use sidebyside::orders::Met;
use sidebyside::tree::{below, broken_rule, deepest, live, wrong_parent};
use sidebyside::{drawn, image, with_effect, RUNS, RUN_REQUESTS};

/// Most creates carry a parent; few levels, so that other checks refuse less; many objects for one, so that chains are long.
const SHAPES: [Shape; 4] = [
    Shape { objects: 4, subjects: 3, classes: 3, needs: 1, companies: 0, parents: 7, damaged: 15 },
    Shape { objects: 12, subjects: 4, classes: 3, needs: 2, companies: 1, parents: 8, damaged: 25 },
    Shape { objects: 64, subjects: 16, classes: 3, needs: 1, companies: 2, parents: 7, damaged: 40 },
    Shape { objects: 64, subjects: 2, classes: 4, needs: 0, companies: 0, parents: 10, damaged: 60 },
];

struct Run {
    unit: Unit,
    second: Journaled,
    met: Met,
}

/// The refusal by a check before 19 or 20: that of a state in which no object has a parent, nor gets one.
fn earlier(before: &Monitor, request: &Request) -> Option<u8> {
    let mut without = before.clone();
    without.objects.iter_mut().flatten().for_each(|it| it.parent = None);
    let kind = match request.kind {
        Kind::Create { execute, .. } => Kind::Create { execute, parent: None },
        kind => kind,
    };
    match without.step(Request { kind, ..*request }) {
        0 | 1 => None,
        number => Some(number),
    }
}

impl Run {
    /// "19, a parent that isn't live, in create after 5".
    fn note_create(&mut self, before: &Monitor, request: &Request, parent: usize, reply: u8) {
        let expected = if live(before, parent).is_some() { 0 } else { 19 };
        assert_eq!(reply, expected, "{request:?}");
        let own = if parent == request.object { " as its own parent" } else { "" };
        self.met.note(format!("create under a parent gets {reply}{own}"));
        let owner = live(before, parent).map(|it| it.owner);
        if owner.is_some_and(|owner| owner != request.actor) {
            self.met.note("create under another's object");
        }
    }

    /// "20, a label that breaks the rule toward parent or child, in change level after 9".
    fn note_level(&mut self, before: &Monitor, request: &Request, reply: u8) {
        let after = with_effect(before, request);
        let broken = broken_rule(&after);
        assert_eq!(reply == 20, broken.is_some(), "{request:?} gets {reply}: {broken:?}");
        if let Some((child, parent)) = broken {
            assert!([child, parent].contains(&request.object), "{request:?}: {broken:?}");
            let above = live(&after, parent).and_then(|it| it.label);
            self.met.note(match above {
                None => "20 under a parent without a label",
                Some(_) if child == request.object => "20 toward a labelled parent",
                Some(_) => "20 toward a child",
            });
        } else if reply == 0 && live(before, request.object).is_some_and(|it| it.parent.is_some()) {
            self.met.note("a child's label changed");
        } else if reply == 0
            && (0..OBJECTS).any(|slot| {
                live(before, slot).is_some_and(|it| it.parent == Some(request.object) && it.label.is_some())
            })
        {
            self.met.note("a label changed above a labelled child");
        }
    }

    /// The object and everything below it are gone, and nothing else is touched; where children went, nothing can be taken back.
    fn note_delete(&mut self, before: &Monitor, entries: usize, object: usize) {
        let taken = below(before, object);
        let after = &self.second.monitor;
        for slot in 0..OBJECTS {
            let expected = if slot == object || taken.contains(&slot) { &None } else { &before.objects[slot] };
            assert!(after.objects[slot] == *expected, "o{object} is deleted: o{slot}");
        }
        let others =
            taken.iter().any(|&slot| live(before, slot).map(|it| it.owner) != live(before, object).map(|it| it.owner));
        if others {
            self.met.note("a delete took another's object");
        }
        self.met.note(match taken.len() {
            count @ 0..=3 => format!("a delete took {count}"),
            4..=9 => "a delete took 4 to 9".to_string(),
            10..=19 => "a delete took 10 to 19".to_string(),
            _ => "a delete took 20 or more".to_string(),
        });
        let (mut unit, mut second) = (self.unit.clone(), self.second.clone());
        let numbers = [unit.take_back(), second.take_back()];
        assert_eq!(numbers, [if taken.is_empty() { 0 } else { 17 }; 2], "o{object} is deleted");
        if taken.is_empty() {
            assert!(second.monitor == *before, "o{object} is back");
            assert_eq!(unit.image()[..], image(before)[..], "o{object} is back");
        } else if entries > 0 {
            self.met.note("a journal with entries was emptied");
        }
    }

    fn request(&mut self, bytes: &[u8], what: &str) {
        let (before, entries) = (self.second.monitor.clone(), self.second.entries());
        let reply = self.second.request(bytes);
        assert_eq!(self.unit.ask(bytes), reply, "{what}");
        self.met.note("request");
        let Some(request) = before.decode(bytes) else { return };
        if let Some(number) = earlier(&before, &request) {
            assert_eq!(reply, number, "{what}");
            return;
        }
        match request.kind {
            Kind::Create { parent: Some(parent), .. } => self.note_create(&before, &request, parent, reply),
            Kind::ChangeLevel(_) => self.note_level(&before, &request, reply),
            Kind::Delete => self.note_delete(&before, entries, request.object),
            _ => assert!(reply != 19 && reply != 20, "{what}"),
        }
    }
}

/// The deepest chain of the run.
fn follow(seed: u64, met: Met) -> (Met, usize) {
    let shape = SHAPES[seed as usize % SHAPES.len()];
    let (table, requests) = drawn(seed ^ 0x7EE5, shape, RUN_REQUESTS);
    let second = Journaled::begin(Monitor::from_table(&table).unwrap());
    let mut run = Run { unit: Unit::from_table(&table).unwrap(), second, met };
    let mut depth = 0;
    for (at, bytes) in requests.iter().enumerate() {
        run.request(bytes, &format!("seed {seed}, request {at}: {bytes:02x?}"));
        if at % 40 == 0 || at + 1 == requests.len() {
            let monitor = &run.second.monitor;
            assert_eq!(run.unit.image()[..], image(monitor)[..], "seed {seed}: images after request {at}");
            assert!(!wrong_parent(monitor) && broken_rule(monitor).is_none(), "seed {seed}, request {at}");
            depth = depth.max(deepest(monitor));
        }
    }
    let begun = Unit::from_image(&image(&run.second.monitor));
    assert_eq!(begun.as_ref(), Ok(&run.unit), "seed {seed}: read back");
    (run.met, depth)
}

#[test]
fn a_million_requests_with_parents() {
    let (mut met, mut depth) = (Met::default(), 0);
    for seed in 0..RUNS {
        let (all, deepest) = follow(seed, met);
        (met, depth) = (all, depth.max(deepest));
    }
    println!("{met:#?}\nthe deepest chain has {depth} objects");
    assert!(met.of("request") >= 1_000_000, "{met:#?}");
    assert!(depth >= 30, "{depth}");
    met.check(10_000, &["create under a parent gets 0", "create under another's object"]);
    met.check(1000, &["create under a parent gets 19", "create under a parent gets 19 as its own parent"]);
    met.check(1000, &["20 under a parent without a label", "20 toward a labelled parent", "20 toward a child"]);
    met.check(500, &["a child's label changed", "a label changed above a labelled child"]);
    met.check(
        500,
        &["a delete took 0", "a delete took 1", "a delete took 2", "a delete took 3", "a delete took 4 to 9"],
    );
    met.check(200, &["a delete took 10 to 19", "a delete took 20 or more", "a delete took another's object"]);
    met.check(2000, &["a journal with entries was emptied"]);
}
