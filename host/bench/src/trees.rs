//! Loads with objects under objects: creates under a parent, deletes of whole branches, and labels beside those of parent and child.

use crate::companies::Drawing;
use crate::loads::{shape, Load, REQUESTS};
use load::{Random, Shape};
use reference::{Kind, Level, Monitor, OBJECTS, SUBJECTS};

const TOP: Level = Level { class: 15, needs: u16::MAX };

/// Everyone is enrolled at the top, and no object is live.
fn begun() -> Drawing {
    Drawing { monitor: Monitor::begin([Some(TOP); SUBJECTS]), requests: Vec::new() }
}

fn create(parent: Option<usize>) -> Kind {
    Kind::Create { execute: true, parent }
}

/// All objects are created, each under the one that `parent` says, and then deleted by one request; and so again.
fn whole_branches(name: &str, parent: fn(usize) -> Option<usize>) -> Load {
    let mut drawing = begun();
    for at in 0..REQUESTS {
        let object = at % (OBJECTS + 1);
        if object < OBJECTS {
            drawing.ask(object % SUBJECTS, object, create(parent(object)));
        } else {
            drawing.ask(0, 0, Kind::Delete);
        }
    }
    drawing.load(name)
}

/// A riser with flats and meters in all slots but some; in these, meters come and go.
fn leaves() -> Load {
    let random = &mut Random::new(21);
    let mut drawing = begun();
    for object in 0..OBJECTS {
        drawing.ask(object % SUBJECTS, object, create(flats_and_meters(object)));
    }
    for _ in 0..REQUESTS {
        // a meter
        let object = 9 + random.below(OBJECTS - 9);
        let owner = object % SUBJECTS;
        let live = drawing.monitor.objects[object].is_some();
        drawing.ask(owner, object, if live { Kind::Delete } else { create(flats_and_meters(object)) });
    }
    drawing.load("create, delete under parents, leaves")
}

/// o0 is the riser, o1 to o8 are flats, and the others meters in them.
fn flats_and_meters(object: usize) -> Option<usize> {
    match object {
        0 => None,
        1..=8 => Some(0),
        _ => Some(1 + object % 8),
    }
}

/// Labels of a riser, flats and meters, asked for again by their owners; and those of riser and flats one class higher, until these
/// have the label of the meters: then that is refused by the rule toward a child, which is looked at last.
fn labels() -> Load {
    let random = &mut Random::new(22);
    let mut drawing = begun();
    for object in 0..OBJECTS {
        drawing.ask(object % SUBJECTS, object, create(flats_and_meters(object)));
        let class = [1, 4, 8][[1, 9].iter().filter(|&&first| object >= first).count()];
        drawing.ask(object % SUBJECTS, object, Kind::ChangeLevel(Level { class, needs: 0 }));
    }
    for _ in 0..REQUESTS {
        let raised = random.once_in(2);
        let object = random.below(if raised { 9 } else { OBJECTS });
        let label = drawing.monitor.objects[object].as_ref().and_then(|it| it.label).unwrap_or(TOP);
        let class = label.class + u8::from(raised);
        drawing.ask(object % SUBJECTS, object, Kind::ChangeLevel(Level { class, ..label }));
    }
    drawing.load("change level under parents, 64 objects")
}

/// All kinds, with creates under parents and deletes of branches among them.
fn mixed(objects: usize) -> Load {
    let random = &mut Random::new(23);
    let shape = Shape { parents: 6, ..shape(objects) };
    let table = load::table(random, shape);
    let monitor = Monitor::from_table(&table).expect("a table that was written");
    let mut drawing = Drawing { monitor, requests: Vec::new() };
    for _ in 0..REQUESTS {
        let request = load::request(random, shape, &drawing.monitor);
        drawing.ask(request.actor, request.object, request.kind);
    }
    drawing.load(&format!("mixed with parents, {objects} objects"))
}

pub fn loads() -> Vec<Load> {
    let mut loads = vec![
        whole_branches("branches, a chain of 64", |object| object.checked_sub(1)),
        whole_branches("branches, 63 under one", |object| (object > 0).then_some(0)),
        whole_branches("branches, flats and meters", flats_and_meters),
        leaves(),
        labels(),
    ];
    loads.extend([4, 16, 64].map(mixed));
    loads
}

#[cfg(test)]
mod tests {
    use super::*;
    use reference::{reply, REQUEST_BYTES};

    /// The replies to the requests that count.
    fn replies(load: &Load) -> Vec<u8> {
        let mut monitor = Monitor::from_table(&load.table).expect("a table that was written");
        let all: Vec<u8> = load.requests.chunks(REQUEST_BYTES).map(|it| monitor.request(it)).collect();
        all[all.len() - REQUESTS..].to_vec()
    }

    fn of(replies: &[u8], number: u8) -> usize {
        replies.iter().filter(|reply| **reply == number).count()
    }

    #[test]
    fn whole_branches_come_and_go() {
        for load in &loads()[..4] {
            assert_eq!(of(&replies(load), reply::CHANGED), REQUESTS, "{}", load.name);
        }
    }

    #[test]
    fn the_rule_of_parent_and_child_decides_in_the_others() {
        let levels = replies(&labels());
        let counts = [reply::ALREADY, reply::PARENT_LABEL].map(|number| of(&levels, number));
        assert!(counts.iter().all(|&count| 3 * count > REQUESTS), "{counts:?}");
        // eight flats from class 4 to 8, and the riser from class 1
        assert_eq!(of(&levels, reply::CHANGED), 8 * 4 + 7);
        for objects in [4, 16, 64] {
            let mixed = replies(&mixed(objects));
            let counts = [reply::PARENT, reply::PARENT_LABEL].map(|number| of(&mixed, number));
            assert!(counts.iter().all(|&count| count > 30), "{objects} objects: {counts:?}");
        }
    }
}
