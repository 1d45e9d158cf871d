//! Loads with companies: requests that set them, and gets of subjects that hold much, which look at the wall.

use crate::loads::{prepare, shape, Load, REQUESTS};
use load::{Random, Shape};
use reference::{Companies, Kind, Level, Mode, Monitor, Profile, Request, OBJECTS, SUBJECTS};

const TOP: Level = Level { class: 15, needs: u16::MAX };

/// A load that is being drawn: the state that its requests have made.
pub struct Drawing {
    pub monitor: Monitor,
    pub requests: Vec<u8>,
}

impl Drawing {
    /// Every subject has the highest clearance and the rights w and e to every object; all have one label and these companies.
    fn full(companies: impl Fn(usize) -> Companies) -> Drawing {
        let mut it = Drawing { monitor: Monitor::begin([Some(TOP); SUBJECTS]), requests: Vec::new() };
        for object in 0..OBJECTS {
            let actor = object % SUBJECTS;
            it.ask(actor, object, Kind::Create { execute: true, parent: None });
            it.ask(actor, object, Kind::ChangeLevel(TOP));
            it.ask(actor, object, Kind::SetCompanies(companies(object)));
            for other in (0..SUBJECTS).filter(|&other| other != actor) {
                it.ask(actor, object, Kind::Give(other, Mode::Write));
                it.ask(actor, object, Kind::Give(other, Mode::Execute));
            }
        }
        it
    }

    pub fn ask(&mut self, actor: usize, object: usize, kind: Kind) {
        let bytes = Request { actor, object, kind }.encode();
        self.monitor.request(&bytes);
        self.requests.extend(bytes);
    }

    pub fn load(self, name: &str) -> Load {
        let Drawing { monitor, requests } = self;
        Load { name: name.to_string(), profile: Profile::WIDEST, table: monitor.table(), requests }
    }
}

/// Everyone holds this mode on every object, all of which have the same companies; each request asks for one of these accesses again:
/// it passes every check, the last of which goes over all that the actor holds.
fn get_again(name: &str, mode: Mode) -> Load {
    let random = &mut Random::new(11);
    let mut drawing = Drawing::full(|_| [1, 2, 3, 4]);
    for (actor, object) in (0..SUBJECTS).flat_map(|actor| (0..OBJECTS).map(move |object| (actor, object))) {
        drawing.ask(actor, object, Kind::Get(mode));
    }
    for _ in 0..REQUESTS {
        drawing.ask(random.below(SUBJECTS), random.below(OBJECTS), Kind::Get(mode));
    }
    drawing.load(name)
}

/// Two companies in turn: a subject that holds an object of the one is refused those of the other.
fn two_companies() -> Load {
    let random = &mut Random::new(12);
    let mut drawing = Drawing::full(|object| [1 + object as u8 % 2, 0, 0, 0]);
    for _ in 0..REQUESTS {
        let mode = if random.once_in(2) { Mode::Write } else { Mode::Execute };
        drawing.ask(random.below(SUBJECTS), random.below(OBJECTS), Kind::Get(mode));
    }
    drawing.load("get, two companies, 64 objects")
}

/// The companies of the shape of a load.
fn with_companies(objects: usize) -> Shape {
    Shape { companies: 2, ..shape(objects) }
}

/// Companies set on a state in which much is held, mostly by the owner.
fn set_companies(objects: usize) -> Load {
    let random = &mut Random::new(13);
    let (monitor, requests) = prepare(random, objects, true);
    let mut drawing = Drawing { monitor, requests };
    for _ in 0..REQUESTS {
        let object = random.below(objects);
        let Some((owner, old)) = drawing.monitor.objects[object].as_ref().map(|it| (it.owner, it.companies)) else {
            continue;
        };
        let actor = if random.once_in(4) { random.below(SUBJECTS) } else { owner };
        drawing.ask(actor, object, Kind::SetCompanies(load::new_companies(random, with_companies(objects), old)));
    }
    drawing.load(&format!("companies, {objects} objects, dense"))
}

/// All kinds, with companies among them.
fn mixed(objects: usize) -> Load {
    let random = &mut Random::new(14);
    let shape = with_companies(objects);
    let table = load::table(random, shape);
    let monitor = Monitor::from_table(&table).expect("a table that was written");
    let mut drawing = Drawing { monitor, requests: Vec::new() };
    for _ in 0..REQUESTS {
        let Request { actor, object, kind } = load::request(random, shape, &drawing.monitor);
        drawing.ask(actor, object, kind);
    }
    drawing.load(&format!("mixed with companies, {objects} objects"))
}

pub fn loads() -> Vec<Load> {
    let mut loads = vec![
        get_again("get w, one company, 64 objects held", Mode::Write),
        get_again("get e, one company, 64 objects held", Mode::Execute),
        two_companies(),
    ];
    loads.extend([4, 16, 64].map(set_companies));
    loads.extend([4, 16, 64].map(mixed));
    loads
}

#[cfg(test)]
mod tests {
    use super::*;
    use reference::{reply, REQUEST_BYTES};

    /// The replies to the requests that count, and the state after them.
    fn replies(load: &Load) -> (Monitor, Vec<u8>) {
        let mut monitor = Monitor::from_table(&load.table).expect("a table that was written");
        let all: Vec<u8> = load.requests.chunks(REQUEST_BYTES).map(|it| monitor.request(it)).collect();
        let counted = all[all.len() - REQUESTS..].to_vec();
        (monitor, counted)
    }

    fn of(replies: &[u8], number: u8) -> usize {
        replies.iter().filter(|reply| **reply == number).count()
    }

    #[test]
    fn who_asks_again_holds_everything_and_passes_every_check() {
        for mode in [Mode::Write, Mode::Execute] {
            let (monitor, replies) = replies(&get_again("again", mode));
            assert_eq!(of(&replies, reply::ALREADY), REQUESTS, "{mode:?}");
            let held =
                |object: usize| monitor.objects[object].as_ref().is_some_and(|it| it.held == [mode.bit(); SUBJECTS]);
            assert!((0..OBJECTS).all(held), "{mode:?}");
        }
    }

    #[test]
    fn the_wall_decides_in_the_other_loads() {
        let (_, two) = replies(&two_companies());
        assert!(4 * of(&two, reply::WALL) > REQUESTS && of(&two, reply::ALREADY) > 1000, "{}", of(&two, reply::WALL));
        for objects in [4, 16, 64] {
            let (_, set) = replies(&set_companies(objects));
            let counts = [0, 1, 6, 18].map(|number| of(&set, number));
            assert!(counts.iter().all(|&count| count > 500), "{objects} objects: {counts:?}");
            let (_, mixed) = replies(&mixed(objects));
            assert!(of(&mixed, reply::WALL) > 30, "{objects} objects: {}", of(&mixed, reply::WALL));
        }
    }
}
