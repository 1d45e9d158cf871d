//! The order of gets: the answer for a list of them beside the second implementation. No two of the gets clash, so every pair is
//! looked at.

use crate::timing::{each, median, print_head, print_row};
use circmon::{StartOrder, Unit, OBJECTS, SUBJECTS};
use load::Random;
use reference::{Get, Kind, Level, Mode, Monitor, Request, IMAGE_BYTES};

const GETS: usize = 200;
/// The second implementation looks at all subjects and objects for each pair and takes far longer, so it is asked less often.
const ROUNDS: usize = 9;
const REPEAT: usize = 20;
/// Microseconds that the proved monitor may take for a list.
const MOST_MICROSECONDS: f64 = 5000.0;

/// A state and a list of gets on it.
struct Case {
    name: &'static str,
    monitor: Monitor,
    gets: Vec<Get>,
}

/// Sixteen subjects with the highest clearance and all rights to sixty-four objects with these labels.
fn full(label: impl Fn(usize) -> Level) -> Monitor {
    let top = Level { class: 15, needs: u16::MAX };
    let table = Monitor::begin([Some(top); SUBJECTS]).table();
    let mut monitor = Monitor::from_table(&table).expect("a table that was written");
    for object in 0..OBJECTS {
        let actor = object % SUBJECTS;
        let mut granted = |kind| assert!(monitor.step(Request { actor, object, kind }) < 2, "{kind:?} of o{object}");
        granted(Kind::Create { execute: true, parent: None });
        granted(Kind::ChangeLevel(label(object)));
        for (other, mode) in (0..SUBJECTS).flat_map(|other| Mode::ALL.map(|mode| (other, mode))) {
            granted(Kind::Give(other, mode));
        }
    }
    monitor
}

/// All labels are equal, and the actor holds w on every object, so that the star check of each get goes over all of them; each
/// two gets of w ask for dominance both ways. Everyone else holds r on a quarter of the objects.
fn one_actor() -> Case {
    let mut monitor = full(|_| Level { class: 3, needs: 0b101 });
    for (actor, object) in (0..SUBJECTS).flat_map(|actor| (0..OBJECTS).map(move |object| (actor, object))) {
        let mode = if actor == 0 { Mode::Write } else { Mode::Read };
        if actor == 0 || (actor + object) % 4 == 0 {
            monitor.request(&Get { actor, object, mode }.encode());
        }
    }
    let gets = (0..GETS).map(|at| Get { actor: 0, object: at % OBJECTS, mode: Mode::Write }).collect();
    Case { name: "one actor", monitor, gets }
}

/// Labels of four classes and two needs, with what is granted of a thousand gets held; the list takes each get that is granted
/// alone and does not clash with one that stands in it, by each actor in turn.
fn sixteen_actors() -> Case {
    let random = &mut Random::new(7);
    let mut monitor = full(|object| Level { class: object as u8 % 4, needs: (object as u16 / 4) % 4 });
    let any = |random: &mut Random, actor| Get { actor, object: random.below(OBJECTS), mode: random.mode() };
    for at in 0..1000 {
        let get = any(random, at % SUBJECTS);
        monitor.request(&get.encode());
    }
    let mut gets: Vec<Get> = Vec::new();
    while gets.len() < GETS {
        let get = any(random, gets.len() % SUBJECTS);
        let clashes = |other: &Get| other.actor == get.actor && monitor.clash(get, *other);
        if monitor.grants_alone(get) && !gets.iter().any(clashes) {
            gets.push(get);
        }
    }
    Case { name: "sixteen actors", monitor, gets }
}

fn unit_of(monitor: &Monitor) -> Unit {
    let mut image = [0; IMAGE_BYTES];
    monitor.write_image(&mut image);
    Unit::from_image(&image).expect("an image that was written")
}

/// A row for each list, and that the proved monitor is as quick as it must be.
pub fn orders() {
    print_head("orders: microseconds for a list of gets, and the ratio to the second implementation");
    for Case { name, monitor, gets } in [one_actor(), sixteen_actors()] {
        let (unit, list) = (unit_of(&monitor), gets.iter().flat_map(Get::encode).collect::<Vec<u8>>());
        let (mut ours, mut theirs) = (Vec::new(), Vec::new());
        for _ in 0..ROUNDS {
            ours.push(each(REPEAT, &mut || assert_eq!(unit.clash(&list), StartOrder::Agree)));
            theirs.push(each(1, &mut || assert_eq!(monitor.start_order(&list), reference::StartOrder::Agree)));
        }
        let ours = median(ours);
        print_row(&format!("orders, {GETS} gets, {name}"), ours, median(theirs));
        assert!(ours < MOST_MICROSECONDS, "{ours} microseconds, and at most {MOST_MICROSECONDS} are allowed");
    }
}

#[cfg(test)]
mod tests {
    use super::*;

    #[test]
    fn the_states_are_full_every_get_is_granted_alone_and_no_two_clash() {
        for (Case { name, monitor, gets }, actors) in [(one_actor(), 1), (sixteen_actors(), SUBJECTS)] {
            assert!(monitor.subjects.iter().all(Option::is_some), "{name}");
            assert!(monitor.objects.iter().all(|it| it.as_ref().is_some_and(|it| it.label.is_some())), "{name}");
            let held: u32 = monitor.objects.iter().flatten().flat_map(|it| it.held).map(u8::count_ones).sum();
            assert!(held >= 150, "{name}: {held} accesses are held");
            assert_eq!(gets.len(), GETS);
            assert!(gets.iter().all(|get| monitor.grants_alone(*get)), "{name}");
            let mut met: Vec<usize> = gets.iter().map(|get| get.actor).collect();
            met.sort_unstable();
            met.dedup();
            assert_eq!(met.len(), actors, "{name}");
            let list: Vec<u8> = gets.iter().flat_map(Get::encode).collect();
            assert_eq!(unit_of(&monitor).clash(&list), StartOrder::Agree, "{name}");
            assert_eq!(monitor.start_order(&list), reference::StartOrder::Agree, "{name}");
        }
    }
}
