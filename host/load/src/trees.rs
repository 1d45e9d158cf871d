//! Objects under objects in drawn requests: the parents that creates carry, labels beside that of a parent, and deletes of objects
//! that have children.

use crate::{upper, Random, Shape};
use reference::{Kind, Level, Monitor, Object, Request, OBJECTS};

/// The object with this number, where there is one and it is live.
fn live(monitor: &Monitor, number: usize) -> Option<&Object> {
    monitor.objects.get(number)?.as_ref()
}

/// How many objects the chain from this one upward has. Any state may be followed, also one whose chains do not end: no chain is
/// longer than there are objects.
pub fn depth(monitor: &Monitor, object: usize) -> usize {
    let up = |&number: &usize| live(monitor, number)?.parent;
    let chain = std::iter::successors(Some(object), up).take_while(|&number| live(monitor, number).is_some());
    chain.take(OBJECTS).count()
}

/// The parent that a create carries: mostly a live object, of these sometimes the one with the longest chain, so that chains
/// grow; sometimes the object that is to be created, or any one, which need not be live.
pub fn new_parent(random: &mut Random, shape: Shape, monitor: &Monitor, object: usize) -> Option<usize> {
    if shape.parents == 0 || random.below(10) >= shape.parents {
        return None;
    }
    let any = random.below(shape.objects);
    let from_there = (0..shape.objects).map(|step| (any + step) % shape.objects);
    let mut live = from_there.filter(|&object| live(monitor, object).is_some());
    match random.below(10) {
        0 | 1 => Some(object),
        2 => Some(any),
        3..=5 => live.max_by_key(|&object| depth(monitor, object)),
        _ => live.next(),
    }
}

/// The label to be asked for an object that has no label and a parent with one: mostly it dominates that one's.
pub fn beside_parent(random: &mut Random, monitor: &Monitor, object: usize, level: Level) -> Level {
    let it = live(monitor, object).filter(|it| it.label.is_none());
    let above = it.and_then(|it| live(monitor, it.parent?)?.label);
    match above {
        Some(above) if !random.once_in(4) => upper(level, above),
        _ => level,
    }
}

/// A delete of a child is, every third time, one of its parent, mostly by the owner of that: so deletes that take children are
/// frequent.
pub fn moved_up(random: &mut Random, monitor: &Monitor, request: Request) -> Request {
    let parent = live(monitor, request.object).and_then(|it| it.parent).filter(|_| request.kind == Kind::Delete);
    let above = parent.and_then(|parent| Some((parent, live(monitor, parent)?.owner)));
    match above {
        Some((object, owner)) if random.once_in(3) => {
            let actor = if random.once_in(6) { request.actor } else { owner };
            Request { actor, object, ..request }
        }
        _ => request,
    }
}
