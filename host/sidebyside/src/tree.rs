//! What is asked of parents, children and their labels: computed from the sentences, and asked of neither implementation.

use crate::level::dominates;
use reference::{Monitor, Object, OBJECTS};

/// Where the parent bits of an object begin in an image: the last seven of its 177.
pub fn parent_at(object: usize) -> usize {
    8 * 42 + 177 * object + 170
}

/// The image with this number, 0 to 127, in the parent bits of an object.
pub fn with_parent_bits(image: &[u8], object: usize, number: u8) -> Vec<u8> {
    let mut bytes = image.to_vec();
    for k in 0..7 {
        let (place, weight) = (parent_at(object) + k, 0x80 >> ((parent_at(object) + k) % 8));
        let set = number >> (6 - k) & 1 == 1;
        bytes[place / 8] = if set { bytes[place / 8] | weight } else { bytes[place / 8] & !weight };
    }
    bytes
}

/// The live object with this number.
pub fn live(monitor: &Monitor, number: usize) -> Option<&Object> {
    monitor.objects.get(number).and_then(Option::as_ref)
}

/// The object and those above it. Nothing where the chain does not end, or comes to what is not live.
pub fn chain(monitor: &Monitor, object: usize) -> Option<Vec<usize>> {
    let mut chain = vec![object];
    while let Some(parent) = live(monitor, chain[chain.len() - 1])?.parent {
        if chain.contains(&parent) {
            return None;
        }
        chain.push(parent);
    }
    Some(chain)
}

/// "Deleting an object deletes everything below it": the live objects with this one above them.
pub fn below(monitor: &Monitor, top: usize) -> Vec<usize> {
    let is_below = |&object: &usize| {
        object != top && live(monitor, object).is_some() && chain(monitor, object).is_some_and(|it| it.contains(&top))
    };
    (0..OBJECTS).filter(is_below).collect()
}

/// How many objects the longest chain has.
pub fn deepest(monitor: &Monitor) -> usize {
    (0..OBJECTS).filter_map(|object| chain(monitor, object)).map(|chain| chain.len()).max().unwrap_or(0)
}

/// "19, a parent that isn't live .. where parent bits above 64 or a chain of parents that does not end counts too". From the top
/// down: what has no parent is in order, and then what stands under something that is.
pub fn wrong_parent(monitor: &Monitor) -> bool {
    let mut in_order = [false; OBJECTS];
    for _ in 0..OBJECTS {
        for object in 0..OBJECTS {
            let parent = live(monitor, object).map(|it| it.parent);
            in_order[object] |= parent.is_some_and(|it| it.is_none_or(|it| in_order.get(it) == Some(&true)));
        }
    }
    (0..OBJECTS).any(|object| live(monitor, object).is_some() && !in_order[object])
}

/// "A labelled child has a labelled parent whose label it dominates": the first child and its parent of which that is not so.
pub fn broken_rule(monitor: &Monitor) -> Option<(usize, usize)> {
    let is_broken = |object: usize| {
        let it = live(monitor, object)?;
        let (label, parent) = (it.label?, it.parent?);
        let above = live(monitor, parent).and_then(|it| it.label);
        let kept = above.is_some_and(|above| dominates(label, above));
        (!kept).then_some((object, parent))
    };
    (0..OBJECTS).find_map(is_broken)
}
