//! Objects under objects: what is below an object, chains of parents, and the rule of labels between parent and child.

use crate::record::{Object, OBJECTS};

type Objects = [Option<Object>; OBJECTS];

/// The live object with this number; none where it is not live, or where no object has it.
fn live(objects: &Objects, number: usize) -> Option<&Object> {
    objects.get(number)?.as_ref()
}

/// The live objects whose parent is this one. An object is not its own child.
fn children(objects: &Objects, parent: usize) -> impl Iterator<Item = usize> + '_ {
    (0..OBJECTS).filter(move |&slot| slot != parent && live(objects, slot).is_some_and(|it| it.parent == Some(parent)))
}

pub fn has_child(objects: &Objects, parent: usize) -> bool {
    children(objects, parent).next().is_some()
}

/// Ends the object and everything below it. An object has one parent, and what is ended is no child any more: so each stands in
/// the list once, whatever the parents are.
pub fn remove(objects: &mut Objects, object: usize) {
    let mut list = [object; OBJECTS];
    let (mut listed, mut done) = (1, 0);
    while done < listed {
        objects[list[done]] = None;
        for child in children(objects, list[done]) {
            list[listed] = child;
            listed += 1;
        }
        done += 1;
    }
}

/// Whether every parent is a live object and every chain of parents ends.
pub fn parents_kept(objects: &Objects) -> bool {
    (0..OBJECTS).all(|slot| chain_ends(objects, slot))
}

/// A chain with more objects than there are has one of them twice, and goes round.
fn chain_ends(objects: &Objects, slot: usize) -> bool {
    let mut at = slot;
    for _ in 0..OBJECTS {
        let Some(parent) = live(objects, at).and_then(|it| it.parent) else {
            return true;
        };
        if live(objects, parent).is_none() {
            return false;
        }
        at = parent;
    }
    false
}

/// "A labelled child has a labelled parent whose label it dominates."
fn child_kept(objects: &Objects, child: &Object) -> bool {
    let (Some(label), Some(parent)) = (child.label, child.parent) else {
        return true;
    };
    live(objects, parent).and_then(|it| it.label).is_some_and(|above| label.dominates(&above))
}

/// The rule of labels over all objects.
pub fn labels_kept(objects: &Objects) -> bool {
    objects.iter().flatten().all(|child| child_kept(objects, child))
}

/// The rule of labels of one object toward its parent and toward each of its children.
pub fn label_kept(objects: &Objects, object: usize) -> bool {
    let kept = |slot: usize| live(objects, slot).is_none_or(|child| child_kept(objects, child));
    kept(object) && children(objects, object).all(kept)
}
