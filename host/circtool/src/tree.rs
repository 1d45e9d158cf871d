//! Objects under objects: in which order they are shown, what is below an object, and where a state has a parent that it must not
//! have, or labels that break the rule between parent and child: every place, so that it can be named.

use crate::level::{level_words, shortfall, Level};
use crate::view::{View, OBJECTS};
use circmon::compare;

/// A live object whose parent is this one. An object is not its own child.
fn is_child(view: &View, parent: usize, number: usize) -> bool {
    number != parent && view.object(number).is_some_and(|it| it.parent == Some(parent))
}

/// The objects whose parent is this one, in the order of their numbers.
fn children(view: &View, parent: usize) -> Vec<usize> {
    (0..OBJECTS).filter(|&number| is_child(view, parent, number)).collect()
}

/// Everything below an object and how far below, each behind its parent and children in the order of their numbers. Objects of a
/// refused image may stand in a ring: none comes twice, nor does the first.
pub fn below(view: &View, object: usize) -> Vec<(usize, usize)> {
    let mut found: Vec<(usize, usize)> = Vec::new();
    let mut left = vec![(object, 0)];
    while let Some((next, depth)) = left.pop() {
        if found.iter().any(|&(number, _)| number == next) {
            continue;
        }
        found.push((next, depth));
        left.extend(children(view, next).into_iter().rev().map(|child| (child, depth + 1)));
    }
    found.split_off(1)
}

/// All live objects, each with its depth and below its parent. First those without a parent that is live, with all below them; then,
/// in a refused image, what is left: objects in rings.
pub fn ordered(view: &View) -> Vec<(usize, usize)> {
    let is_top = |number: usize| {
        view.object(number).is_some_and(|it| it.parent.is_none_or(|parent| view.object(parent).is_none()))
    };
    let tops = (0..OBJECTS).filter(|&number| is_top(number));
    let others = (0..OBJECTS).filter(|&number| view.object(number).is_some() && !is_top(number));
    let mut found: Vec<(usize, usize)> = Vec::new();
    for first in tops.chain(others) {
        let all = std::iter::once((first, 0)).chain(below(view, first));
        if !found.iter().any(|&(number, _)| number == first) {
            found.extend(all.collect::<Vec<_>>());
        }
    }
    found
}

/// A parent that an object of an image must not have.
#[derive(Clone, Debug, PartialEq, Eq)]
pub enum Wrong {
    /// the parent is not live
    NotLive { object: usize, parent: usize },
    /// the bits name none of the objects
    NoObject { object: usize, parent: usize },
    /// each is under the one behind it, and the last under the first
    Ring(Vec<usize>),
}

/// Every such parent; of a ring, each once.
pub fn wrong_parents(view: &View) -> Vec<Wrong> {
    let of = |(object, parent): (usize, usize)| match view.objects.get(parent) {
        None => Some(Wrong::NoObject { object, parent }),
        Some(None) => Some(Wrong::NotLive { object, parent }),
        Some(Some(_)) => ring(view, object).filter(|ring| ring.iter().min() == Some(&object)).map(Wrong::Ring),
    };
    view.live().filter_map(|(object, it)| Some((object, it.parent?))).filter_map(of).collect()
}

/// The ring in which the object stands, from it upward.
fn ring(view: &View, object: usize) -> Option<Vec<usize>> {
    let mut chain = vec![object];
    loop {
        let parent = view.object(*chain.last()?)?.parent?;
        if parent == object {
            return Some(chain);
        }
        if chain.contains(&parent) {
            return None;
        }
        chain.push(parent);
    }
}

impl Wrong {
    /// The objects at fault.
    pub fn objects(&self) -> Vec<usize> {
        match self {
            Wrong::NotLive { object, .. } | Wrong::NoObject { object, .. } => vec![*object],
            Wrong::Ring(objects) => objects.clone(),
        }
    }

    pub fn words(&self) -> String {
        match self {
            Wrong::NotLive { object, parent } => format!("o{object} is under o{parent}, which is not live"),
            Wrong::NoObject { object, parent } => {
                format!("the parent bits of o{object}, a number plus one, are {}, above {OBJECTS}", parent + 1)
            }
            Wrong::Ring(objects) if objects.len() == 1 => {
                format!("o{} is under itself: its chain of parents does not end", objects[0])
            }
            Wrong::Ring(objects) => {
                let way: Vec<String> = objects.iter().chain(objects.first()).map(|it| format!("o{it}")).collect();
                format!("a chain of parents does not end: {}", way.join(" under "))
            }
        }
    }
}

/// A labelled object under one without a label, or with a label that its own does not dominate.
#[derive(Clone, Debug, PartialEq, Eq)]
pub struct Unruly {
    pub child: usize,
    pub parent: usize,
    /// that of the child
    pub label: Level,
    /// that of the parent
    pub above: Option<Level>,
}

const RULE: &str = "a labelled child has a labelled parent, whose label it dominates";

/// Every such object, by the number of the child. A parent that is not live is named elsewhere.
pub fn unruly(view: &View) -> Vec<Unruly> {
    let of = |child: usize| {
        let it = view.object(child)?;
        let (parent, label) = (it.parent?, it.label?);
        let above = view.object(parent)?.label;
        let kept = above.is_some_and(|above| compare(label, above).dominates());
        (!kept).then_some(Unruly { child, parent, label, above })
    };
    (0..OBJECTS).filter_map(of).collect()
}

impl Unruly {
    /// Both labels, why the one does not dominate the other, and the rule. The label of the object that is to have another one is
    /// called the new one.
    pub fn words(&self, changed: Option<usize>) -> String {
        let Unruly { child, parent, label, above } = self;
        let name = |object: usize, level: Level| {
            let new = if changed == Some(object) { "new " } else { "" };
            format!("the {new}label of o{object} ({})", level_words(level))
        };
        match above {
            None => {
                let label = level_words(*label);
                format!(
                    "o{child} is under o{parent}, which has no label, and so it cannot have the label {label}; {RULE}"
                )
            }
            Some(above) => {
                let why = shortfall(*label, *above, &name(*parent, *above)).unwrap_or_default();
                format!("o{child} is under o{parent}, and {} {why}; {RULE}", name(*child, *label))
            }
        }
    }
}
