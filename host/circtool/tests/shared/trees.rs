//! That what is said of parents and children is so, by the second implementation's state.

use super::second;
use circtool::tree::{Unruly, Wrong};
use reference::Monitor;

/// That the one is under the other with these labels, and that these break the rule.
pub fn unruly_is_so(it: &Unruly, state: &Monitor, what: &str) {
    let object = |at: usize| state.objects[at].as_ref().unwrap_or_else(|| panic!("{what}: o{at} is not live"));
    let (child, parent) = (object(it.child), object(it.parent));
    assert_eq!(child.parent, Some(it.parent), "{what}");
    assert_eq!((Some(second(it.label)), it.above.map(second)), (child.label, parent.label), "{what}");
    assert!(parent.label.is_none_or(|above| !second(it.label).dominates(&above)), "{what}");
}

/// That the parent is not live or no object at all, or that each of a ring is under the one behind it.
pub fn wrong_is_so(wrong: &Wrong, state: &Monitor, what: &str) {
    let parent = |at: usize| state.objects[at].as_ref().and_then(|it| it.parent);
    match wrong {
        Wrong::NotLive { object, parent: named } => {
            assert_eq!(parent(*object), Some(*named), "{what}");
            assert!(state.objects[*named].is_none(), "{what}");
        }
        Wrong::NoObject { object, parent: named } => {
            assert_eq!(parent(*object), Some(*named), "{what}");
            assert!(*named >= state.objects.len(), "{what}");
        }
        Wrong::Ring(objects) => {
            for (at, object) in objects.iter().enumerate() {
                assert_eq!(parent(*object), Some(objects[(at + 1) % objects.len()]), "{what}");
            }
        }
    }
}
