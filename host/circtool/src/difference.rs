//! Where two states differ, in words.

use crate::level::{label_words, level_words, Level};
use crate::mode::Modes;
use crate::view::{Object, View, OBJECTS, SUBJECTS};

/// One line for each difference: subjects first, then each object with owner, parent, label, companies, rights and accesses.
pub fn differences(a: &View, b: &View) -> Vec<String> {
    let subjects = (0..SUBJECTS).filter_map(|subject| clearance(subject, a.subjects[subject], b.subjects[subject]));
    let objects = (0..OBJECTS).flat_map(|object| match (&a.objects[object], &b.objects[object]) {
        (None, None) => Vec::new(),
        (Some(it), None) => vec![format!("o{object}: live in A ({}), not live in B", brief(it))],
        (None, Some(it)) => vec![format!("o{object}: not live in A, live in B ({})", brief(it))],
        (Some(a), Some(b)) => both_live(object, a, b),
    });
    subjects.chain(objects).collect()
}

fn clearance(subject: usize, a: Option<Level>, b: Option<Level>) -> Option<String> {
    let clearance = |level| format!("clearance {}", level_words(level));
    let words = |level: Option<Level>| level.map_or("not enrolled".to_string(), clearance);
    (a != b).then(|| format!("s{subject}: {} in A, {} in B", words(a), words(b)))
}

fn brief(object: &Object) -> String {
    let companies = if object.companies.is_none() { String::new() } else { format!(", {}", object.companies.words()) };
    let parent = object.parent.map_or(String::new(), |parent| format!(", under o{parent}"));
    format!("owner s{}{parent}, {}{companies}", object.owner, labelled(object.label))
}

/// `under o3`, or that it is under none.
fn placed(parent: Option<usize>) -> String {
    parent.map_or("under no object".to_string(), |parent| format!("under o{parent}"))
}

fn labelled(label: Option<Level>) -> String {
    label.map_or(label_words(None), |level| format!("label {}", level_words(level)))
}

fn both_live(object: usize, a: &Object, b: &Object) -> Vec<String> {
    let mut lines = Vec::new();
    if a.owner != b.owner {
        lines.push(format!("o{object}: owner s{} in A, s{} in B", a.owner, b.owner));
    }
    if a.parent != b.parent {
        lines.push(format!("o{object}: {} in A, {} in B", placed(a.parent), placed(b.parent)));
    }
    if a.label != b.label {
        lines.push(format!("o{object}: {} in A, {} in B", labelled(a.label), labelled(b.label)));
    }
    if a.companies != b.companies {
        lines.push(format!("o{object}: {} in A, {} in B", a.companies.words(), b.companies.words()));
    }
    for subject in 0..SUBJECTS {
        lines.extend(row(object, subject, "rights", a.rights[subject], b.rights[subject]));
        lines.extend(row(object, subject, "accesses", a.held[subject], b.held[subject]));
    }
    lines
}

fn row(object: usize, subject: usize, what: &str, a: Modes, b: Modes) -> Option<String> {
    (a != b).then(|| format!("o{object}: {what} of s{subject}: {a} in A, {b} in B"))
}
