//! A state for people.

use crate::level::{level_words, NO_LABEL};
use crate::paint::Paint;
use crate::profile::{profile_words, Profile};
use crate::tree::ordered;
use crate::view::{Object, View, SUBJECTS};
use crate::words::count;

/// The whole text: counts, the profile where it is not the widest, subjects with clearances, live objects with owner, label,
/// companies and rows, each further in than the object that it is under.
pub fn show(view: &View, paint: Paint) -> String {
    let mut text = format!("{}\n{}", counts(view), profile_lines(view.profile, paint));
    text.push_str(&format!("{}\n{}", paint.heading("subjects"), subject_lines(view)));
    text.push_str(&format!("\n{}\n", paint.heading("objects")));
    let objects: String = ordered(view).into_iter().map(|place| object_lines(view, place, paint)).collect();
    text.push_str(if objects.is_empty() { "  none is live\n" } else { &objects });
    text
}

/// A profile that is not the widest, with an empty line behind it.
pub fn profile_lines(profile: Profile, paint: Paint) -> String {
    if profile == Profile::WIDEST {
        String::new()
    } else {
        format!("{}\n  {}\n\n", paint.heading("profile"), profile_words(profile))
    }
}

/// The enrolled subjects with their clearances.
pub fn subject_lines(view: &View) -> String {
    let line = |(subject, level)| format!("  s{subject:<3} {}\n", level_words(level));
    let lines: String = view.enrolled().map(line).collect();
    if lines.is_empty() {
        "  nobody is enrolled\n".to_string()
    } else {
        lines
    }
}

fn counts(view: &View) -> String {
    let enrolled = view.enrolled().count();
    let live = view.live().count();
    let unlabelled = view.live().filter(|(_, object)| object.label.is_none()).count();
    let sum = |row: fn(&Object, usize) -> u32| -> usize {
        view.live().map(|(_, object)| (0..SUBJECTS).map(|subject| row(object, subject)).sum::<u32>() as usize).sum()
    };
    let rights = sum(|object, subject| object.rights[subject].count());
    let accesses = sum(|object, subject| object.held[subject].count());
    format!(
        "{} enrolled, {} live ({unlabelled} without a label), {}, {} held\n",
        count(enrolled, "subject", "subjects"),
        count(live, "object", "objects"),
        count(rights, "right", "rights"),
        count(accesses, "access", "accesses")
    )
}

/// The label as a column of its own: an absent one says what follows from it and never looks like class 0.
fn label(object: &Object, paint: Paint) -> String {
    match object.label {
        Some(level) => format!("label {}", level_words(level)),
        None => format!("{} (not class 0: nobody reads, writes or appends)", paint.warning(NO_LABEL)),
    }
}

/// An object with its owner and label, its companies where it has any, and its parent where it has one.
pub fn object_line(number: usize, object: &Object, paint: Paint) -> String {
    let companies = if object.companies.is_none() { String::new() } else { format!("   {}", object.companies.words()) };
    let parent = object.parent.map_or(String::new(), |parent| format!("   under o{parent}"));
    format!("o{number:<3} owner s{:<3} {}{companies}{parent}\n", object.owner, label(object, paint))
}

/// An object and the subjects that have something on it, two places further in for each object above it.
fn object_lines(view: &View, (number, depth): (usize, usize), paint: Paint) -> String {
    let Some(object) = view.object(number) else { return String::new() };
    let indent = " ".repeat(2 * depth);
    let mut lines = format!("{indent}  {}", object_line(number, object, paint));
    for subject in 0..SUBJECTS {
        let (rights, held) = (object.rights[subject], object.held[subject]);
        if !rights.is_empty() || !held.is_empty() {
            let holds = if held.is_empty() { String::new() } else { format!("   holds {}", held.row()) };
            lines.push_str(&format!("{indent}         s{subject:<3} rights {}{holds}\n", rights.row()));
        }
    }
    lines
}
