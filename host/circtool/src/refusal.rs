//! What is said of a refused table or image: the number in words, and where the check found its cause.

use crate::fault::{self, Fault};
use crate::profile::Profile;
use crate::words::refusal_words;

/// As many places as a message names.
const MOST_PLACES: usize = 5;

pub fn of_table(profile: Profile, name: &str, bytes: &[u8], number: u8) -> String {
    message(name, "table", number, &fault::of_table(profile, bytes))
}

pub fn of_image(profile: Profile, name: &str, bytes: &[u8], number: u8) -> String {
    message(name, "image", number, &fault::of_image(profile, bytes))
}

/// The number is the library's; a place found by another check must not pass for its cause.
fn message(name: &str, what: &str, number: u8, faults: &[Fault]) -> String {
    let mut text = format!("{name}: {what} refused with {}\n", refusal_words(number));
    if faults.iter().any(|fault| fault.number() != number) || faults.is_empty() {
        text.push_str("  circtool finds no place for this number; please report it\n");
        return text;
    }
    for fault in faults.iter().take(MOST_PLACES) {
        text.push_str(&format!("  {fault}\n"));
    }
    if faults.len() > MOST_PLACES {
        text.push_str(&format!("  and {} more places of this check\n", faults.len() - MOST_PLACES));
    }
    text
}
