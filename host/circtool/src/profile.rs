//! Profiles of sites: the one under which a call runs, how scripts write it, and why something is outside it.

use crate::arguments::Arguments;
use crate::level::{level_words, missing, Level};
use crate::phrases;
use crate::script::Line;
use crate::words::count;
use circmon::compare;

pub use circmon::Profile;

/// The option that gives a profile, in the words of a script.
pub const OPTION: &str = "--profile";

/// The profile that a script states in a line of its own.
#[derive(Clone, Copy, Debug, PartialEq, Eq)]
pub struct Stated {
    pub line: usize,
    pub profile: Profile,
}

/// What the option says, where it is given.
pub fn asked(arguments: &Arguments) -> Result<Option<Profile>, String> {
    let Some(text) = arguments.value_of(OPTION) else { return Ok(None) };
    let text = text.to_string_lossy();
    match phrases::profile(&mut Line::new(1, &text)) {
        Ok(profile) => Ok(Some(profile)),
        Err(error) => Err(format!("{OPTION}, column {}: {}", error.column, error.message)),
    }
}

/// The one that is given, by the option or by the script of this name; the widest where none is. Both are an error.
pub fn one_of(option: Option<Profile>, script: Option<Stated>, name: &str) -> Result<Profile, String> {
    match (option, script) {
        (Some(_), Some(Stated { line, .. })) => {
            Err(format!("{name}:{line}: the script has a profile, and {OPTION} gives one too\n"))
        }
        (Some(profile), None) | (None, Some(Stated { profile, .. })) => Ok(profile),
        (None, None) => Ok(Profile::WIDEST),
    }
}

/// As scripts write it behind their first word: `subjects 4 objects 10 class 3 needs {0,1}`.
pub fn profile_words(profile: Profile) -> String {
    format!("subjects {} objects {} {}", profile.subjects(), profile.objects(), level_words(highest(profile)))
}

pub fn has_subject(profile: Profile, subject: usize) -> bool {
    subject < usize::from(profile.subjects())
}

pub fn has_object(profile: Profile, object: usize) -> bool {
    object < usize::from(profile.objects())
}

/// What is said of a subject beyond the profile, behind its name.
pub fn beyond_subjects(profile: Profile) -> String {
    beyond(usize::from(profile.subjects()), 's', "subject", "subjects")
}

/// What is said of an object beyond the profile, behind its name.
pub fn beyond_objects(profile: Profile) -> String {
    beyond(usize::from(profile.objects()), 'o', "object", "objects")
}

fn beyond(number: usize, letter: char, one: &str, many: &str) -> String {
    let numbers = match number {
        1 => format!("{letter}0 is"),
        _ => format!("{letter}0 to {letter}{} are", number - 1),
    };
    format!("is beyond the profile: {}, {numbers} in use", count(number, one, many))
}

/// The level with the highest class and all needs in use: it dominates every level inside the profile and no other.
fn highest(profile: Profile) -> Level {
    Level { class: profile.highest_class(), needs: profile.needs() }
}

pub fn has_level(profile: Profile, level: Level) -> bool {
    compare(highest(profile), level).dominates()
}

/// Why a level is outside the profile, said behind its name: what the profile lacks of it.
pub fn outside(profile: Profile, level: Level) -> String {
    let highest = highest(profile);
    let lacking = missing(highest, level);
    format!("is outside the profile, whose highest level is {}; missing: {lacking}", level_words(highest))
}

#[cfg(test)]
mod tests {
    use super::*;

    fn profile(subjects: u8, objects: u8, class: u8, needs: u16) -> Profile {
        Profile::new(subjects, objects, class, needs).unwrap()
    }

    #[test]
    fn words_are_read_back() {
        for it in [Profile::WIDEST, profile(1, 1, 0, 0), profile(4, 10, 3, 0b11), profile(16, 1, 15, 0x8000)] {
            assert_eq!(phrases::profile(&mut Line::new(1, &profile_words(it))), Ok(it));
        }
        assert_eq!(profile_words(profile(4, 10, 3, 0b11)), "subjects 4 objects 10 class 3 needs {0,1}");
    }

    #[test]
    fn what_is_beyond_and_what_is_missing() {
        let (small, least) = (profile(4, 10, 3, 0b11), profile(1, 1, 0, 0));
        assert_eq!(beyond_subjects(small), "is beyond the profile: 4 subjects, s0 to s3 are in use");
        assert_eq!(beyond_subjects(least), "is beyond the profile: 1 subject, s0 is in use");
        assert_eq!(beyond_objects(small), "is beyond the profile: 10 objects, o0 to o9 are in use");
        assert_eq!(beyond_objects(least), "is beyond the profile: 1 object, o0 is in use");
        for (class, needs, lacking) in [
            (4, 0b1, "the class (3 is under 4)"),
            (3, 0b101, "needs {2}"),
            (15, 0x8001, "the class (3 is under 15) and needs {15}"),
        ] {
            let level = Level { class, needs };
            let words = "is outside the profile, whose highest level is class 3 needs {0,1}; missing: ";
            assert_eq!((has_level(small, level), outside(small, level)), (false, format!("{words}{lacking}")));
        }
        assert!(has_level(small, Level { class: 3, needs: 0b11 }) && has_level(least, Level { class: 0, needs: 0 }));
    }

    #[test]
    fn a_profile_is_given_once() {
        let (one, other) = (profile(4, 10, 3, 0b11), profile(1, 1, 0, 0));
        let stated = Some(Stated { line: 3, profile: other });
        assert_eq!(one_of(None, None, "a"), Ok(Profile::WIDEST));
        assert_eq!((one_of(Some(one), None, "a"), one_of(None, stated, "a")), (Ok(one), Ok(other)));
        let both = "a:3: the script has a profile, and --profile gives one too\n";
        assert_eq!(one_of(Some(other), stated, "a"), Err(both.to_string()));
    }
}
