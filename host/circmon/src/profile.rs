//! The profile of a site: how many subjects and objects are in use, up to which class, and which needs.

use crate::{OBJECTS, SUBJECTS};

/// A profile whose numbers are in their ranges, so that no table or image is refused for them.
#[derive(Clone, Copy, Debug, PartialEq, Eq)]
pub struct Profile {
    subjects: u8,
    objects: u8,
    highest_class: u8,
    needs: u16,
}

const HIGHEST_CLASS: u8 = 15;

impl Profile {
    /// Everything is in use.
    pub const WIDEST: Profile =
        Profile { subjects: SUBJECTS as u8, objects: OBJECTS as u8, highest_class: HIGHEST_CLASS, needs: u16::MAX };

    /// Nothing where there are not 1 to 16 subjects and 1 to 64 objects, or the class is above 15. Every set of needs will do.
    pub fn new(subjects: u8, objects: u8, highest_class: u8, needs: u16) -> Option<Profile> {
        let in_range = (1..=Profile::WIDEST.subjects).contains(&subjects)
            && (1..=Profile::WIDEST.objects).contains(&objects)
            && highest_class <= HIGHEST_CLASS;
        in_range.then_some(Profile { subjects, objects, highest_class, needs })
    }

    /// The subjects from 0 on that are in use.
    pub fn subjects(self) -> u8 {
        self.subjects
    }

    /// The objects from 0 on that are in use.
    pub fn objects(self) -> u8 {
        self.objects
    }

    pub fn highest_class(self) -> u8 {
        self.highest_class
    }

    /// The needs in use; need k weighs 2^k.
    pub fn needs(self) -> u16 {
        self.needs
    }
}

#[cfg(test)]
mod tests {
    use super::*;

    #[test]
    fn a_profile_is_made_exactly_where_its_numbers_are_in_their_ranges() {
        for number in 0..=255 {
            let made = |it: Option<Profile>| it.is_some();
            assert_eq!(made(Profile::new(number, 64, 15, 0)), (1..=16).contains(&number), "{number} subjects");
            assert_eq!(made(Profile::new(1, number, 0, 1)), (1..=64).contains(&number), "{number} objects");
            assert_eq!(made(Profile::new(16, 1, number, 0xFFFF)), number < 16, "class {number}");
        }
        assert_eq!(Profile::new(16, 64, 15, 0xFFFF), Some(Profile::WIDEST));
    }
}
