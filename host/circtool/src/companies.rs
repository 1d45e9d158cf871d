//! The company numbers of an object, one for each conflict class, 0 for none.

use std::fmt;

pub use circmon::CONFLICT_CLASSES;

/// Class 1 first.
#[derive(Clone, Copy, Debug, Default, PartialEq, Eq)]
pub struct Companies(pub [u8; CONFLICT_CLASSES]);

impl Companies {
    /// The four in the 16 bits of a request or an image, class 1 in the highest.
    pub fn from_bits(bits: u16) -> Companies {
        Companies([12, 8, 4, 0].map(|shift| (bits >> shift & 15) as u8))
    }

    pub fn bits(self) -> u16 {
        self.0.iter().fold(0, |bits, &company| bits << 4 | u16::from(company))
    }

    /// Whether there is none in any class.
    pub fn is_none(self) -> bool {
        self == Companies::default()
    }

    /// `companies 1 0 0 2`, or `no companies`.
    pub fn words(self) -> String {
        if self.is_none() {
            "no companies".to_string()
        } else {
            format!("companies {self}")
        }
    }
}

/// As scripts write them: `1 0 0 2`.
impl fmt::Display for Companies {
    fn fmt(&self, out: &mut fmt::Formatter) -> fmt::Result {
        write!(out, "{}", self.0.map(|company| company.to_string()).join(" "))
    }
}

#[cfg(test)]
mod tests {
    use super::*;

    #[test]
    fn the_first_class_is_in_the_highest_bits() {
        assert_eq!(Companies::from_bits(0x123F), Companies([1, 2, 3, 15]));
        assert!((0..=u16::MAX).all(|bits| Companies::from_bits(bits).bits() == bits));
    }

    #[test]
    fn as_scripts_and_sentences_have_them() {
        let some = Companies([1, 0, 0, 15]);
        assert_eq!((some.to_string(), some.words()), ("1 0 0 15".to_string(), "companies 1 0 0 15".to_string()));
        let none = Companies::default();
        assert_eq!((none.to_string(), none.words()), ("0 0 0 0".to_string(), "no companies".to_string()));
    }
}
