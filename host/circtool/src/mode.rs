//! The modes r, w, a, e and sets of them.

use std::fmt;

#[derive(Clone, Copy, Debug, PartialEq, Eq)]
pub enum Mode {
    Read,
    Write,
    Append,
    Execute,
}

impl Mode {
    pub const ALL: [Mode; 4] = [Mode::Read, Mode::Write, Mode::Append, Mode::Execute];

    /// The number of the mode in a request.
    pub fn number(self) -> u32 {
        self as u32 + 1
    }

    pub fn from_number(number: u32) -> Option<Mode> {
        Mode::ALL.into_iter().find(|mode| mode.number() == number)
    }

    pub fn letter(self) -> char {
        ['r', 'w', 'a', 'e'][self as usize]
    }

    pub fn from_letter(word: &str) -> Option<Mode> {
        Mode::ALL.into_iter().find(|mode| word == mode.letter().to_string())
    }

    /// The weight of the mode in a set: the four bits are r, w, a, e.
    fn weight(self) -> u8 {
        8 >> self as u8
    }
}

impl fmt::Display for Mode {
    fn fmt(&self, out: &mut fmt::Formatter) -> fmt::Result {
        write!(out, "{}", self.letter())
    }
}

/// A set of modes: the rights or the accesses of one subject on one object.
#[derive(Clone, Copy, Debug, Default, PartialEq, Eq)]
pub struct Modes(pub u8);

impl Modes {
    pub fn has(self, mode: Mode) -> bool {
        self.0 & mode.weight() != 0
    }

    pub fn with(self, mode: Mode) -> Modes {
        Modes(self.0 | mode.weight())
    }

    pub fn without(self, mode: Mode) -> Modes {
        Modes(self.0 & !mode.weight())
    }

    /// What is in this set and not in the other.
    pub fn outside(self, other: Modes) -> Modes {
        Modes(self.0 & !other.0)
    }

    pub fn is_empty(self) -> bool {
        self.0 == 0
    }

    pub fn count(self) -> u32 {
        self.0.count_ones()
    }

    /// r, and w, which also reads.
    pub fn reading(self) -> Modes {
        Modes(self.0 & (Mode::Read.weight() | Mode::Write.weight()))
    }

    /// w and a.
    pub fn writing(self) -> Modes {
        Modes(self.0 & (Mode::Write.weight() | Mode::Append.weight()))
    }

    /// As a row of four: `r-a-`.
    pub fn row(self) -> String {
        Mode::ALL.into_iter().map(|mode| if self.has(mode) { mode.letter() } else { '-' }).collect()
    }
}

/// As a list: `r, a`, or `none`.
impl fmt::Display for Modes {
    fn fmt(&self, out: &mut fmt::Formatter) -> fmt::Result {
        let letters: Vec<String> =
            Mode::ALL.into_iter().filter(|&mode| self.has(mode)).map(|mode| mode.to_string()).collect();
        write!(out, "{}", if letters.is_empty() { "none".to_string() } else { letters.join(", ") })
    }
}

#[cfg(test)]
mod tests {
    use super::*;

    #[test]
    fn numbers_letters_and_rows() {
        assert_eq!(Mode::ALL.map(Mode::number), [1, 2, 3, 4]);
        assert_eq!(Mode::from_number(0), None);
        assert_eq!(Mode::from_letter("a"), Some(Mode::Append));
        assert_eq!(Modes(0b1010).row(), "r-a-");
        assert_eq!(Modes(0b1010).to_string(), "r, a");
        assert_eq!(Modes(0b1111).reading().row(), "rw--");
        assert_eq!(Modes(0b1111).writing().row(), "-wa-");
        assert_eq!(Modes::default().with(Mode::Execute).row(), "---e");
        assert_eq!(Modes(15).without(Mode::Write).row(), "r-ae");
    }
}
