//! The modes.

#[derive(Clone, Copy, Debug, PartialEq, Eq)]
pub enum Mode {
    Read,
    Write,
    Append,
    Execute,
}

impl Mode {
    pub const ALL: [Mode; 4] = [Mode::Read, Mode::Write, Mode::Append, Mode::Execute];

    /// The weight of the mode in a set: the four bits of a right or an access are r, w, a, e.
    pub const fn bit(self) -> u8 {
        match self {
            Mode::Read => 8,
            Mode::Write => 4,
            Mode::Append => 2,
            Mode::Execute => 1,
        }
    }

    /// r, and w, which also reads
    pub fn reads(self) -> bool {
        matches!(self, Mode::Read | Mode::Write)
    }

    /// The number of the mode in a request.
    pub fn number(self) -> u32 {
        match self {
            Mode::Read => 1,
            Mode::Write => 2,
            Mode::Append => 3,
            Mode::Execute => 4,
        }
    }
    pub fn from_number(number: u32) -> Option<Mode> {
        Mode::ALL.into_iter().find(|mode| mode.number() == number)
    }
}
