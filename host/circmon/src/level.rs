//! Levels and how one compares with another. A clearance is a level, and so is a label that is present; an absent one is no
//! level and is not compared.

use crate::raw;

#[derive(Clone, Copy, Debug, PartialEq, Eq)]
pub struct Level {
    /// 0 to 15 in every format; a larger one is compared as the number that it is
    pub class: u8,
    /// need k weighs 2^k
    pub needs: u16,
}

/// How a level A compares with a level B, with the numbers of the library.
#[derive(Clone, Copy, Debug, PartialEq, Eq)]
pub enum Comparison {
    /// class and needs are the same
    Equal = 0,
    /// only A dominates
    Above = 1,
    /// only B dominates
    Below = 2,
    /// neither dominates
    Apart = 3,
}

impl Comparison {
    /// Whether A dominates B: what the simple and the star property ask.
    pub fn dominates(self) -> bool {
        matches!(self, Comparison::Equal | Comparison::Above)
    }
}

/// How a compares with b.
pub fn compare(a: Level, b: Level) -> Comparison {
    // Safety: only numbers pass, and every number is allowed.
    match unsafe { raw::circmon_compare(a.class, a.needs, b.class, b.needs) } {
        0 => Comparison::Equal,
        1 => Comparison::Above,
        2 => Comparison::Below,
        3 => Comparison::Apart,
        number => unreachable!("it is proved that a comparison gives 0 to 3, not {number}"),
    }
}
