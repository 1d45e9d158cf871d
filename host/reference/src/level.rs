//! Levels: a clearance is one, and so is a label.

#[derive(Clone, Copy, Debug, PartialEq, Eq)]
pub struct Level {
    pub class: u8,
    pub needs: u16,
}

/// How a level compares with another one.
#[derive(Clone, Copy, Debug, PartialEq, Eq)]
pub enum Comparison {
    Equal,
    /// only this one dominates
    Above,
    /// only the other one dominates
    Below,
    /// neither dominates
    Apart,
}

impl Level {
    /// By what only one of the two has: a higher class, or a need that the other does not have. `more` is joined by `|` and not
    /// by `||`: so the compiler drops it where dominance asks, and the proved monitor is compared with this by speed too.
    pub fn compare(&self, other: &Level) -> Comparison {
        let more = (self.class > other.class) | (self.needs & !other.needs != 0);
        let less = self.class < other.class || other.needs & !self.needs != 0;
        match (more, less) {
            (false, false) => Comparison::Equal,
            (true, false) => Comparison::Above,
            (false, true) => Comparison::Below,
            (true, true) => Comparison::Apart,
        }
    }

    pub fn dominates(&self, other: &Level) -> bool {
        matches!(self.compare(other), Comparison::Equal | Comparison::Above)
    }
}
