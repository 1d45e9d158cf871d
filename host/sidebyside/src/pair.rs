//! What the star property asks of two labels, for a mode held beside a mode wanted: computed from its sentence and from a plain
//! dominance, and asked of neither implementation.

use crate::level::label_dominates;
use crate::Count;
use reference::{Level, Mode};

pub fn observes(mode: Mode) -> bool {
    matches!(mode, Mode::Read | Mode::Write)
}

/// "where one subject holds r or w on P and a or w on Q, the label of Q dominates the label of P", of a mode on P and one on Q
fn said_of(on_p: Mode, on_q: Mode) -> bool {
    observes(on_p) && matches!(on_q, Mode::Append | Mode::Write)
}

/// A mode held on P and a mode wanted on Q.
#[derive(Clone, Copy, Debug, PartialEq)]
pub struct Pair {
    pub held: Mode,
    pub wanted: Mode,
}

impl Pair {
    pub fn all() -> impl Iterator<Item = Pair> {
        Mode::ALL.into_iter().flat_map(|held| Mode::ALL.map(|wanted| Pair { held, wanted }))
    }

    /// 0 to 15.
    pub fn number(self) -> u8 {
        4 * self.held as u8 + self.wanted as u8
    }

    pub fn asks_something(self) -> bool {
        said_of(self.held, self.wanted) || said_of(self.wanted, self.held)
    }

    /// Whether the labels of P and Q are as the sentence asks, of the two as they are and with their names exchanged.
    pub fn is_kept(self, p: Option<Level>, q: Option<Level>) -> bool {
        (!said_of(self.held, self.wanted) || label_dominates(q, p))
            && (!said_of(self.wanted, self.held) || label_dominates(p, q))
    }
}

/// How often the labels were as a pair asks, and how often they were not, by the number of the pair.
#[derive(Default, Debug)]
pub struct Met {
    pub kept: Count,
    pub not_kept: Count,
}

impl Met {
    pub fn note(&mut self, pair: Pair, kept: bool) {
        let count = if kept { &mut self.kept } else { &mut self.not_kept };
        count.note(pair.number());
    }

    /// These pairs were kept more often than this.
    pub fn check_kept(&self, pairs: impl Iterator<Item = Pair>, often: usize) {
        for pair in pairs {
            assert!(self.kept.of(pair.number()) > often, "{pair:?} is kept too rarely: {self:?}");
        }
    }

    /// Each pair that asks something was met with labels that do not keep it, and more often than this; one that asks nothing, never.
    pub fn check_not_kept(&self, often: usize) {
        for pair in Pair::all() {
            let times = self.not_kept.of(pair.number());
            let as_expected = if pair.asks_something() { times > often } else { times == 0 };
            assert!(as_expected, "{pair:?} is not kept {times} times: {self:?}");
        }
    }
}
