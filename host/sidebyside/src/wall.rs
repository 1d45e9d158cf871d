//! What the wall asks of two accesses of one subject: computed from its two sentences, and asked of neither implementation.

use reference::{Companies, Mode, Monitor, OBJECTS};

/// Which of the two rules are broken.
#[derive(Clone, Copy, Debug, Default, PartialEq, Eq)]
pub struct Broken {
    pub first: bool,
    pub second: bool,
}

impl Broken {
    pub fn any(self) -> bool {
        self.first || self.second
    }

    /// As counts name it; nothing where the wall is kept.
    pub fn name(self) -> Option<&'static str> {
        match (self.first, self.second) {
            (false, false) => None,
            (true, false) => Some("the first rule alone"),
            (false, true) => Some("the second rule alone"),
            (true, true) => Some("both rules"),
        }
    }
}

/// Every name of what is broken.
pub const NAMES: [&str; 3] = ["the first rule alone", "the second rule alone", "both rules"];

/// "r or w on P and a or w on Q", of a mode on P and one on Q
fn flows(on_p: Mode, on_q: Mode) -> bool {
    matches!(on_p, Mode::Read | Mode::Write) && matches!(on_q, Mode::Append | Mode::Write)
}

/// A mode on an object with these companies, and another one, held by one subject: "each class has a 0 or equal numbers", and "each
/// nonzero number of P equals that of Q", with either of the two as P.
pub fn between(one: (Mode, Companies), other: (Mode, Companies)) -> Broken {
    let classes = || one.1.into_iter().zip(other.1);
    let lost = |p: (Mode, Companies), q: (Mode, Companies)| {
        flows(p.0, q.0) && p.1.into_iter().zip(q.1).any(|(of_p, of_q)| of_p > 0 && of_p != of_q)
    };
    Broken { first: classes().any(|(a, b)| a > 0 && b > 0 && a != b), second: lost(one, other) || lost(other, one) }
}

/// Every access of a subject with the companies of its object.
fn accesses(monitor: &Monitor, subject: usize) -> Vec<(Mode, Companies)> {
    let on = |slot: usize| {
        let object = monitor.objects[slot].as_ref();
        let held = |mode: &Mode| object.is_some_and(|it| it.held[subject] & mode.bit() != 0);
        Mode::ALL.into_iter().filter(held).filter_map(|mode| Some((mode, object?.companies))).collect::<Vec<_>>()
    };
    (0..OBJECTS).flat_map(on).collect()
}

/// The rules that a subject breaks by any two of its accesses.
pub fn broken(monitor: &Monitor, subject: usize) -> Broken {
    let held = accesses(monitor, subject);
    let mut all = Broken::default();
    for (at, one) in held.iter().enumerate() {
        for other in &held[at..] {
            let two = between(*one, *other);
            all = Broken { first: all.first || two.first, second: all.second || two.second };
        }
    }
    all
}
