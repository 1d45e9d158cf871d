//! Where a state breaks the wall between competing companies: every place, so that it can be named.

use crate::companies::CONFLICT_CLASSES;
use crate::mode::Modes;
use crate::properties::{of_each_subject, Holding};
use crate::view::View;

/// Two objects that one subject holds and that stand on two sides of the wall, in one conflict class.
#[derive(Clone, Debug, PartialEq, Eq)]
pub struct Breach {
    pub rule: Rule,
    /// 1 to 4
    pub class: usize,
    /// of the second rule the object that is read
    pub from: Holding,
    /// of the second rule the object that is written
    pub to: Holding,
}

#[derive(Clone, Copy, Debug, PartialEq, Eq)]
pub enum Rule {
    /// any two accesses of one subject: a 0 or equal numbers in each class
    First,
    /// where one is read and the other written: what the one has in a class, the other has too
    Second,
}

const FIRST: &str =
    "no subject holds objects of two companies of one conflict class, in whatever modes (the first rule of the wall)";
const SECOND: &str =
    "who reads an object of a company writes only to objects of this company (the second rule of the wall)";

/// Every two objects of every subject, class by class. Where both have a company of the class and these differ, the first rule is
/// named, also where the second is broken too.
pub fn breaches(view: &View) -> Vec<Breach> {
    of_each_subject(view, breaches_among)
}

fn breaches_among(own: &[Holding]) -> Vec<Breach> {
    let mut found = Vec::new();
    for (at, one) in own.iter().enumerate() {
        for other in &own[at + 1..] {
            found.extend((1..=CONFLICT_CLASSES).filter_map(|class| between(one, other, class)));
        }
    }
    found
}

fn between(one: &Holding, other: &Holding, class: usize) -> Option<Breach> {
    let flows = |from: &Holding, to: &Holding| !from.held.reading().is_empty() && !to.held.writing().is_empty();
    let (rule, from, to) = match (one.company(class), other.company(class)) {
        (0, 0) => return None,
        (_, 0) if flows(one, other) => (Rule::Second, one, other),
        (0, _) if flows(other, one) => (Rule::Second, other, one),
        (0, _) | (_, 0) => return None,
        (a, b) if a == b => return None,
        _ => (Rule::First, one, other),
    };
    Some(Breach { rule, class, from: from.clone(), to: to.clone() })
}

impl Breach {
    /// Who holds what, the companies that stand against each other, and the rule; the verb is `holds` or `would hold`. Of the
    /// second rule only those modes are said that read the one object and write the other.
    pub fn words(&self, verb: &str) -> String {
        let Breach { rule, class, from, to } = self;
        let (modes, law) = match rule {
            Rule::First => ((from.held, to.held), FIRST),
            Rule::Second => ((from.held.reading(), to.held.writing()), SECOND),
        };
        format!("s{} {verb} {} and {}; {law}", from.subject, side(modes.0, from, *class), side(modes.1, to, *class))
    }
}

/// `r on o0 (company 1 of conflict class 2)`
fn side(modes: Modes, it: &Holding, class: usize) -> String {
    let company = match it.company(class) {
        0 => "no company".to_string(),
        company => format!("company {company}"),
    };
    format!("{modes} on o{} ({company} of conflict class {class})", it.object)
}
