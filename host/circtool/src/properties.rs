//! Where a state breaks one of the four properties of rights and labels: every place, so that it can be named. Requests are explained
//! from the state after them, refused images from the state that they say. The wall between companies is in `wall`.

use crate::companies::Companies;
use crate::level::{label_words, level_words, shortfall, Level};
use crate::mode::Modes;
use crate::view::{Object, View, SUBJECTS};
use circmon::compare;

/// What one subject holds on one object, with what it is compared with.
#[derive(Clone, Debug, PartialEq, Eq)]
pub struct Holding {
    pub subject: usize,
    pub object: usize,
    pub held: Modes,
    pub rights: Modes,
    pub clearance: Option<Level>,
    pub label: Option<Level>,
    pub companies: Companies,
}

/// Two objects of one subject: the label of the written one does not dominate that of the read one.
#[derive(Clone, Debug, PartialEq, Eq)]
pub struct Pair {
    pub read: Holding,
    pub written: Holding,
}

fn holding(view: &View, subject: usize, object: usize, it: &Object) -> Holding {
    Holding {
        subject,
        object,
        held: it.held[subject],
        rights: it.rights[subject],
        clearance: view.subjects[subject],
        label: it.label,
        companies: it.companies,
    }
}

/// Every holding of an access, by object and then by subject.
fn holdings(view: &View) -> Vec<Holding> {
    view.live()
        .flat_map(|(object, it)| (0..it.held.len()).map(move |subject| holding(view, subject, object, it)))
        .filter(|it| !it.held.is_empty())
        .collect()
}

fn places(view: &View, broken: impl Fn(&Holding) -> bool) -> Vec<Holding> {
    holdings(view).into_iter().filter(broken).collect()
}

/// An access that is not in the matrix.
pub fn discretionary(view: &View) -> Vec<Holding> {
    places(view, |it| !it.held.outside(it.rights).is_empty())
}

/// r, w or a on an object without a label.
pub fn label(view: &View) -> Vec<Holding> {
    places(view, |it| it.label.is_none() && !(it.held.reading().is_empty() && it.held.writing().is_empty()))
}

/// r or w on an object whose label the clearance does not dominate.
pub fn simple(view: &View) -> Vec<Holding> {
    places(view, |it| !it.held.reading().is_empty() && !dominates(it.clearance, it.label))
}

/// What is found among the holdings of each subject, one subject after the other.
pub fn of_each_subject<T>(view: &View, found: impl Fn(&[Holding]) -> Vec<T>) -> Vec<T> {
    let all = holdings(view);
    let of = |subject| all.iter().filter(|it| it.subject == subject).cloned().collect::<Vec<_>>();
    (0..SUBJECTS).flat_map(|subject| found(&of(subject))).collect()
}

/// r or w on one object, a or w on another whose label does not dominate the first one's.
pub fn star(view: &View) -> Vec<Pair> {
    of_each_subject(view, star_among)
}

fn star_among(own: &[Holding]) -> Vec<Pair> {
    let mut pairs = Vec::new();
    for read in own.iter().filter(|it| !it.held.reading().is_empty()) {
        for written in own.iter().filter(|it| !it.held.writing().is_empty()) {
            if !dominates(written.label, read.label) {
                pairs.push(Pair { read: read.clone(), written: written.clone() });
            }
        }
    }
    pairs
}

/// An absent level neither dominates nor is dominated, and is not compared.
fn dominates(level: Option<Level>, other: Option<Level>) -> bool {
    matches!((level, other), (Some(level), Some(other)) if compare(level, other).dominates())
}

/// Why one does not dominate the other, whose name is given; also where one is absent.
fn why(level: Option<Level>, other: Option<Level>, name: &str) -> String {
    match (level, other) {
        (Some(level), Some(other)) => shortfall(level, other, name).unwrap_or_default(),
        _ => format!("does not dominate {name}: an absent level dominates nothing and nothing dominates it"),
    }
}

impl Holding {
    /// The company of the object in a conflict class, 1 to 4; 0 for none.
    pub fn company(&self, class: usize) -> u8 {
        self.companies.0[class - 1]
    }

    /// Why the clearance does not dominate the label.
    pub fn simple_words(&self) -> String {
        let clearance = self.clearance.map_or("none, it is absent".to_string(), level_words);
        let label = format!("the label of o{} ({})", self.object, label_words(self.label));
        format!("the clearance of s{} ({clearance}) {}", self.subject, why(self.clearance, self.label, &label))
    }
}

impl Pair {
    /// The pair and why the one label does not dominate the other; the verb is `holds` or `would hold`. Of the modes
    /// held only those are said that read the one object and write the other.
    pub fn words(&self, verb: &str) -> String {
        let (read, written) = (&self.read, &self.written);
        format!(
            "s{} {verb} {} and {}, and the label of o{} {}",
            read.subject,
            side(read.held.reading(), read),
            side(written.held.writing(), written),
            written.object,
            why(written.label, read.label, &format!("that of o{}", read.object))
        )
    }
}

/// `r on o0 (class 3 needs {0,1})`
fn side(modes: Modes, it: &Holding) -> String {
    format!("{modes} on o{} ({})", it.object, label_words(it.label))
}
