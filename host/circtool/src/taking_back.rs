//! What a run takes back: which request, and what that changes. The number is the library's; the requests that can be taken back
//! are followed here without it, and the state that is restored is compared.

use crate::explain::NO_CAUSE;
use crate::level::level_words;
use crate::request::{Kind, Request};
use crate::tree::below;
use crate::view::View;
use crate::words::count;
use circmon::{Unit, JOURNAL_ENTRIES};
use std::collections::VecDeque;

/// A request with reply 0.
struct Entry {
    /// of the run, from 1
    step: usize,
    request: Request,
    before: View,
}

/// The requests of a run that can be taken back.
#[derive(Default)]
pub struct Journal {
    /// the latest last
    entries: VecDeque<Entry>,
    /// the latest delete that emptied it, unless an entry has given way since
    emptied: Option<String>,
}

/// One taking-back of a run.
#[derive(Clone, Debug, PartialEq, Eq)]
pub struct TakenBack {
    /// the library's number
    pub number: u8,
    /// what is taken back, or why nothing is
    pub note: String,
}

const EMPTY_JOURNAL: u8 = 17;

impl Journal {
    /// A request with reply 0 and the state before it; the oldest one gives way. But a delete that took children empties the journal
    /// and is no entry: what is then to be said behind it is returned.
    pub fn enter(&mut self, step: usize, request: Request, before: View) -> &'static str {
        let children = if request.kind == Kind::Delete { below(&before, request.object).len() } else { 0 };
        if children > 0 {
            let objects = count(children, "object", "objects");
            self.entries.clear();
            self.emptied = Some(format!("step {step}, {}, took {objects} below it and emptied it", request.sentence()));
            return "; that empties the journal: neither this request nor one before it can be taken back";
        }
        if self.entries.len() == JOURNAL_ENTRIES {
            self.entries.pop_front();
            self.emptied = None;
        }
        self.entries.push_back(Entry { step, request, before });
        ""
    }

    pub fn take_back(&mut self, unit: &mut Unit) -> TakenBack {
        let present = View::of(unit);
        let number = unit.take_back();
        let note = match (number, self.entries.pop_back()) {
            (0, Some(entry)) if View::of(unit) == entry.before => entry.words(&present),
            (EMPTY_JOURNAL, None) => self.emptied.as_deref().map_or_else(empty_words, emptied_words),
            _ => NO_CAUSE.to_string(),
        };
        TakenBack { number, note }
    }
}

fn emptied_words(by: &str) -> String {
    format!("the journal is empty: {by}; what a delete takes with its object cannot be taken back, and takings-back are counted from there")
}

fn empty_words() -> String {
    format!(
        "the journal is empty: it keeps up to {JOURNAL_ENTRIES} requests with reply 0, the oldest gives way, and one that is taken \
         back goes; a monitor begun from a table or an image has none"
    )
}

impl Entry {
    /// Which request it was and what its object is again, out of the present state.
    fn words(&self, present: &View) -> String {
        let object = self.request.object;
        let start = format!("step {}, {}", self.step, self.request.sentence());
        match (&present.objects[object], &self.before.objects[object]) {
            (_, None) => format!("{start}: o{object} is not live, as it was before it"),
            (Some(now), Some(restored)) if now.label != restored.label => {
                let label = |level: Option<_>| level.map_or("no label".to_string(), level_words);
                let verb = if restored.label.is_some() { "lower" } else { "end" };
                format!(
                    "{start}: the record of o{object} is as it was before it, with {} and no longer {}; taking back is no request and may \
                     {verb} a label",
                    label(restored.label),
                    label(now.label)
                )
            }
            (Some(now), Some(restored)) if now.companies != restored.companies => format!(
                "{start}: the record of o{object} is as it was before it, with {} and no longer {}",
                restored.companies.words(),
                now.companies.words()
            ),
            _ => format!("{start}: the record of o{object} is as it was before it"),
        }
    }
}
