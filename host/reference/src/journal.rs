//! The journal of requests that can be taken back. It stands beside the monitor and not in it: neither an image nor a comparison
//! of monitors looks at it, and the program `circmon` keeps none.

use crate::monitor::Monitor;
use crate::record::Object;
use crate::reply;
use crate::request::Kind;
use crate::tree;
use std::collections::VecDeque;

/// "A journal of up to 32 entries".
pub const MOST_ENTRIES: usize = 32;

/// What a request with reply 0 changed: "the object's record as it was". No object stood there before a create.
#[derive(Clone, Debug)]
struct Entry {
    object: usize,
    record: Option<Object>,
}

/// A monitor that keeps a journal.
#[derive(Clone, Debug)]
pub struct Journaled {
    pub monitor: Monitor,
    /// the oldest first
    entries: VecDeque<Entry>,
}

/// "compared without the journal"
impl PartialEq for Journaled {
    fn eq(&self, other: &Journaled) -> bool {
        self.monitor == other.monitor
    }
}

impl Journaled {
    /// "a monitor begun, also from an image, has an empty one"
    pub fn begin(monitor: Monitor) -> Journaled {
        Journaled { monitor, entries: VecDeque::with_capacity(MOST_ENTRIES) }
    }

    /// How many requests can be taken back.
    pub fn entries(&self) -> usize {
        self.entries.len()
    }

    /// Carries out a byte string, returns its reply, and enters it where that is 0. "A deletion that took children empties the
    /// journal": it has no entry either.
    pub fn request(&mut self, bytes: &[u8]) -> u8 {
        let Some(request) = self.monitor.decode(bytes) else {
            return reply::MALFORMED;
        };
        let entry = Entry { object: request.object, record: self.monitor.objects[request.object].clone() };
        let takes_children = request.kind == Kind::Delete && tree::has_child(&self.monitor.objects, request.object);
        let reply = self.monitor.step(request);
        match (reply, takes_children) {
            (reply::CHANGED, true) => self.entries.clear(),
            (reply::CHANGED, false) => self.enter(entry),
            _ => {}
        }
        reply
    }

    /// "the oldest entry gives way"
    fn enter(&mut self, entry: Entry) {
        if self.entries.len() == MOST_ENTRIES {
            self.entries.pop_front();
        }
        self.entries.push_back(entry);
    }

    /// Restores the state before the latest request in the journal, whose entry goes: 0. Or 17 where there is none.
    pub fn take_back(&mut self) -> u8 {
        match self.entries.pop_back() {
            None => reply::EMPTY_JOURNAL,
            Some(Entry { object, record }) => {
                self.monitor.objects[object] = record;
                reply::CHANGED
            }
        }
    }
}
