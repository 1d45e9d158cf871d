//! Both implementations with their journals, held to a history of states that is kept here: the images before the latest requests
//! with reply 0. It knows nothing of records: what is taken back is a whole state.

use crate::orders::{is_granted, Met};
use crate::{image, profiles};
use circmon::Unit;
use reference::{Journaled, Kind, Monitor, Object, Request, CONFLICT_CLASSES, OBJECTS, TABLE_BYTES};
use std::collections::VecDeque;

/// "A journal of up to 32 entries".
pub const MOST: usize = 32;
/// "Refused: 17, an empty journal".
pub const EMPTY: u8 = 17;

/// A request with reply 0, and the image before it.
struct Past {
    image: Vec<u8>,
    request: Request,
}

pub struct Followed {
    pub unit: Unit,
    pub second: Journaled,
    /// the oldest first
    past: VecDeque<Past>,
    /// the image of the state
    pub present: Vec<u8>,
}

impl Followed {
    /// Begun from the image of the state: nothing can be taken back.
    pub fn begin(monitor: Monitor) -> Followed {
        let profile = profiles::proved(monitor.profile).expect("the profile of a monitor that was begun");
        let present = image(&monitor);
        let unit = Unit::from_image_in(profile, &present).expect("an image that is accepted");
        Followed { unit, second: Journaled::begin(monitor), past: VecDeque::new(), present }
    }

    /// Begun again from the image of the present state.
    pub fn begin_again(&mut self) {
        let monitor = Monitor::from_image_in(self.second.monitor.profile, &self.present);
        *self = Followed::begin(monitor.expect("the image of a state that was reached"));
    }

    /// How many requests can be taken back.
    pub fn entries(&self) -> usize {
        self.past.len()
    }

    /// The reply of both, and what it leaves to take back.
    pub fn request(&mut self, bytes: &[u8], met: &mut Met) -> u8 {
        let reply = self.second.request(bytes);
        assert_eq!(self.unit.ask(bytes), reply, "{bytes:02x?}");
        if reply == 0 {
            self.changed(Request::decode(bytes).expect("a request that is granted"), met);
        } else if !self.past.is_empty() {
            met.note(if is_granted(reply) { "1 between" } else { "refused between" });
        }
        reply
    }

    /// "A deletion that took children empties the journal": it is no entry either. Any other request with reply 0 is one.
    fn changed(&mut self, request: Request, met: &mut Met) {
        let image = std::mem::replace(&mut self.present, image(&self.second.monitor));
        assert_ne!(image, self.present, "{request:?} changed nothing");
        if live(&image) > live(&self.present) + 1 {
            met.note(if self.past.is_empty() { "an empty journal emptied by a delete" } else { "emptied by a delete" });
            self.past.clear();
        } else {
            self.enter(Past { image, request }, met);
        }
        self.check_images();
    }

    fn enter(&mut self, past: Past, met: &mut Met) {
        if self.past.len() == MOST {
            self.past.pop_front();
            met.note("an entry gave way");
        }
        self.past.push_back(past);
    }

    /// The number of both, which is the one that the history says, and so is the state; with 17 every byte of the unit is left.
    pub fn take_back(&mut self, met: &mut Met) -> u8 {
        let before = *self.unit.rows();
        let numbers = [self.unit.take_back(), self.second.take_back()];
        match self.past.pop_back() {
            None => {
                assert_eq!(numbers, [EMPTY; 2]);
                assert!(*self.unit.rows() == before, "17, and a byte of the unit is changed");
                met.note("17");
            }
            Some(Past { image, request }) => {
                assert_eq!(numbers, [0; 2], "{request:?}");
                self.present = image;
                met.note("0");
                self.note_taken_back(request, met);
            }
        }
        self.check_images();
        numbers[0]
    }

    fn check_images(&self) {
        assert_eq!(image(&self.second.monitor), self.present, "the second implementation");
        assert_eq!(self.unit.image()[..], self.present[..], "the proved monitor");
    }

    fn note_taken_back(&self, request: Request, met: &mut Met) {
        met.note(KINDS[kind(request)]);
        let restored = self.second.monitor.objects[request.object].as_ref();
        if request.kind == Kind::Delete && restored.is_some_and(has_rights_list) {
            met.note("a delete with rights and accesses of others");
        }
        if let Kind::SetCompanies(set) = request.kind {
            let none = restored.is_some_and(|it| it.companies == [0; CONFLICT_CLASSES]);
            met.note(if none { "first companies taken back" } else { "other companies restored" });
            assert!(restored.is_some_and(|it| it.companies != set), "{request:?}");
        }
        if request.kind == Kind::Delete && restored.is_some_and(|it| it.parent.is_some()) {
            met.note("a delete of a child");
        }
        if request.kind == Kind::Delete && restored.is_some_and(|it| it.companies != [0; CONFLICT_CLASSES]) {
            met.note("a delete with companies");
        }
        if matches!(request.kind, Kind::ChangeLevel(_)) {
            let ended = restored.is_some_and(|it| it.label.is_none());
            met.note(if ended { "a label ended" } else { "a label lowered" });
        }
    }
}

/// How many objects an image says are live: the first of the 177 bits of each record.
fn live(image: &[u8]) -> usize {
    let is_set = |bit: &usize| image[bit / 8] & 0x80 >> (bit % 8) != 0;
    (0..OBJECTS).map(|object| 8 * TABLE_BYTES + 177 * object).filter(is_set).count()
}

/// Whether others than the owner have rights on the object, and accesses.
fn has_rights_list(object: &Object) -> bool {
    let of_others = |sets: &[u8]| sets.iter().enumerate().any(|(subject, &set)| subject != object.owner && set != 0);
    of_others(&object.rights) && of_others(&object.held)
}

/// What is taken back, by the kind of request.
pub const KINDS: [&str; 8] = [
    "taken back: get",
    "taken back: release",
    "taken back: give",
    "taken back: rescind",
    "taken back: create",
    "taken back: delete",
    "taken back: change of level",
    "taken back: companies",
];

fn kind(request: Request) -> usize {
    usize::from(request.encode()[0] >> 4) - 1
}
