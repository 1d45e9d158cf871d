//! The state and the rules.

use crate::level::Level;
use crate::mode::Mode;
use crate::profile::Profile;
use crate::record::{Object, OBJECTS, SUBJECTS};
use crate::reply;
use crate::request::{Kind, Request};
use crate::star::{self, Star};
use crate::tree;
use crate::wall::{self, Companies};

#[derive(Clone, Debug)]
pub struct Monitor {
    pub subjects: [Option<Level>; SUBJECTS],
    pub objects: [Option<Object>; OBJECTS],
    /// what of these is in use
    pub profile: Profile,
    /// which algorithm the checks of star and wall use; the answers are the same
    pub star: Star,
}

/// Two monitors are the same state where subjects, objects and profile are; how star and wall are computed does not count.
impl PartialEq for Monitor {
    fn eq(&self, other: &Monitor) -> bool {
        self.subjects == other.subjects && self.objects == other.objects && self.profile == other.profile
    }
}

impl Monitor {
    /// Under the widest profile, with no live object.
    pub fn begin(subjects: [Option<Level>; SUBJECTS]) -> Monitor {
        Monitor::begin_in(Profile::WIDEST, subjects)
    }

    pub fn begin_in(profile: Profile, subjects: [Option<Level>; SUBJECTS]) -> Monitor {
        Monitor { subjects, objects: std::array::from_fn(|_| None), profile, star: Star::Plain }
    }

    /// The monitor that a refusal returns: nobody is enrolled, and the profile is the widest.
    pub fn empty() -> Monitor {
        Monitor::begin([None; SUBJECTS])
    }

    /// What a byte string says under the profile; nothing where it is malformed.
    pub fn decode(&self, bytes: &[u8]) -> Option<Request> {
        Request::decode(bytes).filter(|request| self.profile.has_request(request))
    }

    /// Carries out a byte string and returns its reply.
    pub fn request(&mut self, bytes: &[u8]) -> u8 {
        match self.decode(bytes) {
            None => reply::MALFORMED,
            Some(request) => self.step(request),
        }
    }

    /// Carries out a request that is inside the profile.
    pub fn step(&mut self, request: Request) -> u8 {
        let Request { actor, object, kind } = request;
        if self.subjects[actor].is_none() {
            return reply::NOT_ENROLLED;
        }
        if let Kind::Give(other, _) | Kind::Rescind(other, _) = kind {
            if self.subjects[other].is_none() {
                return reply::NOT_ENROLLED;
            }
        }
        match kind {
            Kind::Get(mode) => self.get(actor, object, mode),
            Kind::Release(mode) => self.release(actor, object, mode),
            Kind::Give(other, mode) => self.give(actor, other, object, mode),
            Kind::Rescind(other, mode) => self.rescind(actor, other, object, mode),
            Kind::Create { execute, parent } => self.create(actor, object, execute, parent),
            Kind::Delete => self.delete(actor, object),
            Kind::ChangeLevel(level) => self.change_level(actor, object, level),
            Kind::SetCompanies(companies) => self.set_companies(actor, object, companies),
        }
    }

    fn get(&mut self, actor: usize, object: usize, mode: Mode) -> u8 {
        let clearance = self.subjects[actor];
        let Some(it) = &mut self.objects[object] else {
            return reply::NOT_LIVE;
        };
        if it.rights[actor] & mode.bit() == 0 {
            return reply::NO_RIGHT;
        }
        if mode != Mode::Execute {
            let Some(label) = it.label else {
                return reply::NO_LABEL;
            };
            if mode.reads() && !clearance.is_some_and(|c| c.dominates(&label)) {
                return reply::SIMPLE;
            }
        }
        let before = it.held[actor];
        it.held[actor] |= mode.bit();
        let broken = self.broken_by(actor, mode);
        if let (Some(_), Some(it)) = (broken, &mut self.objects[object]) {
            it.held[actor] = before;
        }
        broken.unwrap_or(changed(before & mode.bit() == 0))
    }

    /// Checks 9 and 18 of a get, with the access held. The wall looks at e too.
    fn broken_by(&self, actor: usize, mode: Mode) -> Option<u8> {
        if mode != Mode::Execute && !star::kept(self.star, &self.objects, actor) {
            return Some(reply::STAR);
        }
        (!wall::kept(self.star, &self.objects, actor)).then_some(reply::WALL)
    }

    fn release(&mut self, actor: usize, object: usize, mode: Mode) -> u8 {
        let Some(it) = &mut self.objects[object] else {
            return reply::NOT_LIVE;
        };
        let held = it.held[actor] & mode.bit() != 0;
        it.held[actor] &= !mode.bit();
        changed(held)
    }

    /// Checks 4 and 6 of give and rescind: the actor is owner and has that right itself.
    fn owned_with_right(&mut self, actor: usize, object: usize, mode: Mode) -> Result<&mut Object, u8> {
        let it = self.objects[object].as_mut().ok_or(reply::NOT_LIVE)?;
        if it.owner != actor || it.rights[actor] & mode.bit() == 0 {
            return Err(reply::NO_RIGHT);
        }
        Ok(it)
    }

    fn give(&mut self, actor: usize, other: usize, object: usize, mode: Mode) -> u8 {
        match self.owned_with_right(actor, object, mode) {
            Err(n) => n,
            Ok(it) => {
                let had = it.rights[other] & mode.bit() != 0;
                it.rights[other] |= mode.bit();
                changed(!had)
            }
        }
    }

    fn rescind(&mut self, actor: usize, other: usize, object: usize, mode: Mode) -> u8 {
        match self.owned_with_right(actor, object, mode) {
            Err(n) => n,
            Ok(it) => {
                let had = (it.rights[other] | it.held[other]) & mode.bit() != 0;
                it.rights[other] &= !mode.bit();
                it.held[other] &= !mode.bit();
                changed(had)
            }
        }
    }

    /// An object that is not live is not its own parent either.
    fn create(&mut self, actor: usize, object: usize, execute: bool, parent: Option<usize>) -> u8 {
        if self.objects[object].is_some() {
            return reply::LIVE;
        }
        if parent.is_some_and(|parent| self.objects[parent].is_none()) {
            return reply::PARENT;
        }
        let mut new = Object { parent, ..Object::new(actor) };
        new.rights[actor] = if execute { 15 } else { 14 };
        self.objects[object] = Some(new);
        reply::CHANGED
    }

    /// "Deleting an object deletes everything below it .. on the top owner's request alone".
    fn delete(&mut self, actor: usize, object: usize) -> u8 {
        match &self.objects[object] {
            None => reply::NOT_LIVE,
            Some(it) if it.owner != actor => reply::NO_RIGHT,
            Some(_) => {
                tree::remove(&mut self.objects, object);
                reply::CHANGED
            }
        }
    }

    fn change_level(&mut self, actor: usize, object: usize, level: Level) -> u8 {
        let Some(it) = &mut self.objects[object] else {
            return reply::NOT_LIVE;
        };
        if it.owner != actor {
            return reply::NO_RIGHT;
        }
        // a first label is free
        if it.label.is_some_and(|old| !level.dominates(&old)) {
            return reply::LOWERED;
        }
        for s in 0..SUBJECTS {
            if it.reads(s) && !self.subjects[s].is_some_and(|c| c.dominates(&level)) {
                return reply::SIMPLE;
            }
        }
        let before = it.label;
        it.label = Some(level);
        let broken = self.broken_by_label(object);
        if let (Some(_), Some(it)) = (broken, &mut self.objects[object]) {
            it.label = before;
        }
        broken.unwrap_or(changed(before != Some(level)))
    }

    /// Checks 9 and 20 of a change of level, with the new label in place.
    fn broken_by_label(&self, object: usize) -> Option<u8> {
        if !(0..SUBJECTS).all(|s| star::kept(self.star, &self.objects, s)) {
            return Some(reply::STAR);
        }
        (!tree::label_kept(&self.objects, object)).then_some(reply::PARENT_LABEL)
    }

    /// "lets the owner set them": checks 4, 6, and the wall over all subjects in the state after it.
    fn set_companies(&mut self, actor: usize, object: usize, companies: Companies) -> u8 {
        let Some(it) = &mut self.objects[object] else {
            return reply::NOT_LIVE;
        };
        if it.owner != actor {
            return reply::NO_RIGHT;
        }
        let before = it.companies;
        it.companies = companies;
        if !(0..SUBJECTS).all(|s| wall::kept(self.star, &self.objects, s)) {
            if let Some(it) = &mut self.objects[object] {
                it.companies = before;
            }
            return reply::WALL;
        }
        changed(before != companies)
    }
}

fn changed(it: bool) -> u8 {
    if it {
        reply::CHANGED
    } else {
        reply::ALREADY
    }
}
