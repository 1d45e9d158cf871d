//! The profile of a site: which subjects, objects, classes and needs are in use.

use crate::level::Level;
use crate::request::{Kind, Request};

/// Any numbers; those outside the ranges are no profile of a site, and no table or image is read under them.
#[derive(Clone, Copy, Debug, PartialEq, Eq)]
pub struct Profile {
    /// subjects in use, from 0 on
    pub subjects: u8,
    /// objects in use, from 0 on
    pub objects: u8,
    pub highest_class: u8,
    /// need k weighs 2^k
    pub needs: u16,
}

impl Profile {
    pub const WIDEST: Profile = Profile { subjects: 16, objects: 64, highest_class: 15, needs: 0xFFFF };

    /// "the subjects in use (1 to 16), objects in use (1 to 64), highest class (0 to 15) and the needs in use as a set"
    pub fn is_in_range(&self) -> bool {
        (1..=16).contains(&self.subjects) && (1..=64).contains(&self.objects) && self.highest_class <= 15
    }

    pub fn has_subject(&self, subject: usize) -> bool {
        subject < usize::from(self.subjects)
    }

    pub fn has_object(&self, object: usize) -> bool {
        object < usize::from(self.objects)
    }

    /// Whether the class and every need of the level are in use.
    pub fn has_level(&self, level: &Level) -> bool {
        level.class <= self.highest_class && level.needs & !self.needs == 0
    }

    /// "A subject, object, class or need outside it in a request is malformed".
    pub fn has_request(&self, request: &Request) -> bool {
        let fields = match &request.kind {
            Kind::Give(other, _) | Kind::Rescind(other, _) => self.has_subject(*other),
            Kind::ChangeLevel(level) => self.has_level(level),
            // the numbers stand in the field of the needs and are none: "not bounded by the profile"
            Kind::SetCompanies(_) => true,
            // the parent stands there too: "for an object beyond the profile, it is malformed, and the profile's needs do not bound it"
            Kind::Create { parent, .. } => parent.is_none_or(|parent| self.has_object(parent)),
            Kind::Get(_) | Kind::Release(_) | Kind::Delete => true,
        };
        fields && self.has_subject(request.actor) && self.has_object(request.object)
    }
}
