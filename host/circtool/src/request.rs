//! The six bytes of a request: what they say, or why they say nothing.

use crate::bits::{field, put};
use crate::companies::{Companies, CONFLICT_CLASSES};
use crate::kinds::{Row, UNDER_PARENT, WITH_MODE};
use crate::level::{level_words, Level};
use crate::mode::Mode;
use crate::profile::{self, Profile};
use crate::view::{OBJECTS, SUBJECTS};
use circmon::REQUEST_BYTES;

pub use crate::malformed::{reasons_words, Malformed};

#[derive(Clone, Copy, Debug, PartialEq, Eq)]
pub enum Kind {
    Get(Mode),
    Release(Mode),
    Give(usize, Mode),
    Rescind(usize, Mode),
    Create { execute: bool, parent: Option<usize> },
    Delete,
    ChangeLevel(Level),
    SetCompanies(Companies),
}

/// What a kind says beside actor and object; what it does not use is 0, none, this level or these companies.
#[derive(Clone, Copy)]
pub struct Parts {
    pub other: usize,
    pub mode: Option<Mode>,
    pub level: Level,
    pub companies: Companies,
    pub parent: Option<usize>,
}

impl Parts {
    pub const NONE: Parts = Parts {
        other: 0,
        mode: None,
        level: Level { class: 0, needs: 0 },
        companies: Companies([0; CONFLICT_CLASSES]),
        parent: None,
    };
}

impl Kind {
    /// The kind with this number; nothing where it needs a mode and has none.
    pub fn new(number: u32, parts: Parts) -> Option<Kind> {
        let Parts { other, mode, level, companies, parent } = parts;
        Some(match number {
            1 => Kind::Get(mode?),
            2 => Kind::Release(mode?),
            3 => Kind::Give(other, mode?),
            4 => Kind::Rescind(other, mode?),
            5 => Kind::Create { execute: mode == Some(Mode::Execute), parent },
            6 => Kind::Delete,
            7 => Kind::ChangeLevel(level),
            8 => Kind::SetCompanies(companies),
            _ => return None,
        })
    }

    /// Its number and its parts.
    fn parts(self) -> (u32, Parts) {
        let with = |mode| Parts { mode: Some(mode), ..Parts::NONE };
        match self {
            Kind::Get(mode) => (1, with(mode)),
            Kind::Release(mode) => (2, with(mode)),
            Kind::Give(other, mode) => (3, Parts { other, ..with(mode) }),
            Kind::Rescind(other, mode) => (4, Parts { other, ..with(mode) }),
            Kind::Create { execute, parent } => {
                (5, Parts { parent, mode: execute.then_some(Mode::Execute), ..Parts::NONE })
            }
            Kind::Delete => (6, Parts::NONE),
            Kind::ChangeLevel(level) => (7, Parts { level, ..Parts::NONE }),
            Kind::SetCompanies(companies) => (8, Parts { companies, ..Parts::NONE }),
        }
    }
}

#[derive(Clone, Copy, Debug, PartialEq, Eq)]
pub struct Request {
    pub actor: usize,
    pub object: usize,
    pub kind: Kind,
}

/// The fields as numbers, in their order.
struct Fields {
    kind: u32,
    actor: u32,
    other: u32,
    object: u32,
    mode: u32,
    class: u32,
    needs: u32,
    spare: u32,
}

const WIDTHS: [usize; 8] = [4, 5, 5, 7, 3, 4, 16, 4];

impl Fields {
    fn of(bytes: &[u8]) -> Fields {
        let mut at = 0;
        let [kind, actor, other, object, mode, class, needs, spare] = WIDTHS.map(|width| {
            at += width;
            field(bytes, at - width, width)
        });
        Fields { kind, actor, other, object, mode, class, needs, spare }
    }

    fn bytes(&self) -> [u8; REQUEST_BYTES] {
        let numbers = [self.kind, self.actor, self.other, self.object, self.mode, self.class, self.needs, self.spare];
        let (mut bytes, mut at) = ([0; REQUEST_BYTES], 0);
        for (number, width) in numbers.into_iter().zip(WIDTHS) {
            put(&mut bytes, at, width, number);
            at += width;
        }
        bytes
    }

    /// Every reason against these fields, in the order in which docs/FORMATS.md names them.
    fn reasons(&self) -> Vec<Malformed> {
        let mut reasons = Vec::new();
        let row = Row::of_number(self.kind);
        let mut note = |bad: bool, reason: Malformed| {
            if bad {
                reasons.push(reason);
            }
        };
        note(row.is_none(), Malformed::Kind(self.kind));
        note(self.actor as usize >= SUBJECTS, Malformed::Actor(self.actor));
        note(row.is_some_and(|row| row.other) && self.other as usize >= SUBJECTS, Malformed::Other(self.other));
        note(self.object as usize >= OBJECTS, Malformed::Object(self.object));
        // what a mode or a field is for depends on the kind, so an unknown kind has nothing to say about them
        if let Some(row) = row {
            note(!row.allows(self.mode), Malformed::Mode(self.mode, row.name));
            let unused = [
                ("other subject", row.other, self.other),
                ("class", row.class, self.class),
                ("needs", row.needs || row.companies || row.parent, self.needs),
                ("spare", false, self.spare),
            ];
            for (name, used, number) in unused {
                note(!used && number != 0, Malformed::Unused(name, number));
            }
            note(row.parent && self.needs as usize > OBJECTS, Malformed::Parent(self.needs));
        }
        reasons
    }

    /// Every reason that the profile gives, of fields that the widest one allows and the kind uses.
    fn outside(&self, profile: Profile) -> Vec<Malformed> {
        let row = Row::of_number(self.kind);
        let subject = |number: u32| (number as usize) < SUBJECTS && !profile::has_subject(profile, number as usize);
        let object = |number: u32| (number as usize) < OBJECTS && !profile::has_object(profile, number as usize);
        let other = row.is_some_and(|row| row.other) && subject(self.other);
        let level = row.is_some_and(|row| row.class || row.needs) && !profile::has_level(profile, self.level());
        let parent = self.needs.checked_sub(1).filter(|&number| row.is_some_and(|row| row.parent) && object(number));
        let reasons = [
            subject(self.actor).then_some(Malformed::ActorBeyond(self.actor, profile)),
            other.then_some(Malformed::OtherBeyond(self.other, profile)),
            object(self.object).then_some(Malformed::ObjectBeyond(self.object, profile)),
            parent.map(|number| Malformed::ParentBeyond(number, profile)),
            level.then_some(Malformed::LevelOutside(self.level(), profile)),
        ];
        reasons.into_iter().flatten().collect()
    }

    fn level(&self) -> Level {
        Level { class: self.class as u8, needs: self.needs as u16 }
    }

    fn kind(&self) -> Option<Kind> {
        Kind::new(
            self.kind,
            Parts {
                other: self.other as usize,
                mode: Mode::from_number(self.mode),
                level: self.level(),
                companies: Companies::from_bits(self.needs as u16),
                parent: (self.needs as usize).checked_sub(1),
            },
        )
    }
}

impl Request {
    /// The request that the bytes say under the widest profile, or every reason why they say none.
    pub fn decode(bytes: &[u8]) -> Result<Request, Vec<Malformed>> {
        Request::decode_in(Profile::WIDEST, bytes)
    }

    /// The same under a profile.
    pub fn decode_in(profile: Profile, bytes: &[u8]) -> Result<Request, Vec<Malformed>> {
        if bytes.len() != REQUEST_BYTES {
            return Err(vec![Malformed::Length(bytes.len())]);
        }
        let fields = Fields::of(bytes);
        let reasons = [fields.reasons(), fields.outside(profile)].concat();
        match fields.kind() {
            Some(kind) if reasons.is_empty() => {
                Ok(Request { actor: fields.actor as usize, object: fields.object as usize, kind })
            }
            _ => Err(reasons),
        }
    }

    pub fn encode(&self) -> [u8; REQUEST_BYTES] {
        let (kind, Parts { other, mode, level, companies, parent }) = self.kind.parts();
        Fields {
            kind,
            actor: self.actor as u32,
            other: other as u32,
            object: self.object as u32,
            mode: mode.map_or(0, Mode::number),
            class: level.class.into(),
            // the same field: no kind uses two of them
            needs: u32::from(level.needs | companies.bits()) | parent.map_or(0, |parent| parent as u32 + 1),
            spare: 0,
        }
        .bytes()
    }

    /// As scripts write it: `s1 give s0 r o1`.
    pub fn script_words(&self) -> String {
        self.filled(|row| row.script)
    }

    /// As a sentence: `s1 gives s0 r on o1`.
    pub fn sentence(&self) -> String {
        self.filled(|row| row.sentence)
    }

    /// The actor, and the words of the kind with the fields in their places.
    fn filled(&self, words: fn(&Row) -> &str) -> String {
        let (number, Parts { other, mode, level, companies, parent }) = self.kind.parts();
        let words = Row::of_number(number).map_or("", words);
        let words = match mode {
            Some(mode) => words.replace("MODE", &mode.to_string()),
            None => words.replace(WITH_MODE, ""),
        };
        let words = match parent {
            Some(parent) => words.replace("PARENT", &format!("o{parent}")),
            None => words.replace(UNDER_PARENT, ""),
        };
        let words = words.replace("OTHER", &format!("s{other}")).replace("LEVEL", &level_words(level));
        let words = words.replace("COMPANIES", &companies.to_string());
        format!("s{} {}", self.actor, words.replace("OBJECT", &format!("o{}", self.object)))
    }
}
