//! The fields of a request as numbers, for tests that hold single fields to a text.

use reference::{Kind, Level, Request};

/// Kind, actor, other, object, mode, class and needs; 0 where the kind does not use a field.
pub fn fields(request: &Request) -> [u64; 7] {
    let none = Level { class: 0, needs: 0 };
    let (kind, other, mode, level) = match request.kind {
        // the four numbers stand in the field of the needs, the first class highest
        Kind::SetCompanies([first, second, third, fourth]) => {
            let needs = u16::from_be_bytes([16 * first + second, 16 * third + fourth]);
            (8, 0, 0, Level { class: 0, needs })
        }
        Kind::Get(mode) => (1, 0, mode.number(), none),
        Kind::Release(mode) => (2, 0, mode.number(), none),
        Kind::Give(other, mode) => (3, other, mode.number(), none),
        Kind::Rescind(other, mode) => (4, other, mode.number(), none),
        // and there, in a create, the parent's number plus one
        Kind::Create { execute, parent } => {
            let needs = parent.map_or(0, |parent| parent as u16 + 1);
            (5, 0, if execute { 4 } else { 0 }, Level { class: 0, needs })
        }
        Kind::Delete => (6, 0, 0, none),
        Kind::ChangeLevel(level) => (7, 0, 0, level),
    };
    let (actor, other, object) = (request.actor as u64, other as u64, request.object as u64);
    [kind, actor, other, object, mode.into(), level.class.into(), level.needs.into()]
}
