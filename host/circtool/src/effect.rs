//! What a request leaves of a state.

use crate::mode::Mode;
use crate::request::{Kind, Request};
use crate::tree::below;
use crate::view::{Object, View};

/// The state that the request would leave if nothing refused it.
pub fn after(view: &View, request: &Request) -> View {
    let mut after = view.clone();
    let slot = &mut after.objects[request.object];
    match (request.kind, slot.as_mut()) {
        (Kind::Create { execute, parent }, None) => *slot = Some(created(request.actor, execute, parent)),
        (Kind::Delete, Some(_)) => {
            *slot = None;
            for (object, _) in below(view, request.object) {
                after.objects[object] = None;
            }
        }
        (kind, Some(it)) => change(it, request.actor, kind),
        (_, None) => {}
    }
    after
}

fn created(actor: usize, execute: bool, parent: Option<usize>) -> Object {
    let mut object = Object { parent, ..Object::new(actor) };
    for mode in Mode::ALL.into_iter().filter(|&mode| execute || mode != Mode::Execute) {
        object.rights[actor] = object.rights[actor].with(mode);
    }
    object
}

fn change(it: &mut Object, actor: usize, kind: Kind) {
    match kind {
        Kind::Get(mode) => it.held[actor] = it.held[actor].with(mode),
        Kind::Release(mode) => it.held[actor] = it.held[actor].without(mode),
        Kind::Give(other, mode) => it.rights[other] = it.rights[other].with(mode),
        Kind::Rescind(other, mode) => {
            it.rights[other] = it.rights[other].without(mode);
            it.held[other] = it.held[other].without(mode);
        }
        Kind::ChangeLevel(level) => it.label = Some(level),
        Kind::SetCompanies(companies) => it.companies = companies,
        Kind::Create { .. } | Kind::Delete => {}
    }
}
