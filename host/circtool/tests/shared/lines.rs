//! The lines of a script.

use reference::{Kind, Mode, Request};

fn letter(mode: Mode) -> char {
    match mode {
        Mode::Read => 'r',
        Mode::Write => 'w',
        Mode::Append => 'a',
        Mode::Execute => 'e',
    }
}

/// The line of a request, written from the second implementation's decoding.
pub fn request_line(request: &Request) -> String {
    let (s, o) = (request.actor, request.object);
    match request.kind {
        Kind::Get(mode) => format!("s{s} get {} o{o}", letter(mode)),
        Kind::Release(mode) => format!("s{s} release {} o{o}", letter(mode)),
        Kind::Give(other, mode) => format!("s{s} give s{other} {} o{o}", letter(mode)),
        Kind::Rescind(other, mode) => format!("s{s} rescind s{other} {} o{o}", letter(mode)),
        Kind::Create { execute, parent } => {
            let under = parent.map_or(String::new(), |parent| format!(" under o{parent}"));
            format!("s{s} create o{o}{under}{}", if execute { " with e" } else { "" })
        }
        Kind::Delete => format!("s{s} delete o{o}"),
        Kind::ChangeLevel(level) => {
            let needs: Vec<String> =
                (0..16).filter(|k| level.needs & 1 << k != 0).map(|k: u32| k.to_string()).collect();
            format!("s{s} level o{o} class {} needs {{{}}}", level.class, needs.join(","))
        }
        Kind::SetCompanies([a, b, c, d]) => format!("s{s} companies o{o} {a} {b} {c} {d}"),
    }
}
