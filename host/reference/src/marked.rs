//! The marked run, from the text of the requirements.

use crate::level::Level;
use crate::mode::Mode::{Append, Execute, Read};
use crate::request::Kind::{ChangeLevel, Create, Get, Give, Release};
use crate::request::{Kind, Request};
use crate::TABLE_BYTES;

/// Table W: subject 0 has (1, 0001), subject 1 (3, 0003), subject 2 (0, 0000).
pub fn table_w() -> [u8; TABLE_BYTES] {
    let mut table = [0; TABLE_BYTES];
    table[..6].copy_from_slice(&[0x88, 0x00, 0x0C, 0xC0, 0x00, 0xE0]);
    table
}

fn level(class: u8, needs: u16) -> Kind {
    ChangeLevel(Level { class, needs })
}

fn by(actor: usize, object: usize, kind: Kind) -> Request {
    Request { actor, object, kind }
}

/// Each request with its reply.
pub fn marked_run() -> [(Request, u8); 16] {
    [
        (by(1, 0, Create { execute: false, parent: None }), 0),
        (by(1, 0, Get(Read)), 7),
        (by(1, 0, level(0, 0)), 0),
        (by(1, 0, level(0, 0)), 1),
        (by(1, 0, Get(Read)), 0),
        (by(1, 1, Create { execute: true, parent: None }), 0),
        (by(1, 1, level(2, 1)), 0),
        (by(1, 1, Get(Append)), 0),
        (by(1, 0, level(3, 3)), 9),
        (by(1, 1, Give(0, Read)), 0),
        (by(0, 1, Get(Read)), 8),
        (by(1, 1, Get(Read)), 0),
        (by(1, 0, Get(Append)), 9),
        (by(1, 0, Get(Execute)), 6),
        (by(1, 1, Release(Append)), 0),
        (by(1, 1, Release(Append)), 1),
    ]
}
