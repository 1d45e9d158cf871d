//! The access page of an object: its rights and the accesses held, for a terminal.

use crate::mode::Mode;
use crate::monitor::Monitor;
use crate::record::{Object, SUBJECTS};
use crate::reply;

/// The characters of a line and its newline.
const LINE: usize = 14 + 1;
const LAST_LINE: usize = 17 + 1;
pub const PAGE_BYTES: usize = SUBJECTS * LINE + LAST_LINE;

impl Monitor {
    /// Writes the page of the object into the first bytes of the buffer: checks 2, 4, 13, and where one of them fails every
    /// byte is left.
    pub fn write_page(&self, object: u8, buffer: &mut [u8]) -> u8 {
        let Some(slot) = self.objects.get(usize::from(object)) else {
            return reply::MALFORMED;
        };
        let Some(object) = slot else {
            return reply::NOT_LIVE;
        };
        if buffer.len() < PAGE_BYTES {
            return reply::SHORT_BUFFER;
        }
        let (lines, last) = buffer[..PAGE_BYTES].split_at_mut(SUBJECTS * LINE);
        let mut total = 0;
        for (subject, line) in lines.chunks_exact_mut(LINE).enumerate() {
            total += write_line(line, object, subject);
        }
        write_last_line(last, object, total);
        reply::CHANGED
    }
}

/// Writes the line of a subject, and returns how many accesses it holds.
fn write_line(line: &mut [u8], object: &Object, subject: usize) -> u8 {
    let held = object.held[subject];
    let count = Mode::ALL.iter().map(|mode| u8::from(held & mode.bit() != 0)).sum();
    line.fill(b' ');
    two_digits(&mut line[0..2], subject as u8);
    modes(&mut line[3..7], object.rights[subject]);
    modes(&mut line[8..12], held);
    line[13] = b'0' + count;
    line[14] = b'\n';
    count
}

fn write_last_line(line: &mut [u8], object: &Object, total: u8) {
    line.fill(b' ');
    line[0..2].copy_from_slice(b"to");
    for (at, mode) in [3, 6, 9, 12].into_iter().zip(Mode::ALL) {
        let holders = object.held.iter().map(|held| u8::from(held & mode.bit() != 0)).sum();
        two_digits(&mut line[at..at + 2], holders);
    }
    two_digits(&mut line[15..17], total);
    line[17] = b'\n';
}

fn two_digits(place: &mut [u8], number: u8) {
    place[0] = b'0' + number / 10;
    place[1] = b'0' + number % 10;
}

/// Each mode of the set at its own place, or a dash there.
fn modes(places: &mut [u8], set: u8) {
    for (at, mode) in Mode::ALL.into_iter().enumerate() {
        places[at] = if set & mode.bit() != 0 { b"rwae"[at] } else { b'-' };
    }
}
