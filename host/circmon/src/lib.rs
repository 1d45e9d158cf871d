//! Safe Rust over the proved monitor: a unit in memory, the profile of a site, and the functions of include/circmon.h on images, on
//! levels and on requests from a seed.
//!
//! The contracts of the functions are proved of the Rattle code (crates/capi). What stands here is the boundary: the
//! declarations, and slices handed on as pointer and length.

mod counted;
mod level;
mod profile;
mod raw;
mod start_order;
mod unit;

pub use counted::Counted;
pub use level::{compare, Comparison, Level};
pub use profile::Profile;
pub use start_order::{StartOrder, MOST_GETS};
pub use unit::{Rows, Unit, JOURNAL_ENTRIES, MONITOR_BYTES, MONITOR_ROWS, ROWS, ROW_BYTES, UNIT_BYTES};

/// The proved library that is linked here, for programs in C over include/circmon.h. The build script puts it there.
pub const ARCHIVE: &str = concat!(env!("OUT_DIR"), "/libcapi.a");

pub const SUBJECTS: usize = 16;
pub const OBJECTS: usize = 64;
/// The classes of competing companies: an object has one company, or none, in each.
pub const CONFLICT_CLASSES: usize = 4;
/// The bits of a subject's record in a table, and of an object's in an image.
const SUBJECT_BITS: usize = 21;
const OBJECT_BITS: usize = 177;
pub const TABLE_BYTES: usize = SUBJECTS * SUBJECT_BITS / 8;
pub const IMAGE_BYTES: usize = TABLE_BYTES + OBJECTS * OBJECT_BITS / 8;
pub const REQUEST_BYTES: usize = 6;
/// The room that `distinguish` asks for: four requests.
pub const DISTINGUISH_BYTES: usize = 4 * REQUEST_BYTES;
/// The characters of a line of an access page and its newline.
const PAGE_LINE_BYTES: usize = 14 + 1;
const PAGE_LAST_LINE_BYTES: usize = 17 + 1;
/// The room that a page asks for.
pub const PAGE_BYTES: usize = SUBJECTS * PAGE_LINE_BYTES + PAGE_LAST_LINE_BYTES;

/// The length of a slice as the library takes it.
fn size(slice: &[u8]) -> u64 {
    slice.len() as u64
}

/// The image of a monitor begun from the table under the widest profile, into the first 1,458 bytes of the buffer: 0, or 10, 11
/// or 13 and every byte left.
pub fn begin(table: &[u8], image: &mut [u8]) -> u8 {
    // Safety: each pointer comes with the length of its slice, and no slice overlaps the one that is written.
    unsafe { raw::circmon_begin(table.as_ptr(), size(table), image.as_mut_ptr(), size(image)) }
}

/// The number of reading the image under the widest profile: 0 where it is accepted.
pub fn read(image: &[u8]) -> u8 {
    // Safety: the pointer comes with the length of its slice.
    unsafe { raw::circmon_read(image.as_ptr(), size(image)) }
}

/// Carries out the request on the state in the buffer, which is exactly an image, under the widest profile, and writes the state
/// after it in place: the reply, or 128 + n and every byte left where the image is refused with n.
pub fn request(image: &mut [u8], request: &[u8]) -> u8 {
    // Safety: each pointer comes with the length of its slice, and no slice overlaps the one that is written.
    unsafe { raw::circmon_request(image.as_mut_ptr(), size(image), request.as_ptr(), size(request)) }
}

/// One reply byte for each piece of six bytes, a short last one counted, from a monitor begun from the table under the widest
/// profile: 0; or 10, 11, or 13 where there is no room for a reply to each piece, and every byte left.
pub fn replay(table: &[u8], requests: &[u8], replies: &mut [u8]) -> u8 {
    // Safety: each pointer comes with the length of its slice, and no slice overlaps the one that is written.
    unsafe {
        raw::circmon_replay(
            table.as_ptr(),
            size(table),
            requests.as_ptr(),
            size(requests),
            replies.as_mut_ptr(),
            size(replies),
        )
    }
}

/// The requests on which the states of two images reply differently under the widest profile, whole, in the first bytes of the
/// buffer: their number, 0 where the images are equal and 1 to 4 where they differ, and any later byte left. Or 128 + n where the
/// image a is refused with n, then 192 + n where the image b is, then 13 where the buffer has under 24 bytes, and every byte left.
pub fn distinguish(a: &[u8], b: &[u8], requests: &mut [u8]) -> u8 {
    // Safety: each pointer comes with the length of its slice, and no slice overlaps the one that is written.
    unsafe { raw::circmon_distinguish(a.as_ptr(), size(a), b.as_ptr(), size(b), requests.as_mut_ptr(), size(requests)) }
}

/// The same under a profile: the images are read under it, and requests inside it tell them apart.
pub fn distinguish_in(profile: Profile, a: &[u8], b: &[u8], requests: &mut [u8]) -> u8 {
    // Safety: each pointer comes with the length of its slice, and no slice overlaps the one that is written.
    unsafe {
        raw::circmon_distinguish_in(
            profile.subjects(),
            profile.objects(),
            profile.highest_class(),
            profile.needs(),
            a.as_ptr(),
            size(a),
            b.as_ptr(),
            size(b),
            requests.as_mut_ptr(),
            size(requests),
        )
    }
}

/// Requests from the seed, each of six bytes and well formed under the widest profile, as many whole ones as the buffer takes: 0
/// with their count, and the bytes behind the last one left. Or 15 with the count 0 where the seed is 0, and every byte left.
pub fn load(seed: u32, requests: &mut [u8]) -> Counted {
    // Safety: the pointer comes with the length of its slice.
    Counted::new(unsafe { raw::circmon_load(seed, requests.as_mut_ptr(), size(requests)) })
}
