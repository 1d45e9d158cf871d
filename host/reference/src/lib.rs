//! The rules, checks and formats of circmon implemented a second time, in plain mutable Rust, to compare the proved monitor
//! with. It is written from the text of the requirements and shares nothing with the Rattle crates.

mod bits;
mod image;
mod journal;
mod level;
mod load;
mod marked;
mod mode;
mod monitor;
mod page;
mod profile;
mod program;
mod record;
mod request;
mod star;
mod start_order;
mod tree;
mod wall;

pub use image::{IMAGE_BYTES, TABLE_BYTES};
pub use journal::{Journaled, MOST_ENTRIES};
pub use level::{Comparison, Level};
pub use load::{write_load, Xorshift};
pub use marked::{marked_run, table_w};
pub use mode::Mode;
pub use monitor::Monitor;
pub use page::PAGE_BYTES;
pub use profile::Profile;
pub use program::{program, MOST_REQUESTS};
pub use record::{Object, OBJECTS, SUBJECTS};
pub use request::{Kind, Request, REQUEST_BYTES};
pub use star::Star;
pub use start_order::{orders, Get, StartOrder, MOST_GETS};
pub use wall::{Companies, CONFLICT_CLASSES};

/// The numbers that requests, takings-back, readings, writings and loads return.
pub mod reply {
    pub const CHANGED: u8 = 0;
    pub const ALREADY: u8 = 1;
    pub const MALFORMED: u8 = 2;
    pub const NOT_ENROLLED: u8 = 3;
    pub const NOT_LIVE: u8 = 4;
    pub const LIVE: u8 = 5;
    pub const NO_RIGHT: u8 = 6;
    pub const NO_LABEL: u8 = 7;
    pub const SIMPLE: u8 = 8;
    pub const STAR: u8 = 9;
    pub const LENGTH: u8 = 10;
    pub const STRAY_BITS: u8 = 11;
    pub const ABSENT_SUBJECT: u8 = 12;
    pub const SHORT_BUFFER: u8 = 13;
    /// a new label that does not dominate the old
    pub const LOWERED: u8 = 14;
    /// a load from the seed 0
    pub const SEED_0: u8 = 15;
    /// a profile outside its ranges, or a clearance or label outside the profile
    pub const PROFILE: u8 = 16;
    /// nothing to take back
    pub const EMPTY_JOURNAL: u8 = 17;
    /// the wall between competing companies
    pub const WALL: u8 = 18;
    /// a parent that is not live; in images also one that is no object, or a chain of parents that does not end
    pub const PARENT: u8 = 19;
    /// a label that breaks the rule toward parent or child
    pub const PARENT_LABEL: u8 = 20;
}

#[cfg(test)]
mod journal_tests;
#[cfg(test)]
mod profile_tests;
#[cfg(test)]
mod tests;
#[cfg(test)]
mod tree_image_tests;
#[cfg(test)]
mod tree_tests;
#[cfg(test)]
mod wall_tests;
