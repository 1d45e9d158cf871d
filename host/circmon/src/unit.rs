//! A unit: the monitor that stays in memory, with its journal.

use crate::{raw, size, Profile, StartOrder, IMAGE_BYTES, OBJECTS, SUBJECTS};

/// Bytes of a row: one for each subject.
pub const ROW_BYTES: usize = SUBJECTS;
/// The row of the profile, the last one of the monitor.
const PROFILE_ROW: usize = 3 * OBJECTS + SUBJECTS;
/// The rows of the monitor: three for each object, one for each subject, and that of the profile.
pub const MONITOR_ROWS: usize = PROFILE_ROW + 1;
/// As many requests as can be taken back.
pub const JOURNAL_ENTRIES: usize = 32;
/// The rows of the journal, behind those of the monitor: three for each entry, a byte for its object, and a row that counts them.
const JOURNAL_ROWS: usize = 3 * JOURNAL_ENTRIES + JOURNAL_ENTRIES / ROW_BYTES + 1;
pub const ROWS: usize = MONITOR_ROWS + JOURNAL_ROWS;
pub const UNIT_BYTES: usize = ROWS * ROW_BYTES;
/// The first bytes of a unit, which are the monitor.
pub const MONITOR_BYTES: usize = MONITOR_ROWS * ROW_BYTES;

/// What a unit is made of; docs/FORMATS.md says what each byte is. Every content is a state and a journal.
pub type Rows = [[u8; ROW_BYTES]; ROWS];

/// One monitor in memory with its journal. Units are compared without the journal: those of one profile that were begun and then
/// only asked and taken back are equal exactly where their images are. `rows` has every byte.
#[repr(transparent)]
#[derive(Clone, Debug)]
pub struct Unit {
    rows: Rows,
}

impl PartialEq for Unit {
    fn eq(&self, other: &Unit) -> bool {
        self.rows[..MONITOR_ROWS] == other.rows[..MONITOR_ROWS]
    }
}

impl Eq for Unit {}

impl Unit {
    /// Begun from an enrolment table under the widest profile, or refused with a number.
    pub fn from_table(table: &[u8]) -> Result<Unit, u8> {
        Unit::begun(|unit| unit.start(table))
    }

    /// Begun from an enrolment table under a profile, or refused with a number.
    pub fn from_table_in(profile: Profile, table: &[u8]) -> Result<Unit, u8> {
        Unit::begun(|unit| unit.start_in(profile, table))
    }

    /// Begun from an image under the widest profile, or refused with a number.
    pub fn from_image(image: &[u8]) -> Result<Unit, u8> {
        Unit::begun(|unit| unit.open(image))
    }

    /// Begun from an image under a profile, or refused with a number.
    pub fn from_image_in(profile: Profile, image: &[u8]) -> Result<Unit, u8> {
        Unit::begun(|unit| unit.open_in(profile, image))
    }

    fn begun(begin: impl FnOnce(&mut Unit) -> u8) -> Result<Unit, u8> {
        let mut unit = Unit::from_rows([[0; ROW_BYTES]; ROWS]);
        match begin(&mut unit) {
            0 => Ok(unit),
            number => Err(number),
        }
    }

    /// The state and the journal that these rows say; the state need not be secure.
    pub fn from_rows(rows: Rows) -> Unit {
        Unit { rows }
    }

    pub fn rows(&self) -> &Rows {
        &self.rows
    }

    /// The profile that its row says. Nothing where its numbers are outside their ranges, which a unit that was begun never
    /// has.
    pub fn profile(&self) -> Option<Profile> {
        let [subjects, objects, _, highest_class, high, low, ..] = self.rows[PROFILE_ROW];
        Profile::new(subjects, objects, highest_class, u16::from_be_bytes([high, low]))
    }

    /// Begins from an enrolment table under the widest profile: 0; or 10 or 11, and this is the empty monitor.
    pub fn start(&mut self, table: &[u8]) -> u8 {
        // Safety: the unit is whole and apart from the slice, whose pointer comes with its length.
        unsafe { raw::circmon_start(&mut self.rows, table.as_ptr(), size(table)) }
    }

    /// Begins from an enrolment table under a profile: 0; or the first refusal of 10, 11, 16, and this is the empty monitor, which
    /// has the widest one.
    pub fn start_in(&mut self, profile: Profile, table: &[u8]) -> u8 {
        // Safety: the unit is whole and apart from the slice, whose pointer comes with its length.
        unsafe {
            raw::circmon_start_in(
                &mut self.rows,
                profile.subjects(),
                profile.objects(),
                profile.highest_class(),
                profile.needs(),
                table.as_ptr(),
                size(table),
            )
        }
    }

    /// Begins from an image under the widest profile: 0; or the first refusal of 10, 11, 12, 6, 7, 8, 9, 18, 19, 20, and this
    /// is the empty monitor.
    pub fn open(&mut self, image: &[u8]) -> u8 {
        // Safety: the unit is whole and apart from the slice, whose pointer comes with its length.
        unsafe { raw::circmon_open(&mut self.rows, image.as_ptr(), size(image)) }
    }

    /// Begins from an image under a profile: 0; or the first refusal of 10, 11, 16, 12, 6, 7, 8, 9, 18, 19, 20, and this
    /// is the empty monitor, which has the widest one.
    pub fn open_in(&mut self, profile: Profile, image: &[u8]) -> u8 {
        // Safety: the unit is whole and apart from the slice, whose pointer comes with its length.
        unsafe {
            raw::circmon_open_in(
                &mut self.rows,
                profile.subjects(),
                profile.objects(),
                profile.highest_class(),
                profile.needs(),
                image.as_ptr(),
                size(image),
            )
        }
    }

    /// The reply to a byte string of any length and content, below 2 where it is granted; this is the state after it. A request with
    /// reply 0 can be taken back, but for a delete that took children: after it nothing can be, until another request replies 0.
    pub fn ask(&mut self, request: &[u8]) -> u8 {
        // Safety: the unit is whole and apart from the slice, whose pointer comes with its length.
        unsafe { raw::circmon_ask(&mut self.rows, request.as_ptr(), size(request)) }
    }

    /// Takes back the latest request with reply 0 that is in the journal: 0, and this is the state before that request. Or 17 where
    /// there is none, and every byte is left. It is no request, and it cannot be taken back itself.
    pub fn take_back(&mut self) -> u8 {
        // Safety: the unit is whole.
        unsafe { raw::circmon_take_back(&mut self.rows) }
    }

    /// The image into the first 1,458 bytes of the buffer: 0, or 13 and every byte left where it is shorter.
    pub fn save(&self, image: &mut [u8]) -> u8 {
        // Safety: the unit is whole and apart from the slice, whose pointer comes with its length.
        unsafe { raw::circmon_save(&self.rows, image.as_mut_ptr(), size(image)) }
    }

    pub fn image(&self) -> [u8; IMAGE_BYTES] {
        let mut image = [0; IMAGE_BYTES];
        let number = self.save(&mut image);
        assert_eq!(number, 0, "it is proved that a buffer of this size is filled");
        image
    }

    /// The access page of an object into the first 258 bytes of the buffer: 0; or 2 where the object is above 63, then 4
    /// where it is not live, then 13 where the buffer is shorter, and every byte left.
    pub fn page(&self, object: u8, page: &mut [u8]) -> u8 {
        // Safety: the unit is whole and apart from the slice, whose pointer comes with its length.
        unsafe { raw::circmon_page(&self.rows, object, page.as_mut_ptr(), size(page)) }
    }

    /// Whether the order of these gets matters for the state that is left: pieces of six bytes, a short last one counted. What is
    /// said of orders holds for a unit that was begun and then only asked and taken back.
    pub fn clash(&self, requests: &[u8]) -> StartOrder {
        // Safety: the unit is whole, nothing is written, and the pointer comes with the length of its slice.
        StartOrder::new(unsafe { raw::circmon_clash(&self.rows, requests.as_ptr(), size(requests)) })
    }
}
