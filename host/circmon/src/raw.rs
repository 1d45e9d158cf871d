//! The declarations of include/circmon.h. A test (`host/sidebyside/tests/interface.rs`) compares them with the header and with
//! the source of the library.

use crate::Rows;

extern "C" {
    pub fn circmon_open(unit: *mut Rows, image: *const u8, image_len: u64) -> u8;
    pub fn circmon_start(unit: *mut Rows, table: *const u8, table_len: u64) -> u8;
    pub fn circmon_open_in(
        unit: *mut Rows,
        subjects: u8,
        objects: u8,
        highest_class: u8,
        needs: u16,
        image: *const u8,
        image_len: u64,
    ) -> u8;
    pub fn circmon_start_in(
        unit: *mut Rows,
        subjects: u8,
        objects: u8,
        highest_class: u8,
        needs: u16,
        table: *const u8,
        table_len: u64,
    ) -> u8;
    pub fn circmon_ask(unit: *mut Rows, request: *const u8, request_len: u64) -> u8;
    pub fn circmon_take_back(unit: *mut Rows) -> u8;
    pub fn circmon_save(unit: *const Rows, image: *mut u8, image_len: u64) -> u8;
    pub fn circmon_page(unit: *const Rows, object: u8, page: *mut u8, page_len: u64) -> u8;
    pub fn circmon_clash(unit: *const Rows, requests: *const u8, requests_len: u64) -> u64;
    pub fn circmon_begin(table: *const u8, table_len: u64, image: *mut u8, image_len: u64) -> u8;
    pub fn circmon_read(image: *const u8, image_len: u64) -> u8;
    pub fn circmon_request(image: *mut u8, image_len: u64, request: *const u8, request_len: u64) -> u8;
    pub fn circmon_replay(
        table: *const u8,
        table_len: u64,
        requests: *const u8,
        requests_len: u64,
        replies: *mut u8,
        replies_len: u64,
    ) -> u8;
    pub fn circmon_distinguish(
        a: *const u8,
        a_len: u64,
        b: *const u8,
        b_len: u64,
        requests: *mut u8,
        requests_len: u64,
    ) -> u8;
    pub fn circmon_distinguish_in(
        subjects: u8,
        objects: u8,
        highest_class: u8,
        needs: u16,
        a: *const u8,
        a_len: u64,
        b: *const u8,
        b_len: u64,
        requests: *mut u8,
        requests_len: u64,
    ) -> u8;
    pub fn circmon_compare(class_a: u8, needs_a: u16, class_b: u8, needs_b: u16) -> u8;
    pub fn circmon_load(seed: u32, requests: *mut u8, requests_len: u64) -> u64;
}
