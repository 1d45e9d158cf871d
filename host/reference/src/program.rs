//! What the program `circmon` prints.

use crate::image::TABLE_BYTES;
use crate::monitor::Monitor;
use crate::request::REQUEST_BYTES;

pub const MOST_REQUESTS: usize = 4096;

/// From standard input to standard output: a table, then at most 4,096 requests; one line for each.
pub fn program(input: &[u8]) -> String {
    let (table, rest) = input.split_at(input.len().min(TABLE_BYTES));
    let mut monitor = match Monitor::from_table(table) {
        Err(number) => return format!("{number}\n"),
        Ok(monitor) => monitor,
    };
    let requests = &rest[..rest.len().min(MOST_REQUESTS * REQUEST_BYTES)];
    requests.chunks(REQUEST_BYTES).map(|request| format!("{}\n", monitor.request(request))).collect()
}
