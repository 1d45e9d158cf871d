//! Bytes back to a script, exactly: assembling it gives the same bytes, for every byte string.

use crate::fault;
use crate::level::level_words;
use crate::profile::Profile;
use crate::request::{reasons_words, Request};
use crate::view::View;
use crate::words::{hex, refusal_words};
use circmon::{Unit, REQUEST_BYTES, TABLE_BYTES};

/// As many requests as the program `circmon` reads.
pub const MOST_REQUESTS: usize = 4096;

pub fn disassemble(bytes: &[u8]) -> String {
    let (table, requests) = bytes.split_at(bytes.len().min(TABLE_BYTES));
    let between = if requests.is_empty() { "" } else { "\n" };
    table_lines(table) + between + &request_lines(requests)
}

/// A line for each piece of six bytes, a short last one counted, and a remark where `circmon` stops.
pub fn request_lines(requests: &[u8]) -> String {
    let mut lines = String::new();
    for (at, piece) in requests.chunks(REQUEST_BYTES).enumerate() {
        if at == MOST_REQUESTS {
            lines.push_str("# the program circmon reads no further than 4,096 requests\n");
        }
        lines.push_str(&piece_line(piece));
        lines.push('\n');
    }
    lines
}

/// The subjects, or the bytes of a table that is not well formed with the reason.
fn table_lines(table: &[u8]) -> String {
    if let Err(number) = Unit::from_table(table) {
        let bytes = if table.is_empty() { "none".to_string() } else { hex(table) };
        let place =
            fault::of_table(Profile::WIDEST, table).first().map(|fault| format!(": {fault}")).unwrap_or_default();
        return format!("# table refused with {}{place}\ntable-bytes {bytes}\n", refusal_words(number));
    }
    let lines: String = View::new(table)
        .enrolled()
        .map(|(subject, level)| format!("subject {subject} {}\n", level_words(level)))
        .collect();
    if lines.is_empty() {
        "# nobody is enrolled\n".to_string()
    } else {
        lines
    }
}

fn piece_line(piece: &[u8]) -> String {
    match Request::decode(piece) {
        Ok(request) => request.script_words(),
        Err(reasons) => format!("bytes {}  # {}", hex(piece), reasons_words(&reasons)),
    }
}
