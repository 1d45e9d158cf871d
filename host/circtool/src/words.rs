//! Requests, replies and numbers in words.

use crate::request::{reasons_words, Malformed, Request};

/// Any byte string as a request: a sentence, or the bytes where they say none.
pub fn bytes_words(bytes: &[u8]) -> String {
    match Request::decode(bytes) {
        Ok(request) => request.sentence(),
        Err(_) => format!("bytes {}", hex(bytes)),
    }
}

/// Why bytes are malformed. What the profile alone excludes is a request elsewhere.
pub fn malformed_words(reasons: &[Malformed]) -> String {
    let start = if reasons.iter().all(Malformed::is_by_profile) { "" } else { "the bytes are no request: " };
    format!("{start}{}", reasons_words(reasons))
}

/// Bytes as pairs of hexadecimal digits: `50 80 00`.
pub fn hex(bytes: &[u8]) -> String {
    bytes.iter().map(|byte| format!("{byte:02X}")).collect::<Vec<_>>().join(" ")
}

/// A number, its words as the reply to a request, as that of a refused table or image, as that of a refused load, and as that of a
/// taking-back; nothing where it is none.
type Row = (u8, &'static str, &'static str, &'static str, &'static str);

const NUMBERS: [Row; 21] = [
    (0, "granted, the state changed", "", "", "taken back"),
    (1, "granted, it was so already", "", "", ""),
    (2, "refused: malformed", "", "", ""),
    (3, "refused: not enrolled", "", "", ""),
    (4, "refused: the object is not live", "", "", ""),
    (5, "refused: the object is live already", "", "", ""),
    (6, "refused: right or ownership missing", "an access is held outside the matrix", "", ""),
    (7, "refused: no label", "r, w or a is held on an object without a label", "", ""),
    (8, "refused: the simple property would break", "the simple property is broken", "", ""),
    (9, "refused: the star property would break", "the star property is broken", "", ""),
    (10, "", "another length", "", ""),
    (11, "", "a bit is set in what is absent", "", ""),
    (12, "", "an absent subject owns, has a right or holds", "", ""),
    (13, "", "the buffer is too short", "", ""),
    (14, "refused: the new label does not dominate the old", "", "", ""),
    (15, "", "", "the seed is 0", ""),
    (16, "", "a clearance or label is outside the profile", "", ""),
    (17, "", "", "", "refused: the journal is empty"),
    (18, "refused: the wall of competing companies would break", "the wall of competing companies is broken", "", ""),
    (19, "refused: the parent is not live", "a parent is not live, or a chain of parents does not end", "", ""),
    (
        20,
        "refused: the label would break the rule toward parent or child",
        "a label breaks the rule toward a parent",
        "",
        "",
    ),
];

/// The words of a number in one column of the table.
fn words_of(number: u8, column: fn(&Row) -> &'static str) -> Option<&'static str> {
    NUMBERS.iter().find(|row| row.0 == number).map(column).filter(|words| !words.is_empty())
}

/// A reply to a request with its number: `7 refused: no label`.
pub fn reply_words(reply: u8) -> String {
    format!("{reply} {}", words_of(reply, |row| row.1).unwrap_or("a number that no request gets"))
}

/// The cause of a refused table or image with its number: `11 (a bit is set in what is absent)`.
pub fn refusal_words(number: u8) -> String {
    format!("{number} ({})", words_of(number, |row| row.2).unwrap_or("a number that no table or image gets"))
}

/// The cause of a refused load with its number: `15 (the seed is 0)`.
pub fn load_words(number: u8) -> String {
    format!("{number} ({})", words_of(number, |row| row.3).unwrap_or("a number that no load gets"))
}

/// The number of a taking-back: `17 refused: the journal is empty`.
pub fn taken_back_words(number: u8) -> String {
    format!("{number} {}", words_of(number, |row| row.4).unwrap_or("a number that no taking-back gets"))
}

/// `1 object`, `2 objects`.
pub fn count(number: usize, one: &str, many: &str) -> String {
    format!("{number} {}", if number == 1 { one } else { many })
}

/// Breaks a text into lines of at most `width` characters, each behind the indent.
pub fn wrapped(text: &str, indent: &str, width: usize) -> String {
    let mut lines = Vec::new();
    let mut line = String::new();
    for word in text.split(' ') {
        if !line.is_empty() && line.chars().count() + 1 + word.chars().count() > width {
            lines.push(std::mem::take(&mut line));
        }
        if !line.is_empty() {
            line.push(' ');
        }
        line.push_str(word);
    }
    lines.push(line);
    lines.iter().map(|line| format!("{indent}{line}\n")).collect()
}

#[cfg(test)]
mod tests {
    use super::*;

    #[test]
    fn lines_break_between_words_and_lose_none() {
        let text = "s1 would hold r on o0 and a on o1";
        let lines = wrapped(text, "  ", 10);
        assert!(lines.lines().all(|line| line.starts_with("  ") && line.len() <= 12), "{lines}");
        assert_eq!(lines.split_whitespace().collect::<Vec<_>>(), text.split(' ').collect::<Vec<_>>());
    }

    #[test]
    fn every_number_has_words() {
        assert!(NUMBERS.iter().enumerate().all(|(at, row)| usize::from(row.0) == at));
        let numbers = |words: fn(u8) -> String| -> Vec<u8> {
            (0..=255).filter(|&number| !words(number).contains("a number that")).collect()
        };
        assert_eq!(numbers(reply_words), (0..=9).chain([14, 18, 19, 20]).collect::<Vec<u8>>());
        assert_eq!(numbers(refusal_words), (6..=13).chain([16, 18, 19, 20]).collect::<Vec<u8>>());
        assert_eq!(numbers(load_words), [15]);
        assert_eq!(numbers(taken_back_words), [0, 17]);
    }
}
