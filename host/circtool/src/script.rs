//! The lines of a script as words with columns, and the errors that name them.

use std::fmt;

/// A place in a script and what is wrong there.
#[derive(Clone, Debug, PartialEq, Eq)]
pub struct ScriptError {
    pub line: usize,
    pub column: usize,
    pub message: String,
}

/// `4:8: expected a mode (r, w, a or e), found 'x'`; the name of the file stands before it.
impl fmt::Display for ScriptError {
    fn fmt(&self, out: &mut fmt::Formatter) -> fmt::Result {
        write!(out, "{}:{}: {}", self.line, self.column, self.message)
    }
}

#[derive(Clone, Copy, Debug, PartialEq, Eq)]
pub struct Word<'a> {
    pub text: &'a str,
    /// the place of its first character, from 1
    pub column: usize,
}

/// The words of one line, without its comment.
pub struct Line<'a> {
    pub number: usize,
    words: Vec<Word<'a>>,
    at: usize,
    /// the column behind the last word
    end: usize,
}

/// The byte-order mark, which some editors put in front of a text.
pub const MARK: &str = "\u{feff}";

/// The signs that are words of their own, also without a space beside them.
const SIGNS: [char; 3] = ['{', '}', ','];

/// How long the first word of a text is that begins with none of the white space of ASCII.
fn word_length(text: &str) -> usize {
    let ends = |letter: char| letter.is_ascii_whitespace() || SIGNS.contains(&letter);
    match text.find(ends) {
        Some(0) => 1,
        end => end.unwrap_or(text.len()),
    }
}

impl<'a> Line<'a> {
    /// Only the white space of ASCII stands between words: another space is seen by nobody, and is an error where it stands.
    pub fn new(number: usize, text: &'a str) -> Line<'a> {
        let text = text.split('#').next().unwrap_or_default();
        let mut words = Vec::new();
        let mut rest = text;
        let mut column = 1;
        loop {
            let trimmed = rest.trim_start_matches(|letter: char| letter.is_ascii_whitespace());
            column += rest.len() - trimmed.len();
            if trimmed.is_empty() {
                break;
            }
            let (word, behind) = trimmed.split_at(word_length(trimmed));
            words.push(Word { text: word, column });
            column += word.chars().count();
            rest = behind;
        }
        let end = words.last().map_or(1, |word| word.column + word.text.chars().count());
        Line { number, words, at: 0, end }
    }

    pub fn is_empty(&self) -> bool {
        self.words.is_empty()
    }

    /// The next word, or nothing at the end of the line.
    pub fn peek(&self) -> Option<Word<'a>> {
        self.words.get(self.at).copied()
    }

    /// The words from the next one to the end of the line.
    pub fn rest(&self) -> &[Word<'a>] {
        &self.words[self.at..]
    }

    /// The next word, where the test finds a value in it.
    pub fn take<T>(&mut self, expected: &str, test: impl Fn(&str) -> Option<T>) -> Result<T, ScriptError> {
        match self.peek().and_then(|word| test(word.text)) {
            Some(value) => {
                self.at += 1;
                Ok(value)
            }
            None => Err(self.unexpected(expected)),
        }
    }

    pub fn keyword(&mut self, keyword: &str) -> Result<(), ScriptError> {
        self.take(&format!("'{keyword}'"), |word| (word == keyword).then_some(()))
    }

    /// That nothing more stands on the line.
    pub fn finish(&self) -> Result<(), ScriptError> {
        match self.peek() {
            None => Ok(()),
            Some(_) => Err(self.unexpected("the end of the line")),
        }
    }

    /// An error at the next word.
    pub fn unexpected(&self, expected: &str) -> ScriptError {
        let found = self.peek().map_or("the end of the line".to_string(), |word| quoted(word.text));
        self.error(format!("expected {expected}, found {found}"))
    }

    /// An error at the next word, in its own words.
    pub fn error(&self, message: String) -> ScriptError {
        let column = self.peek().map_or(self.end, |word| word.column);
        ScriptError { line: self.number, column, message }
    }

    /// The column of the first word of the line.
    pub fn start(&self) -> usize {
        self.words.first().map_or(1, |word| word.column)
    }

    /// An error at the first word of the line.
    pub fn error_at_start(&self, message: String) -> ScriptError {
        ScriptError { line: self.number, column: self.start(), message }
    }
}

/// A word as an error shows it: what nobody sees and what a terminal would obey stands by its code, and a long word is cut.
pub fn quoted(word: &str) -> String {
    let most = 40;
    let start: String = word.chars().take(most).map(printable).collect();
    format!("'{start}{}'", if word.chars().count() > most { ".." } else { "" })
}

/// The letter, or its code: `<U+00A0>`.
pub fn printable(letter: char) -> String {
    if letter.is_control() || letter.is_whitespace() || is_invisible(letter) {
        format!("<U+{:04X}>", u32::from(letter))
    } else {
        letter.to_string()
    }
}

/// Characters of no width that are no control characters: joiners, marks of direction, the byte-order mark, the soft
/// hyphen, fillers, selectors of variants and tags.
fn is_invisible(letter: char) -> bool {
    matches!(u32::from(letter),
        0xAD | 0x34F | 0x61C | 0x115F..=0x1160 | 0x17B4..=0x17B5 | 0x180B..=0x180F | 0x200B..=0x200F
        | 0x202A..=0x202E | 0x2060..=0x206F | 0x3164 | 0xFE00..=0xFE0F | 0xFEFF | 0xFFA0 | 0xFFF0..=0xFFFB
        | 0x1BCA0..=0x1BCA3 | 0x1D173..=0x1D17A | 0xE0000..=0xE0FFF)
}

/// A decimal number without leading zeros, at most `most`.
pub fn number(word: &str, most: usize) -> Option<usize> {
    let digits = word.bytes().all(|byte| byte.is_ascii_digit()) && (word == "0" || !word.starts_with('0'));
    word.parse().ok().filter(|&number| digits && number <= most)
}

#[cfg(test)]
mod tests {
    use super::*;

    #[test]
    fn columns_count_characters() {
        let line = Line::new(3, "  é s1\tget # s2");
        let words: Vec<(&str, usize)> = line.rest().iter().map(|word| (word.text, word.column)).collect();
        assert_eq!(words, [("é", 3), ("s1", 5), ("get", 8)]);
        assert_eq!(line.end, 11);
    }

    #[test]
    fn signs_are_words_of_their_own() {
        let line = Line::new(1, "needs {0, 15}x");
        let words: Vec<(&str, usize)> = line.rest().iter().map(|word| (word.text, word.column)).collect();
        assert_eq!(words, [("needs", 1), ("{", 7), ("0", 8), (",", 9), ("15", 11), ("}", 13), ("x", 14)]);
    }

    #[test]
    fn words_in_errors_are_short_and_printable() {
        assert_eq!(quoted("é'x"), "'é'x'");
        assert_eq!(quoted("a\u{1b}[31m"), "'a<U+001B>[31m'");
        assert_eq!(quoted("s1\u{a0}get\u{200b}\u{feff}\u{202e}"), "'s1<U+00A0>get<U+200B><U+FEFF><U+202E>'");
        assert_eq!(quoted(&"x".repeat(41)), format!("'{}..'", "x".repeat(40)));
    }

    #[test]
    fn numbers_are_plain() {
        assert_eq!(number("15", 15), Some(15));
        for word in ["16", "+1", "01", "", "1x", "00", "-1", "99999999999999999999999"] {
            assert_eq!(number(word, 15), None, "{word}");
        }
    }
}
