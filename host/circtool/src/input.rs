//! What is read from files and standard input: scripts, and bytes as the program `circmon` reads them.

use crate::assemble::{self, Assembled};
use crate::script::{ScriptError, MARK};
use circmon::{Unit, TABLE_BYTES};
use std::ffi::OsStr;
use std::io::Read;

/// As many errors of one script as are printed.
const MOST_ERRORS: usize = 20;

/// The name and the bytes of an input.
pub struct Input {
    pub name: String,
    pub bytes: Vec<u8>,
}

/// Reads the file, or standard input where there is none or it is `-`.
pub fn read(file: Option<&OsStr>, standard_input: &mut dyn Read) -> Result<Input, String> {
    let mut bytes = Vec::new();
    let (name, result) = match file {
        Some(file) if file != "-" => {
            let opened = std::fs::File::open(file).and_then(|mut it| it.read_to_end(&mut bytes));
            (file.to_string_lossy().into_owned(), opened)
        }
        _ => ("<stdin>".to_string(), standard_input.read_to_end(&mut bytes)),
    };
    match result {
        Ok(_) => Ok(Input { name, bytes }),
        Err(error) => Err(format!("circtool: cannot read {name}: {error}\n")),
    }
}

#[derive(Clone, Copy, Debug, PartialEq, Eq)]
pub enum Form {
    Script,
    Bytes,
}

/// What an input is, from its first byte. The table's first record either is absent, then the first byte of an accepted
/// table is 00, or it is enrolled, then that byte is 80 or above; and no script begins with such a byte but one with a
/// byte-order mark before it, which counts as a script unless an accepted table begins so. So no input that has an
/// accepted table is taken for a script. An empty input is bytes: a table that is too short, as `circmon` takes it.
pub fn form(bytes: &[u8]) -> Form {
    match bytes.first() {
        Some(_) if bytes.starts_with(MARK.as_bytes()) && !has_table(bytes) => Form::Script,
        None | Some(0x00 | 0x80..) => Form::Bytes,
        Some(_) => Form::Script,
    }
}

fn has_table(bytes: &[u8]) -> bool {
    bytes.get(..TABLE_BYTES).is_some_and(|table| Unit::from_table(table).is_ok())
}

/// Whether the bytes are text, as no table that means something is: UTF-8 and no control character but white space.
pub fn is_text(bytes: &[u8]) -> bool {
    let plain = |letter: char| !letter.is_control() || letter.is_ascii_whitespace();
    std::str::from_utf8(bytes).is_ok_and(|text| !text.is_empty() && text.chars().all(plain))
}

/// What the script stands for, or its errors, a line for each.
pub fn assembled(input: &Input) -> Result<Assembled, String> {
    let script = std::str::from_utf8(&input.bytes).map_err(|error| {
        let error = not_text(&input.bytes, error.valid_up_to());
        format!("{}:{error}\n", input.name)
    })?;
    assemble::assembled(script).map_err(|errors| error_lines(&input.name, &errors))
}

fn not_text(bytes: &[u8], at: usize) -> ScriptError {
    let before = String::from_utf8_lossy(&bytes[..at]);
    let line = before.matches('\n').count() + 1;
    let column = before.rsplit('\n').next().unwrap_or_default().chars().count() + 1;
    ScriptError { line, column, message: format!("expected UTF-8 text, found the byte {:02X}", bytes[at]) }
}

pub fn error_lines(name: &str, errors: &[ScriptError]) -> String {
    let mut lines: String = errors.iter().take(MOST_ERRORS).map(|error| format!("{name}:{error}\n")).collect();
    if errors.len() > MOST_ERRORS {
        lines.push_str(&format!("{name}: and {} more errors\n", errors.len() - MOST_ERRORS));
    }
    lines
}
