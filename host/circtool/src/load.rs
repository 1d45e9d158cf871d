//! Loads from a seed, each as the library makes it, as a script or as bytes.

use crate::arguments::Arguments;
use crate::begin::begin;
use crate::disassemble::{disassemble, request_lines};
use crate::input::{form, is_text, Form, Input};
use crate::outcome::{trouble, Step};
use crate::profile::Profile;
use crate::script::{number, quoted};
use crate::words::{count, load_words};
use circmon::{REQUEST_BYTES, TABLE_BYTES};
use std::ffi::OsStr;

/// As many requests as one call writes.
const MOST: usize = 1_000_000;

/// What the words of the command line ask for.
pub struct Asked {
    seed: u32,
    count: usize,
    bytes: bool,
}

pub fn asked(arguments: &Arguments) -> Result<Asked, String> {
    let [seed, count] = arguments.files.as_slice() else {
        return Err("expected a seed and a count".to_string());
    };
    // that 0 is no seed is said by the library
    let most_seed = u32::MAX as usize;
    let seed = decimal(&format!("a seed (1 to {most_seed})"), seed, most_seed)? as u32;
    let count = decimal(&format!("a count (0 to {MOST})"), count, MOST)?;
    Ok(Asked { seed, count, bytes: arguments.has("--bytes") })
}

fn decimal(expected: &str, word: &OsStr, most: usize) -> Result<usize, String> {
    let word = word.to_string_lossy();
    number(&word, most).ok_or_else(|| format!("expected {expected}, found {}", quoted(&word)))
}

/// A table that a load is put behind, and what is to be said of the form in which it was taken.
pub struct Table {
    pub bytes: Vec<u8>,
    pub remark: String,
}

/// The table of a script or of bytes; the requests behind it are left out. A profile would be lost: a load has a line for each
/// request and each subject, and is sure to be well formed under the widest profile only.
pub fn table(input: &Input) -> Step<Table> {
    let begun = begin(input, None, None).map_err(|outcome| {
        let text = form(&input.bytes) == Form::Bytes && is_text(&input.bytes);
        outcome.with(if text {
            "  it looks like a script, but no script begins with its first character\n"
        } else {
            ""
        })
    })?;
    if begun.unit.profile() != Some(Profile::WIDEST) {
        let name = &input.name;
        return Err(trouble(format!("{name}: a load is for the widest profile, and this script has a narrower one\n")));
    }
    // an image begins with the table
    Ok(Table { bytes: begun.unit.image()[..TABLE_BYTES].to_vec(), remark: begun.remark })
}

/// The load as it is asked for, behind the table where there is one. An error says why it is refused.
pub fn load(asked: &Asked, table: Option<&[u8]>) -> Result<Vec<u8>, String> {
    let mut requests = vec![0; asked.count * REQUEST_BYTES];
    let loaded = circmon::load(asked.seed, &mut requests);
    if loaded.number != 0 {
        return Err(format!("circtool load: refused with {}\n", load_words(loaded.number)));
    }
    assert_eq!(loaded.count, asked.count as u64, "it is proved that a buffer is filled with whole requests");
    let bytes = [table.unwrap_or_default(), &requests].concat();
    if asked.bytes {
        return Ok(bytes);
    }
    let lines = match table {
        Some(_) => disassemble(&bytes),
        None if bytes.is_empty() => String::new(),
        None => format!("\n{}", request_lines(&bytes)),
    };
    Ok((heading(asked) + &lines).into_bytes())
}

/// Whoever reads the script sees from what its requests were made; the subjects stand in it.
fn heading(asked: &Asked) -> String {
    let Asked { seed, count: requests, .. } = asked;
    let how_many = count(*requests, "request", "requests");
    format!("# {how_many} from seed {seed}, made by 'circtool load {seed} {requests}'\n")
}
