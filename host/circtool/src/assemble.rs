//! A script to its table and actions, and to the bytes that the program `circmon` reads: 42 bytes of table, then six for each
//! request.

use crate::action::Action;
use crate::kinds::{Row, Takes};
use crate::level::Level;
use crate::mode::Mode;
use crate::phrases::{companies, level, mode, numbered, object, profile, under, with_execute};
use crate::profile::Stated;
use crate::request::{Kind, Parts, Request};
use crate::script::{number, Line, ScriptError, MARK};
use crate::view::{View, SUBJECTS};
use circmon::{REQUEST_BYTES, TABLE_BYTES};

/// An action with the place of its line.
#[derive(Clone, Debug, PartialEq, Eq)]
pub struct Placed {
    pub action: Action,
    pub line: usize,
    column: usize,
}

/// What a script says, and where in it.
#[derive(Clone, Debug, PartialEq, Eq)]
pub struct Assembled {
    pub table: Vec<u8>,
    /// one for each line behind the table
    pub actions: Vec<Placed>,
    /// the profile, which has no bytes
    pub profile: Option<Stated>,
    /// the line that gives the table by its bytes
    pub table_line: Option<usize>,
    /// the first line that enrols a subject
    pub subject_line: Option<usize>,
}

/// What the lines up to here have said.
#[derive(Default)]
struct Assembly {
    profile: Option<Stated>,
    subjects: [Option<Level>; SUBJECTS],
    subject_line: Option<usize>,
    /// the table by its bytes
    table: Option<Vec<u8>>,
    table_line: Option<usize>,
    actions: Vec<Placed>,
    /// whether a line behind the table was met, also one with an error
    any_action: bool,
    /// where a piece stood that only the last line may have: nothing may follow it
    last: Option<ScriptError>,
}

/// The bytes of a script alone.
pub fn assemble(script: &str) -> Result<Vec<u8>, Vec<ScriptError>> {
    assembled(script)?.bytes()
}

impl Assembled {
    /// The table and the requests.
    pub fn bytes(&self) -> Result<Vec<u8>, Vec<ScriptError>> {
        Ok([&self.table[..], &self.requests()?].concat())
    }

    /// The requests one behind the other, or an error for each line that is none.
    pub fn requests(&self) -> Result<Vec<u8>, Vec<ScriptError>> {
        let (mut requests, mut errors) = (Vec::new(), Vec::new());
        for Placed { action, line, column } in &self.actions {
            match action {
                Action::Request(bytes) => requests.extend(bytes),
                Action::TakeBack => {
                    errors.push(ScriptError { line: *line, column: *column, message: NO_BYTES.to_string() })
                }
            }
        }
        if errors.is_empty() {
            Ok(requests)
        } else {
            Err(errors)
        }
    }
}

const NO_BYTES: &str = "taking back is no request and has no bytes; 'circtool run' and 'circtool explain' carry it out";

/// What a script says, or every error in it, in the order of its lines. A byte-order mark before it is left out.
pub fn assembled(script: &str) -> Result<Assembled, Vec<ScriptError>> {
    let mut assembly = Assembly::default();
    let mut errors = Vec::new();
    for (at, text) in script.strip_prefix(MARK).unwrap_or(script).lines().enumerate() {
        let mut line = Line::new(at + 1, text);
        if line.is_empty() {
            continue;
        }
        // the piece before was not the last; it is said once
        errors.extend(assembly.last.take());
        errors.extend(assembly.line(&mut line).err());
    }
    if errors.is_empty() {
        Ok(assembly.whole())
    } else {
        errors.sort_by_key(|error| (error.line, error.column));
        Err(errors)
    }
}

impl Assembly {
    fn whole(self) -> Assembled {
        let Assembly { subjects, table, actions, profile, table_line, subject_line, .. } = self;
        let table = table.unwrap_or_else(|| View::table(&subjects).to_vec());
        Assembled { table, actions, profile, table_line, subject_line }
    }

    fn add(&mut self, line: &Line, action: Action) {
        self.actions.push(Placed { action, line: line.number, column: line.start() });
    }

    fn line(&mut self, line: &mut Line) -> Result<(), ScriptError> {
        match line.peek().map(|word| word.text) {
            Some("profile") => self.profile(line),
            Some("subject") => self.subject(line),
            Some("table-bytes") => self.table_bytes(line),
            Some("bytes") => self.raw(line),
            Some("take") => self.take_back(line),
            _ => {
                // a line with an error further on is a request too: the subjects stand before it
                self.any_action |= line.peek().is_some_and(|word| numbered(word.text, 's', SUBJECTS).is_some());
                let bytes = request(line)?.encode();
                self.add(line, Action::Request(bytes.to_vec()));
                Ok(())
            }
        }
    }

    fn profile(&mut self, line: &mut Line) -> Result<(), ScriptError> {
        if self.profile.is_some() {
            return Err(line.error("the profile stands once".to_string()));
        }
        if self.subject_line.is_some() || self.table.is_some() || self.any_action {
            return Err(line.error("the profile stands before the subjects, the requests and takings-back".to_string()));
        }
        line.keyword("profile")?;
        self.profile = Some(Stated { line: line.number, profile: profile(line)? });
        Ok(())
    }

    fn subject(&mut self, line: &mut Line) -> Result<(), ScriptError> {
        if self.any_action {
            return Err(line.error("the subjects stand before the first request or taking-back".to_string()));
        }
        if self.table.is_some() {
            return Err(line.error("expected no subject, since table-bytes gives the whole table".to_string()));
        }
        self.subject_line = self.subject_line.or(Some(line.number));
        line.keyword("subject")?;
        let twice = line.error("this subject stands twice".to_string());
        let subject = line.take("a subject number (0 to 15)", |word| number(word, SUBJECTS - 1))?;
        let clearance = level(line)?;
        match self.subjects[subject].replace(clearance) {
            None => Ok(()),
            Some(_) => Err(twice),
        }
    }

    fn table_bytes(&mut self, line: &mut Line) -> Result<(), ScriptError> {
        if self.subject_line.is_some() || self.any_action || self.table.is_some() {
            return Err(line.error("table-bytes gives the whole table and stands first, once".to_string()));
        }
        self.table = Some(Vec::new());
        self.table_line = Some(line.number);
        line.keyword("table-bytes")?;
        let table = match line.peek() {
            Some(word) if word.text == "none" => {
                line.keyword("none")?;
                line.finish()?;
                Vec::new()
            }
            _ => hex_bytes(line, TABLE_BYTES)?,
        };
        if table.len() < TABLE_BYTES {
            self.last = Some(line.error_at_start(format!(
                "expected {TABLE_BYTES} bytes, found {}: a shorter table stands only in the last line, \
                 since circmon takes the first {TABLE_BYTES} bytes as the table",
                table.len()
            )));
        }
        self.table = Some(table);
        Ok(())
    }

    fn raw(&mut self, line: &mut Line) -> Result<(), ScriptError> {
        self.any_action = true;
        line.keyword("bytes")?;
        let bytes = hex_bytes(line, REQUEST_BYTES)?;
        if bytes.len() < REQUEST_BYTES {
            self.last = Some(line.error_at_start(format!(
                "expected {REQUEST_BYTES} bytes, found {}: a shorter piece stands only in the last line, \
                 since circmon cuts its input into pieces of {REQUEST_BYTES} bytes",
                bytes.len()
            )));
        }
        self.add(line, Action::Request(bytes));
        Ok(())
    }

    fn take_back(&mut self, line: &mut Line) -> Result<(), ScriptError> {
        self.any_action = true;
        line.keyword("take")?;
        line.keyword("back")?;
        line.finish()?;
        self.add(line, Action::TakeBack);
        Ok(())
    }
}

/// The bytes up to the end of the line: at least one, at most `most`.
fn hex_bytes(line: &mut Line, most: usize) -> Result<Vec<u8>, ScriptError> {
    let mut bytes = Vec::new();
    while bytes.is_empty() || line.peek().is_some() {
        if bytes.len() == most {
            return Err(line.unexpected(&format!("the end of the line after {most} bytes")));
        }
        bytes.push(line.take("a byte (two hexadecimal digits)", hex_byte)?);
    }
    Ok(bytes)
}

fn hex_byte(word: &str) -> Option<u8> {
    let plain = word.len() == 2 && word.bytes().all(|byte| byte.is_ascii_hexdigit());
    plain.then(|| u8::from_str_radix(word, 16).ok())?
}

const VERBS: &str = "a request (create, get, release, give, rescind, delete, level or companies)";

/// `s1 get r o0` and the others: the parts that the kind uses, each in its place.
fn request(line: &mut Line) -> Result<Request, ScriptError> {
    let first = "a subject (s0 to s15), 'take back', 'profile', 'subject', 'bytes' or 'table-bytes'";
    let actor = line.take(first, |word| numbered(word, 's', SUBJECTS))?;
    let row = line.take(VERBS, Row::of_name)?;
    let mut parts = Parts::NONE;
    if row.other {
        parts.other = line.take("a subject (s0 to s15)", |word| numbered(word, 's', SUBJECTS))?;
    }
    if row.mode == Takes::OneMode {
        parts.mode = Some(mode(line)?);
    }
    let object = object(line)?;
    if row.parent {
        parts.parent = under(line)?;
    }
    if row.mode == Takes::Execute {
        parts.mode = with_execute(line)?.then_some(Mode::Execute);
    }
    if row.class || row.needs {
        parts.level = level(line)?;
    }
    if row.companies {
        parts.companies = companies(line)?;
    }
    line.finish()?;
    match Kind::new(row.number, parts) {
        Some(kind) => Ok(Request { actor, object, kind }),
        None => Err(line.error_at_start(format!("no request of the kind {}; please report it", row.name))),
    }
}

#[cfg(test)]
mod tests {
    use super::VERBS;
    use crate::kinds::KINDS;

    #[test]
    fn the_error_names_every_kind() {
        let named: Vec<&str> = VERBS.split(['(', ')', ',', ' ']).collect();
        assert!(KINDS.iter().all(|row| named.contains(&row.name)), "{VERBS}");
    }
}
