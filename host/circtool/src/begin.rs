//! A unit begun from an input: a script, or bytes as the program `circmon` reads them.

use crate::action::Action;
use crate::fault::former_image;
use crate::input::{assembled, form, is_text, Form, Input};
use crate::outcome::{refused, trouble, Step};
use crate::profile::{one_of, Profile};
use crate::refusal;
use crate::words::refusal_words;
use circmon::{Unit, IMAGE_BYTES, REQUEST_BYTES, TABLE_BYTES};

/// A unit begun from the table of a script or of bytes, and the actions behind it.
pub struct Begun {
    pub unit: Unit,
    pub actions: Vec<Action>,
    /// the line of each action in the script; none where the input is bytes
    pub lines: Vec<usize>,
    /// what is to be said of the form in which the input was taken
    pub remark: String,
}

/// Begins in the form that was asked for, or in the one that the input has; without a form asked for, an image is not begun. The
/// profile is the one that is given, or the one that the script states, or the widest.
pub fn begin(input: &Input, asked: Option<Form>, given: Option<Profile>) -> Step<Begun> {
    match asked.unwrap_or_else(|| form(&input.bytes)) {
        Form::Script => begin_script(input, given),
        Form::Bytes => {
            let remark = if asked.is_none() { image_message(&input.name, &input.bytes) } else { String::new() };
            if asked.is_none() && matches!(beside(&input.bytes), Beside::Image | Beside::FormerImage(_)) {
                return Err(trouble(remark));
            }
            let (table, requests) = input.bytes.split_at(input.bytes.len().min(TABLE_BYTES));
            let unit = begin_table(given.unwrap_or(Profile::WIDEST), &input.name, table)
                .map_err(|outcome| outcome.with(&remark))?;
            Ok(Begun { unit, actions: Action::all_in(requests), lines: Vec::new(), remark })
        }
    }
}

/// Where a table that is given by its bytes is refused, its line is named.
fn begin_script(input: &Input, given: Option<Profile>) -> Step<Begun> {
    let script = assembled(input).map_err(trouble)?;
    let profile = one_of(given, script.profile, &input.name).map_err(trouble)?;
    let name = script.table_line.map_or(input.name.clone(), |line| format!("{}:{line}", input.name));
    let unit = begin_table(profile, &name, &script.table)?;
    let (actions, lines) = script.actions.into_iter().map(|it| (it.action, it.line)).unzip();
    Ok(Begun { unit, actions, lines, remark: String::new() })
}

fn begin_table(profile: Profile, name: &str, table: &[u8]) -> Step<Unit> {
    Unit::from_table_in(profile, table).map_err(|number| refused(refusal::of_table(profile, name, table, number)))
}

/// What bytes may be beside a table and requests.
pub enum Beside {
    /// the reader accepts them as an image
    Image,
    /// they have the size of an image, which a table with 236 requests has too, and the reader refuses them with this number
    NoImage(u8),
    /// they have the size of images that were written before, and no whole run has it: how these are called
    FormerImage(&'static str),
    Nothing,
}

/// An image is taken for one only where the reader accepts it: 1,458 bytes are also 42 of a table and 236 requests. A run that
/// begins with a request of kind 1 to 7 is never accepted, since the first bit behind the table, which says whether o0 is live,
/// is then 0 and another bit of its record 1. An image of a narrower profile is accepted under the widest one too.
pub fn beside(bytes: &[u8]) -> Beside {
    match (bytes.len(), former_image(bytes.len())) {
        _ if is_text(bytes) => Beside::Nothing,
        (IMAGE_BYTES, _) => match circmon::read(bytes) {
            0 => Beside::Image,
            number => Beside::NoImage(number),
        },
        (_, Some(from)) => Beside::FormerImage(from),
        _ => Beside::Nothing,
    }
}

/// What is said of bytes that are, or may be, an image; nothing of others.
pub fn image_message(name: &str, bytes: &[u8]) -> String {
    let (length, requests) = (bytes.len(), (IMAGE_BYTES - TABLE_BYTES) / REQUEST_BYTES);
    let show = "'circtool show' prints the state in an image; a run and a load begin from a table";
    match beside(bytes) {
        Beside::Image => format!(
            "{name}: {length} bytes that are accepted as an image are taken for one, and not for a table and {requests} requests\n  {show}\n"
        ),
        Beside::NoImage(number) => format!(
            "{name}: {length} bytes, taken for a table and {requests} requests: as an image they are refused with {}\n  \
             'circtool show' says where\n",
            refusal_words(number)
        ),
        Beside::FormerImage(from) => format!(
            "{name}: {length} bytes are the size of images {from}, and no table with whole requests behind it\n  {show}\n"
        ),
        Beside::Nothing => String::new(),
    }
}
