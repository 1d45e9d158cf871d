//! Whether the order of gets matters for the state that they leave. The answer is the library's; the two gets that it names are
//! carried out both ways round, and why they are not granted both is said as for any refusal.

use crate::compare::Named;
use crate::difference::differences;
use crate::effect::after;
use crate::explain::{step, Step};
use crate::input::{assembled, error_lines, Input};
use crate::paint::Paint;
use crate::profile::{Profile, Stated};
use crate::properties::{self, Pair};
use crate::refusal;
use crate::request::{reasons_words, Malformed, Request};
use crate::view::View;
use crate::wall::{self, Breach};
use crate::words::{bytes_words, count, reply_words, wrapped};
use circmon::{StartOrder, Unit, MOST_GETS, REQUEST_BYTES};

/// The name of the theorem in docs/THEOREMS.md, as `compare` cites its own.
const PROVED: &str = "This is proved: docs/THEOREMS.md, start order of tasks.";

/// A list of gets with the name of its file.
pub struct Gets {
    name: String,
    requests: Vec<u8>,
    /// the line of each request in the script; none where the input is bytes
    lines: Vec<usize>,
    /// the profile that the script states
    pub profile: Option<Stated>,
}

impl Gets {
    /// The requests of a script, or bytes without a table. An error says what is wrong with the script.
    pub fn new(input: &Input, bytes: bool) -> Result<Gets, String> {
        let name = input.name.clone();
        if bytes {
            return Ok(Gets { name, requests: input.bytes.clone(), lines: Vec::new(), profile: None });
        }
        let script = assembled(input)?;
        let found = [(script.subject_line, "a subject"), (script.table_line, "a table")];
        match found.into_iter().find_map(|(line, what)| Some((line?, what))) {
            Some((line, what)) => {
                Err(format!("{name}:{line}: expected gets alone, found {what}: the image says who is enrolled\n"))
            }
            None => {
                let requests = script.requests().map_err(|errors| error_lines(&name, &errors))?;
                let lines = script.actions.iter().map(|it| it.line).collect();
                Ok(Gets { name, requests, lines, profile: script.profile })
            }
        }
    }

    fn pieces(&self) -> Vec<&[u8]> {
        self.requests.chunks(REQUEST_BYTES).collect()
    }

    /// A short last piece is no get, but it is counted.
    fn count(&self) -> usize {
        self.requests.len().div_ceil(REQUEST_BYTES)
    }

    /// Where a request stands: `line 7` of a script, `request 3` of bytes.
    fn place(&self, at: usize) -> String {
        self.lines.get(at).map_or_else(|| format!("request {}", at + 1), |line| format!("line {line}"))
    }

    /// The same behind the name of the file: `gets.circ:7`, `gets.bin: request 3`.
    fn place_in_file(&self, at: usize) -> String {
        let Gets { name, lines, .. } = self;
        lines.get(at).map_or_else(|| format!("{name}: {}", self.place(at)), |line| format!("{name}:{line}"))
    }
}

pub enum Orders {
    /// all leave equal states
    Agree(String),
    /// not all do
    Matter(String),
    /// the image is refused, or the list is not one of gets
    Trouble(String),
}

/// What the library says of the gets, on the state in the image, under the profile.
pub fn orders(profile: Profile, image: &Named, gets: &Gets, paint: Paint) -> Orders {
    let unit = match Unit::from_image_in(profile, image.bytes) {
        Ok(unit) => unit,
        Err(number) => return Orders::Trouble(refusal::of_image(profile, image.name, image.bytes, number)),
    };
    match unit.clash(&gets.requests) {
        StartOrder::Agree => Orders::Agree(agree(image, gets)),
        StartOrder::Clash { first, second } => matter(image, &unit, gets, [first, second], paint),
        StartOrder::NoGet { at } => Orders::Trouble(no_get(profile, gets, at)),
        StartOrder::TooMany => Orders::Trouble(format!(
            "{}: {} requests, and the orders of at most {MOST_GETS} gets are looked at\n",
            gets.name,
            gets.count()
        )),
    }
}

/// The first line, behind what it says of the order: how many gets, and of which files.
fn about(image: &Named, gets: &Gets) -> String {
    format!("{} of {}, on the state in {}\n", count(gets.count(), "get", "gets"), gets.name, image.name)
}

fn agree(image: &Named, gets: &Gets) -> String {
    format!(
        "the order does not matter: {}All orders of these gets leave equal states, and each get is granted in all of them or refused in all; a \
         grant may say 0 or 1. {PROVED}\n",
        about(image, gets)
    )
}

/// A request of another kind in its words, or bytes, or what is outside the profile, and why they are none.
fn no_get(profile: Profile, gets: &Gets, at: usize) -> String {
    let piece = gets.pieces()[at];
    let found = match Request::decode_in(profile, piece) {
        Ok(request) => format!("'{}'", request.sentence()),
        Err(reasons) if reasons.iter().all(Malformed::is_by_profile) => {
            format!("'{}': {}", bytes_words(piece), reasons_words(&reasons))
        }
        Err(reasons) => format!("{}: {}", bytes_words(piece), reasons_words(&reasons)),
    };
    format!("{}: expected a get, found {found}\n", gets.place_in_file(at))
}

/// What an order of the gets leaves.
struct CarriedOut {
    /// the two gets that come first
    steps: [Step; 2],
    after: View,
}

/// These two come first, and then the others as they stand.
fn carried_out(unit: &Unit, pieces: &[&[u8]], begin: [usize; 2]) -> CarriedOut {
    let mut unit = unit.clone();
    let steps = begin.map(|at| step(&mut unit, pieces[at]));
    for (at, piece) in pieces.iter().enumerate() {
        if !begin.contains(&at) {
            unit.ask(piece);
        }
    }
    CarriedOut { steps, after: View::of(&unit) }
}

fn matter(image: &Named, unit: &Unit, gets: &Gets, two: [usize; 2], paint: Paint) -> Orders {
    let pieces = gets.pieces();
    let begins = [two, [two[1], two[0]]];
    let [a, b] = begins.map(|begin| carried_out(unit, &pieces, begin));
    let places = differences(&a.after, &b.after);
    if places.is_empty() {
        return Orders::Trouble("two orders that must differ leave equal states; please report it\n".to_string());
    }
    let mut text = format!("the order matters: {}", about(image, gets));
    text.push_str(PROVED);
    text.push_str(&format!("\n\n{}\n", paint.heading("two gets, each granted if it came alone, and never both")));
    for at in two {
        text.push_str(&format!("  {}: {}\n", gets.place(at), bytes_words(pieces[at])));
    }
    for reason in reasons(&View::of(unit), two.map(|at| pieces[at])) {
        text.push_str(&wrapped(&reason, "        ", 100));
    }
    for ((name, begin), order) in ["A", "B"].into_iter().zip(begins).zip([&a, &b]) {
        text.push_str(&format!("\n{}\n", paint.heading(&heading(name, gets, begin))));
        text.push_str(&replies(&order.steps, paint));
    }
    text.push_str(&format!("\n{}\n", paint.heading(&different(places.len()))));
    places.iter().for_each(|place| text.push_str(&format!("  {place}\n")));
    Orders::Matter(text)
}

/// `A: line 5, line 7, then the others as they stand`
fn heading(name: &str, gets: &Gets, [first, second]: [usize; 2]) -> String {
    let others = if gets.count() > 2 { ", then the others as they stand" } else { "" };
    format!("{name}: {}, {}{others}", gets.place(first), gets.place(second))
}

fn different(places: usize) -> String {
    format!("the states that A and B leave, different in {}", count(places, "place", "places"))
}

fn replies(steps: &[Step; 2], paint: Paint) -> String {
    let width = steps.iter().map(|step| step.request.chars().count()).max().unwrap_or(0);
    let line = |step: &Step| {
        let reply = reply_words(step.reply);
        let reply = if step.reply > 1 { paint.refusal(&reply) } else { reply };
        format!("  {:<width$}  {reply}\n", step.request)
    };
    steps.iter().map(line).collect()
}

/// Of the star property which label would have to dominate which, and how they compare; of the wall which companies stand against
/// each other: found in the state with both accesses.
fn reasons(before: &View, pieces: [&[u8]; 2]) -> Vec<String> {
    let [Ok(one), Ok(other)] = pieces.map(Request::decode) else { return no_reason() };
    let both = after(&after(before, &one), &other);
    let star = |pair: &Pair| {
        let (read, written) = (pair.read.object, pair.written.object);
        let words = pair.words("would hold");
        format!("the star property: the label of o{written} would have to dominate that of o{read}: {words}")
    };
    let wall = |breach: &Breach| format!("the wall of competing companies: {}", breach.words("would hold"));
    let broken = properties::star(&both).iter().map(star).chain(wall::breaches(&both).iter().map(wall)).collect();
    if Vec::is_empty(&broken) {
        no_reason()
    } else {
        broken
    }
}

/// Must not happen, and must not pass for an explanation.
fn no_reason() -> Vec<String> {
    vec!["circtool finds no cause for this answer; please report it".to_string()]
}
