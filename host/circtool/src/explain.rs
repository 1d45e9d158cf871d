//! A run as a table for people: each request and taking-back with its number in words, and for each refusal its cause.

use crate::action::Action;
use crate::cause::{judge, Verdict};
use crate::paint::Paint;
use crate::request::{Kind, Request};
use crate::show::{profile_lines, subject_lines};
use crate::taking_back::{Journal, TakenBack};
use crate::tree::below;
use crate::view::View;
use crate::words::{bytes_words, count, reply_words, taken_back_words, wrapped};
use circmon::Unit;

/// One request of a run.
#[derive(Clone, Debug, PartialEq, Eq)]
pub struct Step {
    pub request: String,
    /// the library's reply
    pub reply: u8,
    /// why it is a refusal, or what a delete took with it
    pub note: Option<String>,
}

/// What stands in place of a cause where none is found: that must not happen, and must not pass for an explanation.
pub const NO_CAUSE: &str = "circtool finds no cause for this number; please report it";

/// Carries out the request on the unit; the reply is the unit's, the note is found in the state before it.
pub fn step(unit: &mut Unit, bytes: &[u8]) -> Step {
    let before = View::of(unit);
    let reply = unit.ask(bytes);
    let note = match judge(&before, bytes) {
        _ if reply <= 1 => taken_words(&before, bytes),
        Verdict::Refused(cause) if cause.number() == reply => Some(cause.to_string()),
        _ => Some(NO_CAUSE.to_string()),
    };
    Step { request: bytes_words(bytes), reply, note }
}

/// What a delete takes beside its object; nothing where it takes no other, and of every other request.
fn taken_words(before: &View, bytes: &[u8]) -> Option<String> {
    let request = Request::decode(bytes).ok().filter(|it| it.kind == Kind::Delete)?;
    let mut objects: Vec<usize> = below(before, request.object).into_iter().map(|(object, _)| object).collect();
    objects.sort_unstable();
    let names: Vec<String> = objects.iter().map(|object| format!("o{object}")).collect();
    let goes = if names.len() == 1 { "goes" } else { "go" };
    let words = format!("{} below it {goes} with it: {}", count(names.len(), "object", "objects"), names.join(", "));
    (!names.is_empty()).then_some(words)
}

/// One action of a run, carried out.
#[derive(Clone, Debug, PartialEq, Eq)]
pub enum Carried {
    Request(Step),
    TakenBack(TakenBack),
}

impl Carried {
    /// What was asked for.
    fn asked(&self) -> &str {
        match self {
            Carried::Request(step) => &step.request,
            Carried::TakenBack(_) => "take back",
        }
    }

    /// The number in words, and whether it is a refusal.
    fn answer(&self) -> (String, bool) {
        match self {
            Carried::Request(step) => (reply_words(step.reply), step.reply > 1),
            Carried::TakenBack(it) => (taken_back_words(it.number), it.number != 0),
        }
    }

    /// What stands below it.
    fn note(&self) -> Option<&str> {
        match self {
            Carried::Request(step) => step.note.as_deref(),
            Carried::TakenBack(it) => Some(&it.note),
        }
    }
}

/// The actions of a run, one after the other.
pub fn carried_out(unit: &mut Unit, actions: &[Action]) -> Vec<Carried> {
    let mut journal = Journal::default();
    let carry_out = |(at, action): (usize, &Action)| match action {
        Action::TakeBack => Carried::TakenBack(journal.take_back(unit)),
        Action::Request(bytes) => {
            let before = View::of(unit);
            let mut step = step(unit, bytes);
            if let (0, Ok(request)) = (step.reply, Request::decode(bytes)) {
                let emptied = journal.enter(at + 1, request, before);
                step.note = step.note.map(|note| note + emptied);
            }
            Carried::Request(step)
        }
    };
    actions.iter().enumerate().map(carry_out).collect()
}

/// The whole text: the profile where it is not the widest, the subjects, a row for each action with its note below, and a count.
/// Where the actions come from a script, the line of each stands beside the step; else there are no lines.
pub fn explain(unit: &mut Unit, actions: &[Action], lines: &[usize], paint: Paint) -> String {
    let before = View::of(unit);
    let all = carried_out(unit, actions);
    let width = all.iter().map(|it| it.asked().chars().count()).max().unwrap_or(0).max("request".len());
    let line_heading = if lines.is_empty() { "" } else { "  line" };
    let mut text = profile_lines(before.profile, paint);
    text.push_str(&format!("{}\n{}\n", paint.heading("subjects"), subject_lines(&before)));
    text.push_str(&paint.heading(&format!("step{line_heading}  {:<width$}  reply", "request")));
    text.push('\n');
    for (at, it) in all.iter().enumerate() {
        let line = lines.get(at).map_or(String::new(), |line| format!("  {line:>4}"));
        text.push_str(&row(&format!("{:>4}{line}", at + 1), it, width, paint));
    }
    text.push('\n');
    text.push_str(&summary(&all));
    text
}

fn row(start: &str, carried: &Carried, width: usize, paint: Paint) -> String {
    let (answer, refused) = carried.answer();
    let answer = if refused { paint.refusal(&answer) } else { answer };
    let mut row = format!("{start}  {:<width$}  {answer}\n", carried.asked());
    if let Some(note) = carried.note() {
        row.push_str(&wrapped(note, "        ", 100));
    }
    row
}

/// The requests, and behind them the takings-back where there are any.
fn summary(all: &[Carried]) -> String {
    let (mut requests, mut granted, mut already, mut taken_back) = (0, 0, 0, Vec::new());
    for carried in all {
        match carried {
            Carried::Request(Step { reply, .. }) => {
                requests += 1;
                granted += usize::from(*reply <= 1);
                already += usize::from(*reply == 1);
            }
            Carried::TakenBack(it) => taken_back.push(it.number),
        }
    }
    let how_many = count(requests, "request", "requests");
    let refused = requests - granted;
    let restored = taken_back.iter().filter(|&&number| number == 0).count();
    let behind = match taken_back.len() {
        0 => String::new(),
        all => format!(
            "; {}: {restored} carried out, {} refused",
            count(all, "taking-back", "takings-back"),
            all - restored
        ),
    };
    format!("{how_many}: {granted} granted ({already} of them so already), {refused} refused{behind}\n")
}
