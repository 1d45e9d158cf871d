//! Two images: equal, or where they differ and the requests that show it.

use crate::difference::differences;
use crate::explain::{step, Step};
use crate::paint::Paint;
use crate::profile::{profile_words, Profile};
use crate::refusal;
use crate::view::View;
use crate::words::{count, reply_words, wrapped};
use circmon::{distinguish_in, Unit, DISTINGUISH_BYTES, REQUEST_BYTES};

/// Over the list of requests.
const HEADING: &str = "requests on which the two reply differently (at most four requests, proved)";

/// An image with the name of its file.
pub struct Named<'a> {
    pub name: &'a str,
    pub bytes: &'a [u8],
}

pub enum Comparison {
    Equal(String),
    Different(String),
    /// an image is refused
    Trouble(String),
}

/// What the library finds under the profile: equal, or a list of requests with what each of the two replies.
pub fn compare(profile: Profile, a: &Named, b: &Named, paint: Paint) -> Comparison {
    let refused = |name: &str, image: &Named, number: u8| {
        let name = format!("{name}, {}", image.name);
        Comparison::Trouble(refusal::of_image(profile, &name, image.bytes, number))
    };
    let mut requests = [0; DISTINGUISH_BYTES];
    match distinguish_in(profile, a.bytes, b.bytes, &mut requests) {
        0 if a.bytes == b.bytes => Comparison::Equal(equal(profile, a, b)),
        number @ 1..=4 => different(profile, a, b, &requests[..usize::from(number) * REQUEST_BYTES], paint),
        number @ 129..=191 => refused("A", a, number - 128),
        number @ 193..=255 => refused("B", b, number - 192),
        // must not happen: it is proved that equal images alone give 0, that the profile is in its ranges and the buffer long enough
        number => Comparison::Trouble(format!("no list of requests was found (number {number}); please report it\n")),
    }
}

/// `, under the profile subjects 4 ..`; nothing of the widest.
fn under(profile: Profile) -> String {
    if profile == Profile::WIDEST {
        String::new()
    } else {
        format!(", under the profile {}", profile_words(profile))
    }
}

fn equal(profile: Profile, a: &Named, b: &Named) -> String {
    format!(
        "equal: {} and {}{}\n\
         Every further list of requests draws the same replies from both. \
         This is proved: docs/THEOREMS.md, equal images.\n",
        a.name,
        b.name,
        under(profile)
    )
}

fn different(profile: Profile, a: &Named, b: &Named, requests: &[u8], paint: Paint) -> Comparison {
    let [first, second] = [a, b].map(|it| Unit::from_image_in(profile, it.bytes));
    let (Ok(mut first), Ok(mut second)) = (first, second) else {
        return Comparison::Trouble("an image that was accepted is refused; please report it\n".to_string());
    };
    let places = differences(&View::new(a.bytes), &View::new(b.bytes));
    let mut text = format!("A: {}\nB: {}\n\n", a.name, b.name);
    text.push_str(&paint.heading(&format!(
        "different in {}{}",
        count(places.len(), "place", "places"),
        under(profile)
    )));
    text.push('\n');
    for place in &places {
        text.push_str(&format!("  {place}\n"));
    }
    text.push_str(&format!("\n{}\n", paint.heading(HEADING)));
    let mut told = false;
    for (at, request) in requests.chunks(REQUEST_BYTES).enumerate() {
        let (in_a, in_b) = (step(&mut first, request), step(&mut second, request));
        told |= in_a.reply != in_b.reply;
        text.push_str(&both_replies(at + 1, &in_a, &in_b, paint));
    }
    if told {
        Comparison::Different(text)
    } else {
        Comparison::Trouble("the list of requests draws the same replies from both; please report it\n".to_string())
    }
}

fn both_replies(number: usize, a: &Step, b: &Step, paint: Paint) -> String {
    let mark = if a.reply == b.reply { String::new() } else { paint.refusal("   <- different") };
    let mut text = format!("{number:>4}  {}{mark}\n", a.request);
    for (name, step) in [("A", a), ("B", b)] {
        text.push_str(&format!("        {name}: {}\n", reply_words(step.reply)));
        if let Some(note) = &step.note {
            text.push_str(&wrapped(note, "           ", 100));
        }
    }
    text
}
