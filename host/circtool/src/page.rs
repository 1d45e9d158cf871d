//! The access pages of objects, each as the library writes it.

use crate::arguments::Arguments;
use crate::input::Input;
use crate::paint::Paint;
use crate::phrases::{numbered, OBJECT};
use crate::profile::{beyond_objects, has_object, Profile};
use crate::refusal;
use crate::request::Malformed;
use crate::script::quoted;
use crate::show::object_line;
use crate::view::{View, OBJECTS};
use crate::words::reply_words;
use circmon::{Unit, PAGE_BYTES};

/// Which objects a call asks for.
pub enum Asked {
    /// in the order in which they are named
    Named(Vec<usize>),
    /// every live one
    All,
}

/// What the words of the command line ask for: the first names the image, the others the objects.
pub fn asked(arguments: &Arguments) -> Result<Asked, String> {
    let words = arguments.files.get(1..).unwrap_or_default();
    match (arguments.has("--all"), words.is_empty()) {
        (true, true) => Ok(Asked::All),
        (true, false) => {
            Err(format!("expected nothing behind the image and --all, found {}", quoted(&words[0].to_string_lossy())))
        }
        (false, true) => Err(format!("expected an image and {OBJECT} behind it, or --all")),
        (false, false) => {
            let objects: Result<_, _> = words.iter().map(|word| named(&word.to_string_lossy())).collect();
            objects.map(Asked::Named)
        }
    }
}

fn named(word: &str) -> Result<usize, String> {
    match numbered(word, 'o', 1 << 32) {
        Some(object) if object < OBJECTS => Ok(object),
        Some(object) => Err(Malformed::Object(object as u32).to_string()),
        None => Err(format!("expected {OBJECT}, found {}", quoted(word))),
    }
}

/// The pages, each under a line with the object's owner and label. An error says why the image is refused, or of which objects
/// there is no page.
pub fn pages(profile: Profile, input: &Input, asked: &Asked, paint: Paint) -> Result<Vec<u8>, String> {
    let unit = Unit::from_image_in(profile, &input.bytes)
        .map_err(|number| refusal::of_image(profile, &input.name, &input.bytes, number))?;
    let view = View::new(&input.bytes);
    let objects = match asked {
        Asked::Named(objects) => objects.clone(),
        Asked::All => view.live().map(|(object, _)| object).collect(),
    };
    let (mut pages, mut refused) = (Vec::new(), String::new());
    for object in objects {
        let mut page = [0; PAGE_BYTES];
        match unit.page(object as u8, &mut page) {
            0 => pages.push([heading(&view, object, paint).as_bytes(), &page].concat()),
            number => {
                let why = if has_object(profile, object) { String::new() } else { beyond(profile, object) };
                refused.push_str(&format!("{}: page of o{object}: {}{why}\n", input.name, reply_words(number)));
            }
        }
    }
    if !refused.is_empty() {
        return Err(refused);
    }
    Ok(if pages.is_empty() { b"no object is live\n".to_vec() } else { pages.join(&b'\n') })
}

/// Why an object beyond the profile is not live.
fn beyond(profile: Profile, object: usize) -> String {
    format!("; object o{object} {}", beyond_objects(profile))
}

fn heading(view: &View, object: usize, paint: Paint) -> String {
    let record = view.objects[object].as_ref().expect("the library wrote its page, so it is live");
    object_line(object, record, paint)
}
