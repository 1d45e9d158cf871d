//! The subcommands: from the words of the command line to what is printed and the exit status.

use crate::arguments::{Arguments, Takes};
use crate::begin::{begin, beside, image_message, Begun, Beside};
use crate::compare::{compare, Comparison, Named};
use crate::disassemble::disassemble;
use crate::explain::explain;
use crate::input::{assembled, error_lines, form, is_text, read, Form, Input};
use crate::orders::{orders, Gets, Orders};
use crate::outcome::{bad_usage, refused, trouble, Outcome, Step, REFUSED, TROUBLE};
use crate::paint::Paint;
use crate::profile::{self, one_of, Profile};
use crate::show::show;
use crate::view::View;
use crate::{help, load, page, refusal, save};
use circmon::{Unit, IMAGE_BYTES};
use std::ffi::{OsStr, OsString};
use std::io::{ErrorKind, Read, Write};

/// Carries out a call. Nothing is written to standard output or a file before its input is found good.
pub fn call(words: &[OsString], standard_input: &mut dyn Read, paint: Paint) -> Outcome {
    let Some((first, rest)) = words.split_first() else {
        return trouble(help::GENERAL.to_string());
    };
    match first.to_str() {
        Some("help" | "--help" | "-h") => help_on(rest),
        Some("--version" | "-V") => version(rest),
        Some(name) if help::of(name).is_some() => subcommand(name, rest, standard_input, paint),
        _ => no_subcommand(first),
    }
}

fn no_subcommand(found: &OsStr) -> Outcome {
    let found = found.to_string_lossy();
    trouble(format!("circtool: expected a subcommand, found '{found}'; see 'circtool --help'\n"))
}

fn unexpected(word: &OsStr) -> Outcome {
    trouble(format!("circtool: unexpected '{}'; see 'circtool --help'\n", word.to_string_lossy()))
}

/// The general help, or that of the subcommand behind it.
fn help_on(words: &[OsString]) -> Outcome {
    match words {
        [] => Outcome::fine(help::GENERAL),
        [name] => name.to_str().and_then(help::of).map_or_else(|| no_subcommand(name), Outcome::fine),
        [_, word, ..] => unexpected(word),
    }
}

fn version(words: &[OsString]) -> Outcome {
    match words.first() {
        None => Outcome::fine(concat!("circtool ", env!("CARGO_PKG_VERSION"), "\n")),
        Some(word) => unexpected(word),
    }
}

fn subcommand(name: &str, words: &[OsString], standard_input: &mut dyn Read, paint: Paint) -> Outcome {
    if words.iter().take_while(|word| *word != "--").any(|word| word == "--help" || word == "-h") {
        return Outcome::fine(help::of(name).unwrap_or(help::GENERAL));
    }
    let arguments = match Arguments::new(words, &takes(name)) {
        Ok(arguments) => arguments,
        Err(message) => return bad_usage(name, message),
    };
    let result = match name {
        "asm" => asm(&arguments, standard_input),
        "dis" => dis(&arguments, standard_input),
        "explain" => explain_run(&arguments, standard_input, paint),
        "run" => run(&arguments, standard_input),
        "show" => show_image(&arguments, standard_input, paint),
        "page" => pages(&arguments, standard_input, paint),
        "load" => load_requests(&arguments, standard_input),
        "orders" => orders_of_gets(&arguments, standard_input, paint),
        _ => compare_images(&arguments, standard_input, paint),
    };
    result.unwrap_or_else(|outcome| outcome)
}

/// Options with a value behind them.
const IMAGE: (&str, &str) = ("--image", "a file");
const TABLE: (&str, &str) = ("--table", "a file");
const PROFILE: (&str, &str) = (profile::OPTION, "a profile");

fn takes(name: &str) -> Takes {
    type Values = &'static [(&'static str, &'static str)];
    let (flags, with_value, least_files, most_files): (&[&str], Values, usize, usize) = match name {
        "explain" => (&["--script", "--bytes"], &[PROFILE], 0, 1),
        "run" => (&["--script", "--bytes"], &[IMAGE, PROFILE], 0, 1),
        "show" => (&["--anyway"], &[PROFILE], 0, 1),
        // the image, and words that are no files: the objects
        "page" => (&["--all"], &[PROFILE], 0, usize::MAX),
        // two words that are no files: the seed and the count
        "load" => (&["--bytes"], &[TABLE], 0, 2),
        "compare" => (&[], &[PROFILE], 2, 2),
        "orders" => (&["--bytes"], &[PROFILE], 1, 2),
        _ => (&[], &[], 0, 1),
    };
    Takes { flags, with_value, least_files, most_files }
}

/// The profile that the option gives to a subcommand.
fn given(name: &str, arguments: &Arguments) -> Step<Option<Profile>> {
    profile::asked(arguments).map_err(|message| bad_usage(name, message))
}

/// The bytes of a script. A profile is not in them, and only the widest one is that under which `circmon` runs them; nor is a
/// taking-back.
fn asm(arguments: &Arguments, standard_input: &mut dyn Read) -> Step<Outcome> {
    let input = read(arguments.file(), standard_input).map_err(trouble)?;
    let script = assembled(&input).map_err(trouble)?;
    match script.profile {
        Some(stated) if stated.profile != Profile::WIDEST => Err(trouble(format!(
            "{}:{}: a profile has no bytes, and the program circmon runs under the widest one; \
             'circtool run' and 'circtool explain' run this script\n",
            input.name, stated.line
        ))),
        _ => Ok(Outcome::fine(script.bytes().map_err(|errors| trouble(error_lines(&input.name, &errors)))?)),
    }
}

/// The script of any bytes; where they look like something else, that is said beside it.
fn dis(arguments: &Arguments, standard_input: &mut dyn Read) -> Step<Outcome> {
    let input = read(arguments.file(), standard_input).map_err(trouble)?;
    let mut outcome = Outcome::fine(disassemble(&input.bytes));
    if is_text(&input.bytes) {
        outcome.err = format!("{}: it looks like a script; 'circtool asm' turns a script into bytes\n", input.name);
    } else {
        outcome.err = image_message(&input.name, &input.bytes);
    }
    Ok(outcome)
}

/// The form that a flag says; nothing where the input is to tell it.
fn form_asked(arguments: &Arguments) -> Step<Option<Form>> {
    match (arguments.has("--script"), arguments.has("--bytes")) {
        (true, true) => Err(trouble("circtool: --script and --bytes exclude each other\n".to_string())),
        (true, false) => Ok(Some(Form::Script)),
        (false, true) => Ok(Some(Form::Bytes)),
        (false, false) => Ok(None),
    }
}

fn begin_run(name: &str, arguments: &Arguments, standard_input: &mut dyn Read) -> Step<Begun> {
    let (asked, given) = (form_asked(arguments)?, given(name, arguments)?);
    let input = read(arguments.file(), standard_input).map_err(trouble)?;
    begin(&input, asked, given).map_err(|outcome| outcome.with(other_form(&input, asked)))
}

/// What another flag, or none, would do with an input that was taken for bytes.
fn other_form(input: &Input, asked: Option<Form>) -> &'static str {
    let taken_for = asked.unwrap_or_else(|| form(&input.bytes));
    let is_image = || matches!(beside(&input.bytes), Beside::Image | Beside::FormerImage(_));
    match asked {
        _ if taken_for == Form::Script => "",
        None if is_image() => "  with --bytes it is run as a table and requests all the same\n",
        None if is_text(&input.bytes) => "  it looks like a script; with --script it is read as one\n",
        Some(_) if is_text(&input.bytes) => "  it looks like a script; without --bytes it is read as one\n",
        _ => "",
    }
}

fn explain_run(arguments: &Arguments, standard_input: &mut dyn Read, paint: Paint) -> Step<Outcome> {
    let mut begun = begin_run("explain", arguments, standard_input)?;
    Ok(Outcome::fine(explain(&mut begun.unit, &begun.actions, &begun.lines, paint)).with(&begun.remark))
}

fn run(arguments: &Arguments, standard_input: &mut dyn Read) -> Step<Outcome> {
    let out = arguments.value_of("--image");
    if let Some(out) = out {
        may_write(out, arguments.file())?;
    }
    let Begun { mut unit, actions, remark, .. } = begin_run("run", arguments, standard_input)?;
    let numbers: String = actions.iter().map(|action| format!("{}\n", action.carry_out(&mut unit))).collect();
    if let Some(out) = out {
        save::whole(out, &unit.image()).map_err(|error| {
            let name = out.to_string_lossy();
            trouble(format!("circtool: cannot write {name}: {error}\n"))
        })?;
    }
    Ok(Outcome::fine(numbers).with(&remark))
}

/// An image is not mixed into the replies on standard output, and does not take the place of its own input.
fn may_write(out: &OsStr, file: Option<&OsStr>) -> Step<()> {
    if out == "-" {
        return Err(trouble("circtool run: --image needs a file, not standard output\n".to_string()));
    }
    let input = file.filter(|file| *file != "-").unwrap_or(OsStr::new("/dev/stdin"));
    if save::is_same(out, input) {
        return Err(trouble("circtool run: --image names the input itself\n".to_string()));
    }
    Ok(())
}

fn show_image(arguments: &Arguments, standard_input: &mut dyn Read, paint: Paint) -> Step<Outcome> {
    let profile = given("show", arguments)?.unwrap_or(Profile::WIDEST);
    let input = read(arguments.file(), standard_input).map_err(trouble)?;
    let view = View::new(&input.bytes).under(profile);
    let number = match Unit::from_image_in(profile, &input.bytes) {
        Ok(_) => return Ok(Outcome::fine(show(&view, paint))),
        Err(number) => number,
    };
    let mut outcome = Outcome::failed(REFUSED, refusal::of_image(profile, &input.name, &input.bytes, number));
    if arguments.has("--anyway") && input.bytes.len() == IMAGE_BYTES {
        let heading = paint.heading("REFUSED IMAGE: no monitor begins from it; its fields as they stand");
        outcome.out = format!("{heading}\n{}", show(&view, paint)).into_bytes();
    }
    Ok(outcome)
}

fn pages(arguments: &Arguments, standard_input: &mut dyn Read, paint: Paint) -> Step<Outcome> {
    let profile = given("page", arguments)?.unwrap_or(Profile::WIDEST);
    let asked = page::asked(arguments).map_err(|message| bad_usage("page", message))?;
    let input = read(arguments.file(), standard_input).map_err(trouble)?;
    page::pages(profile, &input, &asked, paint).map(Outcome::fine).map_err(refused)
}

fn load_requests(arguments: &Arguments, standard_input: &mut dyn Read) -> Step<Outcome> {
    let asked = load::asked(arguments).map_err(|message| bad_usage("load", message))?;
    let table = match arguments.value_of("--table") {
        Some(file) => Some(load::table(&read(Some(file), standard_input).map_err(trouble)?)?),
        None => None,
    };
    let (table, remark) = table.map_or((None, String::new()), |it| (Some(it.bytes), it.remark));
    let outcome = load::load(&asked, table.as_deref()).map(Outcome::fine).map_err(refused);
    outcome.map(|it| it.with(&remark))
}

fn compare_images(arguments: &Arguments, standard_input: &mut dyn Read, paint: Paint) -> Step<Outcome> {
    if arguments.files.iter().all(|file| file == "-") {
        return Err(trouble("circtool compare: standard input is one image, not both\n".to_string()));
    }
    let profile = given("compare", arguments)?.unwrap_or(Profile::WIDEST);
    let a = read(Some(&arguments.files[0]), standard_input).map_err(trouble)?;
    let b = read(Some(&arguments.files[1]), standard_input).map_err(trouble)?;
    let (named_a, named_b) = (Named { name: &a.name, bytes: &a.bytes }, Named { name: &b.name, bytes: &b.bytes });
    match compare(profile, &named_a, &named_b, paint) {
        Comparison::Equal(text) => Ok(Outcome::fine(text)),
        Comparison::Different(text) => Ok(Outcome { out: text.into_bytes(), err: String::new(), status: REFUSED }),
        Comparison::Trouble(text) => Err(trouble(text)),
    }
}

fn orders_of_gets(arguments: &Arguments, standard_input: &mut dyn Read, paint: Paint) -> Step<Outcome> {
    let (image, gets) = (&arguments.files[0], arguments.files.get(1).map(OsString::as_os_str));
    if image == "-" && gets.is_none_or(|file| file == "-") {
        return Err(trouble("circtool orders: standard input is the image or the gets, not both\n".to_string()));
    }
    let given = given("orders", arguments)?;
    let image = read(Some(image), standard_input).map_err(trouble)?;
    let input = read(gets, standard_input).map_err(trouble)?;
    let gets = Gets::new(&input, arguments.has("--bytes")).map_err(trouble)?;
    let profile = one_of(given, gets.profile, &input.name).map_err(trouble)?;
    match orders(profile, &Named { name: &image.name, bytes: &image.bytes }, &gets, paint) {
        Orders::Agree(text) => Ok(Outcome::fine(text)),
        Orders::Matter(text) => Ok(Outcome { out: text.into_bytes(), err: String::new(), status: REFUSED }),
        Orders::Trouble(text) => Err(trouble(text)),
    }
}

/// Prints the outcome and gives the exit status. A reader that has closed the pipe has what it wanted.
pub fn deliver(outcome: &Outcome) -> u8 {
    let mut out = std::io::stdout().lock();
    let written = out.write_all(&outcome.out).and_then(|()| out.flush());
    // where standard error is closed, the exit status still tells
    let _ = std::io::stderr().write_all(outcome.err.as_bytes());
    match written {
        Err(error) if error.kind() != ErrorKind::BrokenPipe => {
            let _ = writeln!(std::io::stderr(), "circtool: cannot write to standard output: {error}");
            TROUBLE
        }
        _ => outcome.status,
    }
}
