//! What stands behind the first words of a line: modes, objects, levels, sets of needs, companies, profiles.

use crate::companies::{Companies, CONFLICT_CLASSES};
use crate::level::Level;
use crate::mode::Mode;
use crate::profile::Profile;
use crate::script::{number, Line, ScriptError};
use crate::view::{OBJECTS, SUBJECTS};

/// What a word is that `numbered` takes with the letter o.
pub const OBJECT: &str = "an object (o0 to o63)";

/// The number behind the letter, below the count.
pub fn numbered(word: &str, letter: char, count: usize) -> Option<usize> {
    number(word.strip_prefix(letter)?, count - 1)
}

pub fn mode(line: &mut Line) -> Result<Mode, ScriptError> {
    line.take("a mode (r, w, a or e)", Mode::from_letter)
}

pub fn object(line: &mut Line) -> Result<usize, ScriptError> {
    line.take(OBJECT, |word| numbered(word, 'o', OBJECTS))
}

/// `under o1`, where it stands there.
pub fn under(line: &mut Line) -> Result<Option<usize>, ScriptError> {
    match line.peek() {
        Some(word) if word.text == "under" => {
            line.keyword("under")?;
            object(line).map(Some)
        }
        Some(word) if word.text != "with" => {
            Err(line.unexpected("'under' and an object, 'with e' or the end of the line"))
        }
        _ => Ok(None),
    }
}

/// `with e`, where it stands there: the last words of a line.
pub fn with_execute(line: &mut Line) -> Result<bool, ScriptError> {
    if line.peek().is_none() {
        return Ok(false);
    }
    line.take("'with e' or the end of the line", |word| (word == "with").then_some(()))?;
    line.keyword("e")?;
    Ok(true)
}

/// `subjects 4 objects 10 class 3 needs {0,1}`, up to the end of the line.
pub fn profile(line: &mut Line) -> Result<Profile, ScriptError> {
    let counted = |word: &str, most: usize| number(word, most).filter(|&count| count > 0);
    line.keyword("subjects")?;
    let subjects = line.take("a number of subjects (1 to 16)", |word| counted(word, SUBJECTS))?;
    line.keyword("objects")?;
    let objects = line.take("a number of objects (1 to 64)", |word| counted(word, OBJECTS))?;
    let Level { class, needs } = level(line)?;
    Profile::new(subjects as u8, objects as u8, class, needs)
        .ok_or_else(|| line.error_at_start("no profile has these numbers; please report it".to_string()))
}

/// `class 3 needs {0,1}` or `class 0 needs {}`, up to the end of the line.
pub fn level(line: &mut Line) -> Result<Level, ScriptError> {
    line.keyword("class")?;
    let class = line.take("a class (0 to 15)", |word| number(word, 15))? as u8;
    line.keyword("needs")?;
    let needs = needs(line)?;
    line.finish()?;
    Ok(Level { class, needs })
}

/// `1 0 0 2`: a company number for each conflict class, 0 for none, up to the end of the line.
pub fn companies(line: &mut Line) -> Result<Companies, ScriptError> {
    let mut companies = Companies::default();
    for (at, company) in companies.0.iter_mut().enumerate() {
        let which = format!("the company of conflict class {} of {CONFLICT_CLASSES} (0 to 15, 0 for none)", at + 1);
        *company = line.take(&which, |word| number(word, 15))? as u8;
    }
    line.finish()?;
    Ok(companies)
}

/// A set of needs in braces, with a comma between two.
fn needs(line: &mut Line) -> Result<u16, ScriptError> {
    if let Some(set) = without_braces(line) {
        return Err(line.error(format!("needs are a set in braces: write 'needs {set}'")));
    }
    let sign = |sign: &'static str| move |word: &str| (word == sign).then_some(());
    line.take("a set of needs, as {0,1} or {}", sign("{"))?;
    let mut needs = 0;
    if line.peek().is_some_and(|word| word.text == "}") {
        line.keyword("}")?;
        return Ok(needs);
    }
    loop {
        let twice = line.error("this need stands twice".to_string());
        let need = line.take("a need (0 to 15)", |word| number(word, 15))?;
        if needs >> need & 1 == 1 {
            return Err(twice);
        }
        needs |= 1 << need;
        let more =
            line.take("',' or '}'", |word| [(",", true), ("}", false)].iter().find(|it| it.0 == word).map(|it| it.1))?;
        if !more {
            return Ok(needs);
        }
    }
}

/// The set that `needs none` and `needs 0 1`, without braces, are meant to say.
fn without_braces(line: &Line) -> Option<String> {
    let words: Vec<&str> = line.rest().iter().map(|word| word.text).filter(|&word| word != ",").collect();
    match words.as_slice() {
        ["none"] => Some("{}".to_string()),
        [_, ..] if words.iter().all(|word| number(word, usize::MAX).is_some()) => {
            Some(format!("{{{}}}", words.join(",")))
        }
        _ => None,
    }
}
