//! The words of the command line.

use crate::words::count;
use std::ffi::{OsStr, OsString};
use std::os::unix::ffi::OsStrExt;

/// An option and the value behind `=`: `--image=FILE`.
fn parted(word: &OsStr) -> (String, Option<&OsStr>) {
    let bytes = word.as_bytes();
    let name = |bytes: &[u8]| String::from_utf8_lossy(bytes).into_owned();
    match bytes.iter().position(|&byte| byte == b'=') {
        Some(at) => (name(&bytes[..at]), Some(OsStr::from_bytes(&bytes[at + 1..]))),
        None => (name(bytes), None),
    }
}

/// What a subcommand takes.
pub struct Takes {
    pub flags: &'static [&'static str],
    /// options with a value behind them, and what the value is
    pub with_value: &'static [(&'static str, &'static str)],
    pub least_files: usize,
    pub most_files: usize,
}

#[derive(Default, Debug)]
pub struct Arguments {
    flags: Vec<String>,
    values: Vec<(String, OsString)>,
    pub files: Vec<OsString>,
}

impl Arguments {
    /// The words in order; an error says what is wrong with them. `--` ends the options, and `-` is standard input.
    pub fn new(words: &[OsString], takes: &Takes) -> Result<Arguments, String> {
        let mut arguments = Arguments::default();
        let mut words = words.iter();
        let mut options = true;
        while let Some(word) = words.next() {
            if options && word == "--" {
                options = false;
            } else if options && word.len() > 1 && word.as_bytes().starts_with(b"-") {
                arguments.option(word, &mut words, takes)?;
            } else {
                arguments.files.push(word.clone());
            }
        }
        arguments.count_files(takes)?;
        Ok(arguments)
    }

    fn option<'a>(
        &mut self,
        word: &OsStr,
        words: &mut impl Iterator<Item = &'a OsString>,
        takes: &Takes,
    ) -> Result<(), String> {
        let (option, value) = parted(word);
        if takes.flags.contains(&option.as_str()) {
            self.flags.push(option.clone());
            return if value.is_none() { Ok(()) } else { Err(format!("{option} takes no value")) };
        }
        let Some((_, what)) = takes.with_value.iter().find(|(name, _)| *name == option) else {
            return Err(format!("unknown option '{option}'"));
        };
        if self.value_of(&option).is_some() {
            return Err(format!("{option} is given twice"));
        }
        let value = value.or_else(|| words.next().map(OsString::as_os_str)).filter(|value| !value.is_empty());
        let value = value.ok_or(format!("expected {what} behind {option}"))?;
        self.values.push((option, value.to_os_string()));
        Ok(())
    }

    fn count_files(&self, takes: &Takes) -> Result<(), String> {
        let found = self.files.len();
        if found < takes.least_files {
            return Err(format!("expected {}, found {found}", count(takes.least_files, "file", "files")));
        }
        match self.files.get(takes.most_files) {
            Some(file) => Err(format!("unexpected '{}'", file.to_string_lossy())),
            None => Ok(()),
        }
    }

    pub fn has(&self, flag: &str) -> bool {
        self.flags.iter().any(|it| it == flag)
    }

    pub fn value_of(&self, option: &str) -> Option<&OsStr> {
        self.values.iter().find(|(name, _)| name == option).map(|(_, value)| value.as_os_str())
    }

    pub fn file(&self) -> Option<&OsStr> {
        self.files.first().map(OsString::as_os_str)
    }
}
