//! What the tests share: runs from seeds, levels of the second implementation, the folder of the repository, and calls of the command.
#![allow(dead_code)] // each test program uses a part

pub mod clone;
pub mod formats;
pub mod lines;
pub mod trees;

use circtool::wall::{Breach, Rule};
use load::{Random, Shape};
use reference::Monitor;
use sidebyside::fed;
use std::ops::Deref;
use std::path::{Path, PathBuf};
use std::process::{Command, Output};

pub use sidebyside::root;

/// A folder of its own for one test, empty.
pub fn folder(name: &str) -> PathBuf {
    let folder = Path::new(env!("CARGO_TARGET_TMPDIR")).join("circtool").join(name);
    let _ = std::fs::remove_dir_all(&folder);
    std::fs::create_dir_all(&folder).unwrap();
    folder
}

/// A folder outside the repository, which is removed in the end. `rt` stops at links in the repository, and at files by whose
/// names it would take a folder below for a repository.
pub struct Apart(PathBuf);

/// A folder of its own for one test, empty and outside the repository.
pub fn apart(name: &str) -> Apart {
    let folder = std::env::temp_dir().join(format!("circmon-{name}-{}", std::process::id())).join(name);
    std::fs::create_dir_all(&folder).unwrap();
    Apart(folder)
}

impl Deref for Apart {
    type Target = Path;

    fn deref(&self) -> &Path {
        &self.0
    }
}

impl Drop for Apart {
    fn drop(&mut self) {
        let _ = std::fs::remove_dir_all(self.0.parent().unwrap());
    }
}

pub fn examples() -> Vec<PathBuf> {
    let mut files: Vec<PathBuf> =
        std::fs::read_dir(root().join("examples")).unwrap().map(|entry| entry.unwrap().path()).collect();
    files.retain(|file| file.extension().is_some_and(|it| it == "circ"));
    files.sort();
    assert!(files.len() >= 4, "{files:?}");
    files
}

/// Table and requests of a run that the second implementation has followed, and its replies.
pub struct Run {
    pub table: [u8; 42],
    pub requests: Vec<Vec<u8>>,
    pub replies: Vec<u8>,
    pub monitor: Monitor,
}

/// A run with damaged requests of any length from 0 to 8.
pub fn run(seed: u64, shape: Shape, length: usize) -> Run {
    let random = &mut Random::new(seed);
    let table = load::table(random, shape);
    let mut run = Run { table, requests: vec![], replies: vec![], monitor: Monitor::from_table(&table).unwrap() };
    for _ in 0..length {
        let bytes = load::bytes(random, shape, &run.monitor);
        run.replies.push(run.monitor.request(&bytes));
        run.requests.push(bytes);
    }
    run
}

/// A level as the second implementation has it, which compares it by itself.
pub fn second(level: circmon::Level) -> reference::Level {
    reference::Level { class: level.class, needs: level.needs }
}

/// A profile as the second implementation has it.
pub fn second_profile(profile: circmon::Profile) -> reference::Profile {
    reference::Profile {
        subjects: profile.subjects(),
        objects: profile.objects(),
        highest_class: profile.highest_class(),
        needs: profile.needs(),
    }
}

/// That the two objects are held so in this state, and that their companies break the rule that is named.
pub fn wall_is_so(breach: &Breach, state: &Monitor, what: &str) {
    let Breach { rule, class, from, to } = breach;
    let object = |at: usize| state.objects[at].as_ref().unwrap_or_else(|| panic!("{what}: o{at} is not live"));
    let (one, other) = (object(from.object), object(to.object));
    assert_eq!(from.subject, to.subject, "{what}");
    assert_eq!((from.held.0, to.held.0), (one.held[from.subject], other.held[from.subject]), "{what}");
    assert_eq!((from.companies.0, to.companies.0), (one.companies, other.companies), "{what}");
    let (mine, others) = (one.companies[class - 1], other.companies[class - 1]);
    match rule {
        Rule::First => {
            assert!(one.holds(from.subject) && other.holds(from.subject), "{what}");
            assert!(mine != 0 && others != 0 && mine != others, "{what}");
        }
        Rule::Second => {
            assert!(one.reads(from.subject) && other.writes(from.subject), "{what}");
            assert!(mine != 0 && others == 0, "{what}");
        }
    }
}

/// The command with these words, with bytes on its standard input.
pub fn circtool(words: &[&str], input: &[u8]) -> Output {
    fed(Command::new(env!("CARGO_BIN_EXE_circtool")).args(words).current_dir(root()), input)
}

/// A shell line in the root of the repository, with the command in $CIRCTOOL and nothing on standard input.
pub fn shell(line: &str) -> Output {
    let mut command = Command::new("bash");
    command.args(["-c", line]).env("CIRCTOOL", env!("CARGO_BIN_EXE_circtool")).current_dir(root());
    fed(&mut command, b"")
}

pub fn out(output: &Output) -> String {
    String::from_utf8(output.stdout.clone()).unwrap()
}

pub fn err(output: &Output) -> String {
    String::from_utf8(output.stderr.clone()).unwrap()
}

/// That the call ended with this status and that what it says stands on the one stream alone.
pub fn ended(output: &Output, status: i32) {
    assert_eq!(output.status.code(), Some(status), "standard error: {}", err(output));
}

/// The text without the codes that set and end a colour.
pub fn without_colour(text: &str) -> String {
    let mut parts = text.split("\x1b[");
    let first = parts.next().unwrap_or_default().to_string();
    parts.fold(first, |text, part| text + part.split_once('m').expect("a colour code ends in m").1)
}
