//! The repository as a fresh clone has it: without what was built in it. `rt` begins there with what it keeps on this machine
//! of the same crates, and need not prove again what the repository has proved. It stands outside the repository, in whose
//! folder `rt` takes every file of Rattle for one that must be proved.

use super::{apart, ended, fed, Apart};
use std::fs;
use std::path::{Path, PathBuf};
use std::process::{Command, Stdio};

pub struct Clone {
    /// what is removed in the end
    _folder: Apart,
    pub root: PathBuf,
}

impl Clone {
    pub fn new(name: &str) -> Clone {
        let folder = apart(name);
        let root = folder.join("clone");
        copy(&super::root(), &root);
        Clone { _folder: folder, root }
    }

    /// A shell line in the root of the clone.
    pub fn shell(&self, line: &str) -> Command {
        let mut command = Command::new("bash");
        command.args(["-c", line]).current_dir(&self.root).stdin(Stdio::null());
        command
    }

    /// Takes away what was built, and leaves what `rt` keeps of its proofs.
    pub fn without_built(&self) {
        let _ = fs::remove_dir_all(self.root.join("target"));
        for folder in fs::read_dir(self.root.join("crates")).unwrap() {
            let Ok(entries) = fs::read_dir(folder.unwrap().path().join("out")) else { continue };
            for entry in entries.map(Result::unwrap).filter(|it| it.file_type().unwrap().is_file()) {
                fs::remove_file(entry.path()).unwrap();
            }
        }
    }
}

/// The files of a folder, without what is built and without the history.
fn copy(from: &Path, to: &Path) {
    fs::create_dir(to).unwrap();
    for entry in fs::read_dir(from).unwrap().map(Result::unwrap) {
        let (name, place) = (entry.file_name(), to.join(entry.file_name()));
        if name == "target" || name == "out" || name == ".git" {
            continue;
        }
        if entry.file_type().unwrap().is_dir() {
            copy(&entry.path(), &place);
        } else {
            fs::copy(entry.path(), &place).unwrap();
        }
    }
}

/// A program that is a script of the shell. Another process writes it: a file that is open for writing here is so for a moment in
/// every process that another test starts meanwhile, and a program that is open for writing cannot be run.
pub fn script(place: &Path, text: &str) {
    let mut command = Command::new("bash");
    command.args(["-c", "cat > \"$0\" && chmod +x \"$0\""]).arg(place);
    ended(&fed(&mut command, text.as_bytes()), 0);
}
