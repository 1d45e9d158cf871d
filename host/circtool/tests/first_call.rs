//! `./circtool`, from anywhere, and `tools/library` and `tools/program` below it: what is said while the library is proved, where
//! a proof fails, and where a program or the pinned toolchain is missing. Here `rt` is a script that prints what a test wants.

mod shared;

use shared::clone::script;
use shared::{apart, ended, err, out, root, shell, Apart};
use std::fs;
use std::os::unix::fs::symlink;
use std::path::{Path, PathBuf};
use std::process::{Command, Output, Stdio};

/// A folder with the scripts, with four crates, three of which are `capi` and those that it stands on, and the program `show`.
fn scene(name: &str) -> Apart {
    let folder = apart(name);
    fs::create_dir(folder.join("tools")).unwrap();
    fs::create_dir(folder.join("programs")).unwrap();
    for file in ["circtool", "toolchain.txt", "tools/library", "tools/program", "tools/toolchain.sh"] {
        script(&folder.join(file), &fs::read_to_string(root().join(file)).unwrap());
    }
    let crates = "# crates\nlow:\nmiddle: low\nother: low\ncapi staticlib: middle low # side\nside: other\nshow: low\n";
    fs::write(folder.join("crates.txt"), crates).unwrap();
    for part in ["capi/src", "low/src", "show/src"] {
        fs::create_dir_all(folder.join("crates").join(part)).unwrap();
    }
    fs::write(folder.join("crates/show/src/main.rt"), "").unwrap();
    folder
}

/// Writes `rt`, which answers its words by these lines of the shell.
fn toolchain(folder: &Path, all: &str, lib: &str) {
    answers(folder, &format!("all) {all} ;;\nlib) {lib} ;;"));
}

/// The same, by branches of the shell for its first word.
fn answers(folder: &Path, branches: &str) {
    let version = fs::read_to_string(folder.join("toolchain.txt")).unwrap();
    let text =
        format!("#!/usr/bin/env bash\ncase $1 in\nversion) echo '{}' ;;\n{branches}\nesac\n", version.trim_end());
    script(&folder.join("programs/rt"), &text);
}

/// Calls a program of the scene with its programs first on the path.
fn call(folder: &Path, program: &str) -> Output {
    call_with(folder, program, &[])
}

fn call_with(folder: &Path, program: &str, words: &[&str]) -> Output {
    let path = format!("{}:{}", folder.join("programs").display(), std::env::var("PATH").unwrap());
    let mut command = Command::new(folder.join(program));
    command.args(words).env("PATH", path).current_dir("/").stdin(Stdio::null()).output().unwrap()
}

/// What `rt` prints for a library that is proved.
const LOW_PROVED: &str =
    "echo '== low'; echo 'fn low::f: proved'; echo 'statements core: modules loaded=9 checked=0'; \
     echo 'crate low: modules loaded=0 checked=40'; echo 'logic=proved functions=1 sum=00'";
/// `rt lib`, which writes the archive.
const ARCHIVE: &str = "mkdir -p out && echo archive > out/libcapi.a";

#[test]
fn each_crate_that_is_proved_is_counted() {
    let folder = scene("progress");
    let all = format!(
        "pwd >> asked; echo \"${{*%%[0-9]*}}\" >> asked; mkdir -p ../middle/out/rlib; touch ../middle/out/rlib/stamp; \
         echo 'rt: waiting for another rt to finish in /crates/low' >&2; echo 'logic /kit: libraries=16'; \
         echo 'only=0 proved=0'; {LOW_PROVED}; echo '== middle'; \
         echo 'rt: middle: begins with what a check kept in /other/crates/middle'; echo '== capi'; \
         echo 'checked capi::f, 1 of 1'; echo 'fn capi::f: proved'; echo 'logic=proved functions=1 sum=00'; \
         echo '== summary'; echo 'low: ok'; echo 'middle: ok'; echo 'capi: ok'; echo '3 of 3 crates ok'"
    );
    toolchain(&folder, &all, &format!("pwd; {ARCHIVE}"));
    let output = call(&folder, "tools/library");
    ended(&output, 0);
    assert_eq!(
        err(&output),
        "circmon: proving the library, 3 crates; the first time this takes some minutes\n\
         circmon: waiting for another rt to finish in /crates/low\n\
         circmon: proved 1 of 3, 2 left: low\n\
         circmon: proved 2 of 3, 1 left: middle (unchanged since it was last proved)\n\
         circmon: proving the last of 3, capi, and building target/staticlib/libcapi.a\n"
    );
    assert_eq!(out(&output), "");
    let asked = fs::read_to_string(folder.join("crates/capi/asked")).unwrap();
    assert_eq!(asked, format!("{}\nall check --jobs \n", folder.join("crates/capi").display()));
    assert_eq!(fs::read_to_string(folder.join("target/staticlib/libcapi.a")).unwrap(), "archive\n");
}

/// What `tools/library` says behind the first crate that is proved, where `rt all` answers by this line and the library fails.
fn said_behind_low(folder: &Path, all: &str) -> String {
    toolchain(folder, all, ARCHIVE);
    let output = call(folder, "tools/library");
    ended(&output, 1);
    let said = err(&output);
    let (_, behind) = said.split_once("circmon: proved 1 of 3, 2 left: low\n").unwrap();
    behind.to_string()
}

#[test]
fn a_failed_proof_shows_what_rt_said() {
    let folder = scene("failed-proof");
    fs::create_dir_all(folder.join("target/staticlib")).unwrap();
    fs::write(folder.join("target/staticlib/libcapi.a"), "earlier\n").unwrap();
    let all = format!(
        "{LOW_PROVED}; echo '== middle'; echo 'rt: chose --jobs 2 for middle'; echo 'error: fn middle::g: not proved'; \
         echo '  the goal is 1 < 0' >&2; echo 'fn middle::h: proved'; echo 'crate middle: modules loaded=0 checked=4'; \
         echo 'logic=not-proved'; echo '== summary'; echo 'low: ok'; echo 'middle: failed (1)'; \
         echo 'capi: not run, since middle failed'; echo '1 of 3 crates ok'; exit 1"
    );
    assert_eq!(
        said_behind_low(&folder, &all),
        "== middle\nerror: fn middle::g: not proved\n  the goal is 1 < 0\nlogic=not-proved\n\
         == summary\nmiddle: failed (1)\ncapi: not run, since middle failed\n1 of 3 crates ok\n\
         circmon: 'rt all check' in crates/capi failed: the library is not proved\n"
    );
    toolchain(&folder, "true", "echo 'error: fn capi::f: not proved'; exit 1");
    let output = call(&folder, "tools/library");
    ended(&output, 1);
    let end = "error: fn capi::f: not proved\ncircmon: 'rt lib' in crates/capi failed: the library is not proved\n";
    assert!(err(&output).ends_with(end), "{}", err(&output));
    // what was built before is still there
    assert_eq!(fs::read_to_string(folder.join("target/staticlib/libcapi.a")).unwrap(), "earlier\n");
    assert_eq!(fs::read_dir(folder.join("target/staticlib")).unwrap().count(), 1);
}

#[test]
fn a_library_whose_check_was_killed_is_not_counted() {
    let folder = scene("killed");
    let all = format!(
        "{LOW_PROVED}; echo '== middle'; echo '== summary'; echo 'low: ok'; echo 'middle: failed (-9)'; \
         echo '1 of 3 crates ok'; exit 1"
    );
    assert_eq!(
        said_behind_low(&folder, &all),
        "== summary\nmiddle: failed (-9)\n1 of 3 crates ok\n\
         circmon: 'rt all check' in crates/capi failed: the library is not proved\n"
    );
}

#[test]
fn a_program_is_proved_and_then_copied() {
    let folder = scene("program");
    let built = folder.join("target/bin/show");
    fs::write(folder.join("crates/show/stdin"), "its input\n").unwrap();
    let run = |remark: &str, line: &str| format!("run) {remark}; mkdir -p out; cat > out/given; {line} ;;");
    let running = "echo 'rt: running out/show; to give it other input, run that file yourself' >&2; echo 12";
    answers(&folder, &run("echo 'fn show::main: proved' >&2", &format!("echo one > out/show; {running}")));
    let output = call_with(&folder, "tools/program", &["show"]);
    ended(&output, 0);
    assert_eq!((out(&output), err(&output)), (String::new(), String::new()));
    assert_eq!(fs::read_to_string(folder.join("crates/show/out/given")).unwrap(), "its input\n");
    assert_eq!(fs::read_to_string(&built).unwrap(), "one\n");
    let not_proved = "echo two > out/show; echo 'fn show::main: not proved' >&2; exit 1";
    answers(&folder, &run("echo 'fn show::f: proved' >&2", not_proved));
    let output = call_with(&folder, "tools/program", &["show"]);
    ended(&output, 1);
    let said = "fn show::main: not proved\ncircmon: 'rt run' in crates/show failed: the program is not proved\n";
    assert_eq!((out(&output), err(&output)), (String::new(), said.to_string()));
    answers(&folder, &run("true", &format!("echo three > out/show; {running}; exit 3")));
    let output = call_with(&folder, "tools/program", &["show"]);
    ended(&output, 1);
    let end = "circmon: 'rt run' in crates/show failed: the program is proved, and ended with status 3\n";
    assert!(err(&output).ends_with(end), "{}", err(&output));
    // what was built before is still there
    assert_eq!(fs::read_to_string(&built).unwrap(), "one\n");
    assert_eq!(fs::read_dir(folder.join("target/bin")).unwrap().count(), 1);
}

#[test]
fn what_is_no_program_is_named() {
    let folder = scene("no-program");
    answers(&folder, "*) touch asked ;;");
    let usage = "circmon: usage: tools/program NAME, the name of a program in crates.txt\n";
    let low = "circmon: there is no program low: crates/low/src/main.rt is not there\n";
    let none = "circmon: there is no program none: crates/none/src/main.rt is not there\n";
    for (words, said) in [
        (&[][..], usage),
        (&["show", "show"], usage),
        (&["../show"], usage),
        (&[""], usage),
        (&["low"], low),
        (&["none"], none),
    ] {
        let output = call_with(&folder, "tools/program", words);
        ended(&output, 2);
        assert_eq!((out(&output), err(&output)), (String::new(), said.to_string()), "{words:?}");
    }
    assert!(!folder.join("asked").exists() && !folder.join("target").exists());
}

#[test]
fn another_version_of_the_toolchain_is_a_warning_that_names_both() {
    let folder = scene("version");
    toolchain(&folder, "true", ARCHIVE);
    assert!(!err(&call(&folder, "tools/library")).contains("warning"));
    fs::write(folder.join("toolchain.txt"), "kit-0 logic 00\n").unwrap();
    let output = call(&folder, "tools/library");
    ended(&output, 0);
    let pinned = fs::read_to_string(root().join("toolchain.txt")).unwrap();
    let warning = format!(
        "circmon: warning: the toolchain is '{}', and toolchain.txt pins 'kit-0 logic 00'\n",
        pinned.trim_end()
    );
    assert!(err(&output).starts_with(&warning), "{}", err(&output));
}

/// The programs of the shell that the scripts use, and these.
fn path_with(folder: &Path, programs: &[&str]) -> PathBuf {
    let place = folder.join("path");
    let _ = fs::remove_dir_all(&place);
    fs::create_dir(&place).unwrap();
    for program in ["bash", "env", "readlink", "dirname", "sed", "cat"].iter().chain(programs) {
        let found = out(&shell(&format!("command -v {program} || true")));
        symlink(if found.is_empty() { "/bin/true" } else { found.trim_end() }, place.join(program)).unwrap();
    }
    place
}

#[test]
fn a_missing_program_is_one_line_each() {
    let folder = scene("missing");
    let line =
        |program: &str, what: &str| format!("circmon: {program} is not on the path: {what} is needed to build\n");
    let [rt, cargo, cc] =
        [line("rt", "the Rattle toolchain"), line("cargo", "Cargo, the builder of Rust,"), line("cc", "a C compiler")];
    for (there, expected) in [
        (vec!["cargo", "cc"], rt.clone()),
        (vec!["rt", "cc"], cargo.clone()),
        (vec!["rt", "cargo"], cc.clone()),
        (vec![], rt + &cargo + &cc),
    ] {
        let path = path_with(&folder, &there);
        let output = Command::new(folder.join("circtool")).env("PATH", path).output().unwrap();
        ended(&output, 2);
        assert_eq!((err(&output), out(&output)), (expected, String::new()), "{there:?}");
    }
}

#[test]
fn the_command_runs_through_links_with_cdpath_and_from_any_folder() {
    let folder = apart("from-anywhere");
    let command = root().join("circtool");
    symlink(&command, folder.join("link")).unwrap();
    symlink("link", folder.join("second")).unwrap();
    let version = format!("circtool {}\n", env!("CARGO_PKG_VERSION"));
    let (at, root) = (folder.display(), root());
    for line in [
        format!("cd / && {} --version", command.display()),
        format!("cd {at} && ./link --version"),
        format!("cd / && {at}/second --version"),
        format!("cd {at} && PATH=$PATH:{at} && second --version"),
        format!("export CDPATH=/:{at}; cd {at} > /dev/null && ./second --version"),
        format!("export CDPATH={0}/..:{0}; cd {0} > /dev/null && ./circtool --version", root.display()),
        "bash ./circtool --version".to_string(),
    ] {
        let output = shell(&line);
        ended(&output, 0);
        // the gate builds other packages in the same folder meanwhile, for which a call may wait
        let said = err(&output).replace("circmon: another call is building; this one waits until it has ended\n", "");
        assert_eq!((out(&output), said), (version.clone(), String::new()), "{line}");
    }
}
