//! The gate, `.ci/run`: it passes where `rt ci` and the tests of host/ pass, and fails where an edit that must fail is bad, which
//! `rt ci` counts and passes. Here `rt` and `.ci/host-tests` are scripts that print what a test wants.

mod shared;

use shared::clone::script;
use shared::{apart, out, root};
use std::fs;
use std::process::{Command, Stdio};

const ALL_DONE: &str = "every proof and must-fail edit was done in this run";
const SOME_KEPT: &str =
    "done in this run: 0 of the 59 proofs (of crates and of their tests) and 2 of the 412 must-fail edits; \
     the others are kept from earlier runs of the same files on this machine";

/// The status of the gate and its last line, where the two parts print these lines and end with these statuses.
fn gate(name: &str, ci: (&[&str], i32), host: (&str, i32)) -> (i32, String) {
    let folder = apart(name);
    for part in [".ci", "tools", "programs"] {
        fs::create_dir(folder.join(part)).unwrap();
    }
    for file in [".ci/run", "tools/toolchain.sh", "toolchain.txt"] {
        script(&folder.join(file), &fs::read_to_string(root().join(file)).unwrap());
    }
    let prints = |lines: &[&str]| lines.iter().map(|line| format!("echo \"{line}\"; ")).collect::<String>();
    let rt = format!(
        "#!/usr/bin/env bash\ncase $* in\nversion) cat toolchain.txt ;;\nci) {}exit {} ;;\n*) exit 9 ;;\nesac\n",
        prints(ci.0),
        ci.1
    );
    script(&folder.join("programs/rt"), &rt);
    script(&folder.join(".ci/host-tests"), &format!("#!/usr/bin/env bash\n{}exit {}\n", prints(&[host.0]), host.1));
    let path = format!("{}:{}", folder.join("programs").display(), std::env::var("PATH").unwrap());
    let mut command = Command::new(folder.join(".ci/run"));
    let output = command.env("PATH", path).current_dir("/").stdin(Stdio::null()).output().unwrap();
    (output.status.code().unwrap(), out(&output).lines().last().unwrap().to_string())
}

#[test]
fn the_gate_passes_where_both_parts_pass() {
    for line in [
        format!("rt: ok; handles allowed: none; must-fail edits: 412 refused; {ALL_DONE}"),
        format!("rt: ok; handles allowed: none; must-fail edits: 412 refused, 3 of them only by a limit; {SOME_KEPT}"),
        format!("rt: ok; handles allowed: none; must-fail edits: 412 refused, 0 bad; {SOME_KEPT}"),
        format!("rt: ok; handles allowed: none; {ALL_DONE}"),
    ] {
        let passed = gate("gate-passes", (&[&line, "471 passed, 0 failed"], 0), ("9 passed, 0 failed", 0));
        assert_eq!(passed, (0, "480 passed, 0 failed".to_string()), "{line}");
    }
}

#[test]
fn the_gate_fails_where_an_edit_is_bad() {
    let why = "== crates: FAILED: an edit that must fail is bad, as a line 'BAD EDIT' above says";
    for line in [
        format!("rt: ok; handles allowed: none; must-fail edits: 411 refused, 1 bad; {ALL_DONE}"),
        format!(
            "rt: ok; handles allowed: none; must-fail edits: 9 refused, 3 of them only by a limit, 20 bad; {SOME_KEPT}"
        ),
    ] {
        let failed = gate("gate-bad-edit", (&[&line, "471 passed, 0 failed"], 0), ("9 passed, 0 failed", 0));
        assert_eq!(failed, (1, why.to_string()), "{line}");
    }
}

#[test]
fn the_gate_fails_where_a_part_fails_or_does_not_say_what_passed() {
    let ok = format!("rt: ok; handles allowed: none; must-fail edits: 412 refused; {ALL_DONE}");
    let last = "FAILED: its last line is not 'N passed, 0 failed'";
    let host = ("9 passed, 0 failed", 0);
    for (name, ci, host, end) in [
        (
            "ci-failed",
            (&["rt: FAILED: low", "470 passed, 1 failed"][..], 1),
            host,
            "== crates: FAILED after".to_string(),
        ),
        ("ci-says-failed", (&[&ok[..], "470 passed, 1 failed"][..], 0), host, format!("== crates: {last}")),
        (
            "ci-of-names",
            (&[&ok[..], "3 passed, 0 failed (low and the crates below alone: not the gate)"][..], 0),
            host,
            format!("== crates: {last}"),
        ),
        ("ci-silent", (&["471 passed, 0 failed"][..], 0), host, "== crates: FAILED: 'rt ci' has no line".to_string()),
        (
            "host-failed",
            (&[&ok[..], "471 passed, 0 failed"][..], 0),
            ("8 passed, 1 failed", 1),
            "== host: FAILED after".to_string(),
        ),
        ("host-silent", (&[&ok[..], "471 passed, 0 failed"][..], 0), ("", 0), format!("== host: {last}")),
    ] {
        let (status, said) = gate(&format!("gate-{name}"), ci, host);
        assert!(status == 1 && said.starts_with(&end), "{name}: {status}, {said}");
    }
}
