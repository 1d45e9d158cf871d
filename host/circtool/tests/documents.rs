//! The documents show what commands print. In a block that begins with ```console a line that begins with `$ ` is a
//! command, and the lines up to the next one are what it prints, on standard output and standard error together. The
//! commands of a document run one after another in the root of a fresh clone, README's first. A command outside such a
//! block must be one of `ELSEWHERE`.

mod shared;

use shared::clone::Clone;
use shared::{err, out, root};
use std::io::{BufRead, BufReader, Read};
use std::process::{Command, Stdio};

struct Shown {
    line: usize,
    command: String,
    output: String,
}

/// Commands that are run by other tests, or that run the tests.
const ELSEWHERE: [&str; 3] = [
    // `first_command` below
    "./circtool explain examples/lobby-display.circ",
    // the gate, which runs these tests
    ".ci/run",
    // `the_benchmark` below, with a word behind it
    "cargo run --release -p bench",
];

/// The commands in blocks of a document.
fn commands(text: &str) -> Vec<Shown> {
    let mut shown: Vec<Shown> = Vec::new();
    let mut inside = false;
    for (at, line) in text.lines().enumerate() {
        if !inside {
            inside = line == "```console";
        } else if line == "```" {
            inside = false;
        } else if let Some(command) = line.strip_prefix("$ ") {
            shown.push(Shown { line: at + 1, command: command.to_string(), output: String::new() });
        } else {
            let last = shown.last_mut().unwrap_or_else(|| panic!("line {}: no command before it", at + 1));
            last.output.push_str(line);
            last.output.push('\n');
        }
    }
    assert!(!inside, "a block is not closed");
    shown
}

/// Commands in indented lines, without the comment behind them.
fn indented_commands(text: &str) -> Vec<&str> {
    let programs = ["./", ".ci/", "tools/", "rt ", "cargo ", "cc ", "cd ", "circtool ", "target/"];
    let lines = text.lines().filter_map(|line| line.strip_prefix("    "));
    let commands = lines.filter(|line| programs.iter().any(|program| line.starts_with(program)));
    commands.map(|line| line.split(" #").next().unwrap_or(line).trim_end()).collect()
}

/// What a command prints, on standard output and standard error together.
fn printed(clone: &Clone, command: &str) -> String {
    let output = clone.shell(&format!("{{ {command}\n}} 2>&1")).output().unwrap();
    String::from_utf8(output.stdout).unwrap()
}

/// Runs the commands of a document in the clone, as many as are returned.
fn check(document: &str, clone: &Clone) -> usize {
    let text = std::fs::read_to_string(root().join(document)).unwrap();
    for command in indented_commands(&text) {
        assert!(ELSEWHERE.contains(&command), "{document}: no test runs '{command}'");
    }
    let shown = commands(&text);
    for it in &shown {
        let printed = printed(clone, &it.command);
        assert_eq!(printed, it.output, "{document}:{}: {}\nprints\n{printed}", it.line, it.command);
    }
    shown.len()
}

/// The first command of README in a fresh clone: it says what it proves, and a second one beside it that it waits.
fn first_command(clone: &Clone) {
    let text = std::fs::read_to_string(root().join("README.md")).unwrap();
    let command = indented_commands(&text)[0].to_string();
    let start = || clone.shell(&command).stdout(Stdio::piped()).stderr(Stdio::piped()).spawn().unwrap();
    let mut first = start();
    let mut said = BufReader::new(first.stderr.take().unwrap());
    let mut lines = String::new();
    while !lines.contains("circmon: proving the library, ") {
        assert!(said.read_line(&mut lines).unwrap() > 0, "{lines}");
    }
    let second = start().wait_with_output().unwrap();
    said.read_to_string(&mut lines).unwrap();
    let first = first.wait_with_output().unwrap();
    for (output, said) in [(&first, &lines), (&second, &err(&second))] {
        assert!(output.status.success(), "{said}");
        assert!(out(output).ends_with(" refused\n"), "{}", out(output));
    }
    let waits = "circmon: another call is building; this one waits until it has ended\n";
    assert_eq!(err(&second).lines().next(), waits.lines().next(), "{}", err(&second));
    assert!(!lines.contains(waits), "{lines}");
    let (_, behind) = lines.split_once("circmon: proving the library, ").unwrap();
    let crates: usize = behind.split(' ').next().unwrap().parse().unwrap();
    let counted = |at: usize| lines.contains(&format!("circmon: proved {at} of {crates}, {} left: ", crates - at));
    assert!(crates > 1 && (1..crates).all(counted), "{lines}");
}

#[test]
fn every_document_in_a_fresh_clone() {
    let clone = Clone::new("documents");
    first_command(&clone);
    let mut shown = check("README.md", &clone);
    let entries = std::fs::read_dir(root().join("docs")).unwrap().map(Result::unwrap);
    // a folder there has no pages
    let files = entries.filter(|it| it.file_type().unwrap().is_file());
    let mut documents: Vec<_> = files.map(|it| it.file_name()).collect();
    documents.sort();
    for document in documents {
        // who begins with this page has the command, and nothing else that was built
        clone.without_built();
        shown += check(&format!("docs/{}", document.to_str().unwrap()), &clone);
    }
    assert!(shown >= 30, "README.md and docs/ show {shown} commands");
}

#[test]
fn the_page_of_circtool_shows_each_subcommand() {
    let shown = commands(&std::fs::read_to_string(root().join("docs/CIRCTOOL.md")).unwrap());
    for name in ["asm", "dis", "explain", "run", "show", "page", "load", "compare", "orders", "help"] {
        let calls = |it: &Shown| {
            it.command.split([' ', ';', '|']).collect::<Vec<_>>().windows(2).any(|two| two == ["./circtool", name])
        };
        assert!(shown.iter().any(calls), "no example of {name}");
    }
}

#[test]
fn the_benchmark() {
    let words = ["run", "--release", "-p", "bench", "--offline", "--", "refused, 4 objects, sparse"];
    let output = Command::new("cargo").args(words).current_dir(root().join("host")).output().unwrap();
    let text = String::from_utf8_lossy(&output.stdout);
    assert!(output.status.success(), "{text}");
    assert_eq!(text.lines().filter(|line| line.starts_with("refused, 4 objects, sparse")).count(), 1, "{text}");
}

#[test]
fn an_output_that_is_not_so_would_be_seen() {
    let text =
        "```console\n$ echo 'circtool 0.0.1'\ncirctool 0.0.0\n```\n\n    cargo run --release  # why\n    no command\n";
    let shown = commands(text);
    assert_eq!(shown.len(), 1);
    assert_eq!((shown[0].line, shown[0].output.as_str()), (2, "circtool 0.0.0\n"));
    let clone = Clone::new("documents-not-so");
    assert_eq!(printed(&clone, &shown[0].command), "circtool 0.0.1\n");
    assert_eq!(indented_commands(text), ["cargo run --release"]);
    assert_eq!(printed(&clone, "echo out; echo err >&2; cat target/none").lines().count(), 3);
}
