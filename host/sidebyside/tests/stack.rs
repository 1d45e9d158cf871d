//! The stack of each function, measured by c/stack.c, beside the table of docs/EMBEDDING.md. A delete of objects in a chain of 64 is
//! measured by itself: every other request stays under 1 KB.

use sidebyside::{compiled_here, root};
use std::process::Command;

/// Less than this the function must need.
const UNDER: [(&str, usize); 4] =
    [("circmon_ask", 1024), ("circmon_open", 8192), ("circmon_start", 8192), ("circmon_save", 8192)];

type Rows = Vec<(String, usize)>;

/// The heading of the table in docs/EMBEDDING.md: each function and its bytes of stack.
const HEADING: &str = "| function | bytes of stack |";

fn documented() -> Rows {
    let text = std::fs::read_to_string(root().join("docs/EMBEDDING.md")).unwrap();
    let table = text.lines().skip_while(|line| *line != HEADING).skip(2).take_while(|line| line.starts_with('|'));
    let rows = table.map(|line| line.trim_matches(['|', ' ']).split_once(" | ").unwrap());
    rows.map(|(name, bytes)| (name.replace('`', ""), bytes.replace(',', "").parse().unwrap())).collect()
}

/// Functions of the C library are bound when the program starts: bound at the first call, they would need stack of the loader's there.
const WORDS: [&str; 3] = ["-O1", "-pthread", "-Wl,-z,now"];

fn measured() -> Rows {
    let output = Command::new(compiled_here("stack", env!("CARGO_TARGET_TMPDIR"), &WORDS)).output().unwrap();
    let text = String::from_utf8(output.stdout).unwrap();
    println!("{text}");
    let row = |line: &str| {
        let parts: Vec<&str> = line.split('\t').collect();
        // what is measured is granted: a delete, and the last of the others
        assert!(!line.contains("a delete") || parts[2] == "0", "{line}");
        (parts[0].to_string(), parts[1].parse().unwrap())
    };
    text.lines().map(row).collect()
}

/// The table as it should stand: each number with some room, in steps of 50, and of 500 from 5,000 on.
fn table(rows: &Rows) -> String {
    let row = |(name, used): &(String, usize)| {
        let step = if *used < 5000 { 50 } else { 500 };
        let bytes = (used + 16).next_multiple_of(step);
        let thousands = if bytes < 1000 { bytes.to_string() } else { format!("{},{:03}", bytes / 1000, bytes % 1000) };
        let (function, more) = name.split_at(name.find(',').unwrap_or(name.len()));
        format!("| `{function}`{more} | {thousands} |\n")
    };
    rows.iter().map(row).collect()
}

/// What is said suffices, and is not much more than is used.
fn fits(used: usize, said: usize) -> bool {
    used <= said && said <= used + used / 8 + 64
}

#[test]
fn the_stack_is_as_documented() {
    let (measured, documented) = (measured(), documented());
    let said = |name: &str| documented.iter().find(|row| row.0 == name).map(|row| row.1);
    let same = measured.len() == documented.len()
        && measured.iter().all(|(name, used)| said(name).is_some_and(|said| fits(*used, said)));
    assert!(same, "used: {measured:?}; docs/EMBEDDING.md should say\n{}", table(&measured));
    for (name, under) in UNDER {
        assert!(said(name).is_some_and(|bytes| bytes < under), "{name} needs {under} bytes or more: {documented:?}");
    }
}
