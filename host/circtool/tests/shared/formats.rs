//! The tables of docs/FORMATS.md.

use super::root;
use std::collections::BTreeMap;

pub fn document() -> String {
    std::fs::read_to_string(root().join("docs/FORMATS.md")).unwrap()
}

/// The cells of the table whose headings begin so.
pub fn table(heading: &str) -> Vec<Vec<String>> {
    let document = document();
    let mut lines = document.lines().skip_while(|line| !line.starts_with(&format!("| {heading} |")));
    assert!(lines.next().is_some(), "no table of {heading}");
    let cells = |line: &str| line.trim_matches('|').split('|').map(|cell| cell.trim().to_string()).collect();
    let rows: Vec<Vec<String>> = lines.skip(1).take_while(|line| line.starts_with('|')).map(cells).collect();
    assert!(rows.len() >= 3, "{rows:?}");
    rows
}

/// Where each field begins and how long it is, in bits or bytes.
pub type Fields = BTreeMap<String, (usize, usize)>;

pub fn fields(heading: &str) -> Fields {
    let number = |cell: &String| cell.parse().unwrap();
    table(heading).iter().map(|row| (row[0].clone(), (number(&row[1]), number(&row[2])))).collect()
}
