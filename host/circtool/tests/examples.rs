//! The scripts in examples/: each gets the numbers that it is written to show, under its profile.

mod shared;

use circmon::{Profile, Unit};
use circtool::action::Action;
use circtool::assemble::Assembled;
use reference::{Journaled, Monitor};
use shared::second_profile;

/// The numbers that each example is written to show.
const EXAMPLES: [(&str, &[u8]); 14] = [
    (
        "competing-suppliers",
        &[0, 0, 0, 0, 0, 0, 0, 0, 0, 0, 0, 0, 0, 0, 0, 0, 0, 0, 18, 18, 0, 0, 0, 18, 0, 18, 1, 18, 0, 0],
    ),
    ("four-answers", &[0, 0, 0, 0, 0, 0, 0, 0, 0, 0, 0, 8, 8, 8, 8, 8, 8, 0, 0, 9, 0, 9, 0, 0]),
    ("lobby-display", &[0, 0, 0, 0, 7, 7, 7, 0, 8, 8, 0, 14, 8]),
    ("marked-run", &[0, 7, 0, 1, 0, 0, 0, 0, 9, 0, 8, 0, 9, 6, 0, 1]),
    ("rights-by-object", &[0, 0, 0, 0, 0, 0, 6, 1, 0, 0, 0, 0, 6, 0]),
    ("rights-by-task", &[0, 0, 0, 0, 0, 0, 6, 0, 0, 0, 1, 0, 0, 6]),
    // objects under objects, and takings-back
    ("riser", &[0, 0, 0, 0, 0, 19, 19, 5, 20, 0, 0, 20, 0, 20, 0, 0, 20, 0, 0, 0, 0, 0, 6, 0, 17, 4, 0, 0, 17]),
    // subjects alone, for `load --table`
    ("seeded-load", &[]),
    ("slot-again", &[0, 0, 0, 0, 0, 4, 0, 7, 0, 6, 6, 6, 0]),
    // the one with a profile
    ("small-plant", &[0, 0, 0, 0, 2, 2, 3, 2, 4, 2, 2, 8]),
    ("star-conflict", &[0, 0, 0, 0, 0, 9, 0, 0, 9, 0, 0, 0, 9, 14]),
    // takings-back
    ("taken-back-delete", &[17, 0, 0, 0, 0, 0, 0, 0, 0, 4, 0, 1, 6, 8, 8, 0, 0, 14, 0, 0, 1]),
    // gets without subjects, for `orders`
    ("wake-up-gets", &[3, 3, 3, 3, 3]),
    ("wake-up", &[0, 0, 0, 0, 0, 0, 0, 0]),
];

/// The numbers in the rows of what explain prints: a row begins with its step.
fn numbers_in_rows(text: &str) -> Vec<u8> {
    let rows = text.lines().filter(|line| line.len() > 6 && line[..4].trim().parse::<usize>().is_ok());
    rows.map(|row| row.rsplit("  ").next().unwrap().split(' ').next().unwrap().parse().unwrap()).collect()
}

/// The numbers of the library and of the second implementation, which are the same.
fn numbers(profile: Profile, script: &Assembled, name: &str) -> Vec<u8> {
    let mut unit = Unit::from_table_in(profile, &script.table).unwrap();
    let mut second = Journaled::begin(Monitor::from_table_in(second_profile(profile), &script.table).unwrap());
    let mut number = |action: &Action| {
        let number = action.carry_out(&mut unit);
        let other = match action {
            Action::Request(bytes) => second.request(bytes),
            Action::TakeBack => second.take_back(),
        };
        assert_eq!(other, number, "{name}: {action:02x?}");
        number
    };
    script.actions.iter().map(|it| number(&it.action)).collect()
}

/// Where a script is all requests under the widest profile, its bytes replayed, and run by the program.
fn check_bytes(script: &Assembled, expected: &[u8], name: &str) {
    let bytes = script.bytes().unwrap();
    let mut replayed = vec![0xEE; expected.len()];
    assert_eq!(circmon::replay(&bytes[..42], &bytes[42..], &mut replayed), 0, "{name}");
    assert_eq!((&replayed[..], reference::program(&bytes)), (expected, lines(expected)), "{name}");
}

fn lines(numbers: &[u8]) -> String {
    numbers.iter().map(|number| format!("{number}\n")).collect()
}

#[test]
fn every_example_runs_as_the_library_and_the_second_implementation() {
    let files = shared::examples();
    let names: Vec<&str> = files.iter().map(|file| file.file_stem().unwrap().to_str().unwrap()).collect();
    assert_eq!(names, EXAMPLES.map(|(name, _)| name), "each example has its numbers here");
    for (file, (name, expected)) in files.iter().zip(EXAMPLES) {
        let script = std::fs::read_to_string(file).unwrap();
        assert!(script.starts_with("# "), "{name} begins with a comment that says what it shows");
        let assembled = circtool::assemble::assembled(&script).unwrap();
        let profile = assembled.profile.map_or(Profile::WIDEST, |stated| stated.profile);
        assert_eq!(profile != Profile::WIDEST, name == "small-plant", "{name}");
        assert_eq!(numbers(profile, &assembled, name), expected, "{name}");
        assert_eq!(assembled.bytes().is_err(), ["riser", "taken-back-delete"].contains(&name), "{name}");
        if profile == Profile::WIDEST && assembled.bytes().is_ok() {
            check_bytes(&assembled, expected, name);
        }
        let printed = shared::circtool(&["run", file.to_str().unwrap()], b"");
        assert_eq!(shared::out(&printed), lines(expected), "{name}");
        let printed = shared::circtool(&["explain", file.to_str().unwrap()], b"");
        shared::ended(&printed, 0);
        assert_eq!(numbers_in_rows(&shared::out(&printed)), expected, "{name}");
        assert!(!shared::out(&printed).contains("please report"), "{name}");
    }
}
