//! Taking back in scripts: the line, what run prints and explain says, and which subcommands refuse it.

mod shared;

use circmon::{Unit, JOURNAL_ENTRIES};
use circtool::action::Action;
use circtool::assemble::{assemble, assembled};
use circtool::explain::{carried_out, Carried};
use load::Random;
use reference::{Journaled, Monitor};
use shared::{circtool, ended, err, folder, out};
use sidebyside::{image, shape, Count};

const SUBJECTS: &str = "subject 0 class 1 needs {0}\nsubject 1 class 3 needs {0,1}\n";

/// What run prints and explain says of the last step below its row, and explain's last line.
fn last(requests: &str) -> (String, String, String) {
    let script = format!("{SUBJECTS}{requests}");
    let [run, explained] = ["run", "explain"].map(|name| circtool(&[name], script.as_bytes()));
    ended(&run, 0);
    ended(&explained, 0);
    let text = out(&explained);
    let (table, summary) = text.trim_end().rsplit_once("\n\n").unwrap();
    let below: Vec<&str> = table.lines().rev().take_while(|line| line.starts_with("        ")).map(str::trim).collect();
    let below: Vec<&str> = below.into_iter().rev().collect();
    (out(&run).split_whitespace().collect::<Vec<_>>().join(" "), below.join(" "), summary.to_string())
}

#[test]
fn what_was_taken_back_is_named_with_its_step() {
    for (requests, numbers, below) in [
        ("s1 create o0\ntake back\n", "0 0", "step 1, s1 creates o0: o0 is not live, as it was before it"),
        (
            "s1 create o0\ns1 give s0 r o0\ns0 get a o0\ns1 give s0 r o0\ntake back\n",
            "0 0 6 1 0",
            "step 2, s1 gives s0 r on o0: the record of o0 is as it was before it",
        ),
        (
            "s1 create o7\ns1 level o7 class 2 needs {}\ns1 delete o7\ntake back\n",
            "0 0 0 0",
            "step 3, s1 deletes o7: the record of o7 is as it was before it",
        ),
        (
            "s1 create o7\ns1 level o7 class 2 needs {}\ntake back\n",
            "0 0 0",
            "step 2, s1 changes the level of o7 to class 2 needs {}: the record of o7 is as it was before it, with no label and no longer \
             class 2 needs {}; taking back is no request and may end a label",
        ),
        (
            "s1 create o7\ns1 level o7 class 1 needs {0}\ns1 level o7 class 2 needs {0}\ns1 delete o7\ntake back\ntake back\n",
            "0 0 0 0 0 0",
            "step 3, s1 changes the level of o7 to class 2 needs {0}: the record of o7 is as it was before it, with class 1 needs {0} and no \
             longer class 2 needs {0}; taking back is no request and may lower a label",
        ),
    ] {
        let (run, explained, _) = last(requests);
        assert_eq!((run.as_str(), explained.as_str()), (numbers, below), "{requests}");
    }
}

#[test]
fn an_empty_journal_is_17_and_says_why() {
    let why = "the journal is empty: it keeps up to 32 requests with reply 0, the oldest gives way, and one that is taken back goes; \
               a monitor begun from a table or an image has none";
    for (requests, numbers, summary) in [
        (
            "take back\n",
            "17",
            "0 requests: 0 granted (0 of them so already), 0 refused; 1 taking-back: 0 carried out, 1 refused",
        ),
        (
            "s1 create o0\ntake back\ns1 get r o0\ntake back\n",
            "0 0 4 17",
            "2 requests: 1 granted (0 of them so already), 1 refused; 2 takings-back: 1 carried out, 1 refused",
        ),
    ] {
        let (run, explained, counted) = last(requests);
        assert_eq!((run.as_str(), explained.as_str(), counted.as_str()), (numbers, why, summary), "{requests}");
    }
    let (_, _, without) = last("s1 create o0\n");
    assert_eq!(without, "1 request: 1 granted (0 of them so already), 0 refused");
}

#[test]
fn of_33_requests_the_last_32_are_taken_back() {
    let gives: String = (0..33).map(|at| ["s1 give s0 r o0\n", "s1 rescind s0 r o0\n"][at % 2]).collect();
    let script = format!("s1 create o0\n{gives}{}", "take back\n".repeat(33));
    let (run, _, summary) = last(&script);
    assert_eq!(run, format!("{}17", "0 ".repeat(34 + 32)));
    assert!(summary.ends_with("; 33 takings-back: 32 carried out, 1 refused"), "{summary}");
}

#[test]
fn the_row_and_its_line() {
    let script = format!("{SUBJECTS}s1 create o0\n# why\n  take\tback  # why\ntake back\n");
    let explained = circtool(&["explain"], script.as_bytes());
    let rows: Vec<String> =
        out(&explained).lines().filter(|it| it.contains("take back  ")).map(str::to_string).collect();
    assert_eq!(
        rows,
        ["   2     5  take back      0 taken back", "   3     6  take back      17 refused: the journal is empty"]
    );
}

#[test]
fn errors_of_the_line() {
    let no_bytes = "taking back is no request and has no bytes; 'circtool run' and 'circtool explain' carry it out";
    for (script, errors) in [
        ("take", vec!["1:5: expected 'back', found the end of the line"]),
        ("take it back", vec!["1:6: expected 'back', found 'it'"]),
        ("take back 2", vec!["1:11: expected the end of the line, found '2'"]),
        (
            "s1 take back",
            vec!["1:4: expected a request (create, get, release, give, rescind, delete, level or companies), found 'take'"],
        ),
        (
            "take back\nsubject 1 class 0 needs {}",
            vec!["2:1: the subjects stand before the first request or taking-back"],
        ),
        (
            "take back\nprofile subjects 1 objects 1 class 0 needs {}",
            vec!["2:1: the profile stands before the subjects, the requests and takings-back"],
        ),
        (
            "take bakc\n\tsubject 1 class 0 needs {}",
            vec![
                "1:6: expected 'back', found 'bakc'",
                "2:2: the subjects stand before the first request or taking-back",
            ],
        ),
    ] {
        let found = assembled(script).unwrap_err();
        assert_eq!(found.iter().map(ToString::to_string).collect::<Vec<_>>(), errors, "{script}");
    }
    let script = "s1 create o0\n take back\ns1 delete o0\ntake back\n";
    let places: Vec<String> = assemble(script).unwrap_err().iter().map(ToString::to_string).collect();
    assert_eq!(places, [format!("2:2: {no_bytes}"), format!("4:1: {no_bytes}")]);
    let refused = circtool(&["asm"], script.as_bytes());
    ended(&refused, 2);
    let message = format!("<stdin>:2:2: {no_bytes}\n<stdin>:4:1: {no_bytes}\n");
    assert_eq!((out(&refused), err(&refused)), (String::new(), message));
}

#[test]
fn a_short_piece_stands_in_the_last_line_of_a_script_with_takings_back_too() {
    assert_eq!(last("s1 create o0\ntake back\nbytes 50\n").0, "0 0 2");
    let errors = assembled("bytes 50\ntake back").unwrap_err();
    assert!(errors.len() == 1 && errors[0].line == 1, "{errors:?}");
}

#[test]
fn a_load_takes_the_subjects_of_a_script_with_takings_back() {
    let [with, without] = ["s1 create o0\ntake back\n", ""].map(|lines| {
        let loaded = circtool(&["load", "7", "4", "--table", "-"], format!("{SUBJECTS}{lines}").as_bytes());
        ended(&loaded, 0);
        out(&loaded)
    });
    assert_eq!(with, without);
}

#[test]
fn the_image_after_a_run_is_that_of_the_restored_state() {
    let folder = folder("taken-back");
    let [restored, without] = [("restored", "s1 delete o0\ntake back\n"), ("without", "")].map(|(name, lines)| {
        let file = folder.join(name);
        let script = format!("{SUBJECTS}s1 create o0\ns1 give s0 w o0\n{lines}");
        ended(&circtool(&["run", "--image", file.to_str().unwrap()], script.as_bytes()), 0);
        std::fs::read(file).unwrap()
    });
    assert_eq!(restored, without);
    assert_eq!(circmon::read(&restored), 0);
}

/// A run with takings-back between its requests, in bursts too.
fn drawn(seed: u64) -> (Vec<u8>, Vec<Action>, Journaled, Vec<u8>) {
    let (random, shape) = (&mut Random::new(seed), shape(seed));
    let table = load::table(random, shape);
    let mut second = Journaled::begin(Monitor::from_table(&table).unwrap());
    let (mut actions, mut numbers) = (Vec::new(), Vec::new());
    for _ in 0..200 {
        for _ in 0..if random.once_in(60) { JOURNAL_ENTRIES + 3 } else { random.below(6) / 4 } {
            actions.push(Action::TakeBack);
            numbers.push(second.take_back());
        }
        let bytes = load::bytes(random, shape, &second.monitor);
        numbers.push(second.request(&bytes));
        actions.push(Action::Request(bytes));
    }
    (table.to_vec(), actions, second, numbers)
}

#[test]
fn runs_with_takings_back_have_the_numbers_of_the_second_implementation_and_a_note_for_each() {
    let mut count = Count::default();
    for seed in 0..60 {
        let (table, actions, second, numbers) = drawn(seed);
        let mut unit = Unit::from_table(&table).unwrap();
        for (at, (carried, number)) in carried_out(&mut unit, &actions).into_iter().zip(numbers).enumerate() {
            match carried {
                Carried::Request(step) => assert_eq!(step.reply, number, "seed {seed}, {at}"),
                Carried::TakenBack(it) => {
                    assert_eq!(it.number, number, "seed {seed}, {at}");
                    assert!(!it.note.contains("please report it"), "seed {seed}, {at}: {}", it.note);
                    count.note(number);
                }
            }
        }
        assert_eq!(unit.image()[..], image(&second.monitor)[..], "seed {seed}");
    }
    assert!(count.numbers() == 2 && count.of(0) > 1000 && count.of(17) > 1000, "{count:?}");
}
