//! Profiles on the command line: the line of a script, the option, and which subcommands take which.

mod shared;

use circmon::Profile;
use circtool::assemble::{assemble, assembled};
use circtool::profile::profile_words;
use load::Random;
use shared::{circtool, ended, err, folder, out};
use sidebyside::profiles;

const SMALL: &str = "subjects 4 objects 10 class 3 needs {0,1}";
const SUBJECTS: &str = "subject 1 class 3 needs {0,1}\n";
const REQUESTS: &str =
    "s1 create o9\ns1 create o10\ns4 create o0\ns1 level o9 class 3 needs {0,1}\ns1 level o9 class 4 needs {0,1}\n";
const REPLIES: &str = "0\n2\n2\n0\n2\n";

/// The script with the profile in its first line.
fn with_profile() -> String {
    format!("profile {SMALL}\n{SUBJECTS}{REQUESTS}")
}

fn errors(script: &str) -> Vec<String> {
    match assembled(script) {
        Ok(bytes) => panic!("no error in {script:?}: {bytes:?}"),
        Err(errors) => errors.iter().map(ToString::to_string).collect(),
    }
}

#[test]
fn every_profile_is_read_as_it_is_written() {
    for seed in 0..2000 {
        let profile = profiles::proved(profiles::drawn(&mut Random::new(seed))).unwrap();
        let line = format!("# a plant\n\n  profile {} # why\n{SUBJECTS}{REQUESTS}", profile_words(profile));
        let script = assembled(&line).unwrap();
        assert_eq!(script.profile.map(|it| (it.line, it.profile)), Some((3, profile)), "{line}");
        assert_eq!(script.bytes(), assemble(&format!("{SUBJECTS}{REQUESTS}")), "a profile has no bytes");
    }
    assert_eq!(assembled(SUBJECTS).unwrap().profile, None);
}

#[test]
fn errors_of_a_profile() {
    let (first, once) =
        ("the profile stands before the subjects, the requests and takings-back", "the profile stands once");
    for (script, error) in [
        ("profile", "1:8: expected 'subjects', found the end of the line".to_string()),
        ("profile 4 10 3 {}", "1:9: expected 'subjects', found '4'".to_string()),
        ("profile subjects 0", "1:18: expected a number of subjects (1 to 16), found '0'".to_string()),
        ("profile subjects 17", "1:18: expected a number of subjects (1 to 16), found '17'".to_string()),
        ("profile subjects s4", "1:18: expected a number of subjects (1 to 16), found 's4'".to_string()),
        ("profile subjects 4 class 3", "1:20: expected 'objects', found 'class'".to_string()),
        ("profile subjects 4 objects 0", "1:28: expected a number of objects (1 to 64), found '0'".to_string()),
        ("profile subjects 4 objects 65", "1:28: expected a number of objects (1 to 64), found '65'".to_string()),
        ("profile subjects 4 objects 10 class 16", "1:37: expected a class (0 to 15), found '16'".to_string()),
        ("profile subjects 4 objects 10 class 3", "1:38: expected 'needs', found the end of the line".to_string()),
        ("profile subjects 4 objects 10 class 3 needs {16}", "1:46: expected a need (0 to 15), found '16'".to_string()),
        (
            "profile subjects 4 objects 10 class 3 needs 0 1",
            "1:45: needs are a set in braces: write 'needs {0,1}'".to_string(),
        ),
        (
            "profile subjects 4 objects 10 class 3 needs {} now",
            "1:48: expected the end of the line, found 'now'".to_string(),
        ),
    ] {
        assert_eq!(errors(script), [error], "{script}");
    }
    for before in [SUBJECTS.to_string(), "s1 create o0\n".to_string(), "bytes 00 00 00 00 00 00\n".to_string()] {
        assert_eq!(errors(&format!("{before}  profile {SMALL}")), [format!("2:3: {first}")], "{before}");
    }
    let table = format!("table-bytes{}\nprofile {SMALL}", " 00".repeat(42));
    assert_eq!(errors(&table), [format!("2:1: {first}")]);
    assert_eq!(errors(&format!("profile {SMALL}\nprofile {SMALL}")), [format!("2:1: {once}")]);
    let by_bytes = format!("profile {SMALL}\ntable-bytes{}\n", " 00".repeat(42));
    assert!(assembled(&by_bytes).is_ok(), "the bytes of the table stand behind the profile");
}

#[test]
fn run_and_explain_take_the_profile_of_the_script_or_of_the_option() {
    let (plain, stated) = (format!("{SUBJECTS}{REQUESTS}"), with_profile());
    let bytes = assemble(&plain).unwrap();
    let option = format!("--profile={SMALL}");
    for (words, input) in [
        (vec!["run"], stated.as_bytes()),
        (vec!["run", "--script"], stated.as_bytes()),
        (vec!["run", "--profile", SMALL], plain.as_bytes()),
        (vec!["run", &option], &bytes),
        (vec!["run", "--bytes", "--profile", SMALL], &bytes),
    ] {
        let output = circtool(&words, input);
        ended(&output, 0);
        assert_eq!(out(&output), REPLIES, "{words:?}");
    }
    assert_eq!(out(&circtool(&["run"], &bytes)), "0\n0\n3\n0\n0\n", "under the widest profile");
    let [from_script, from_option] =
        [circtool(&["explain"], stated.as_bytes()), circtool(&["explain", &option], plain.as_bytes())];
    ended(&from_script, 0);
    assert!(out(&from_script).starts_with(&format!("profile\n  {SMALL}\n\nsubjects\n  s1 ")), "{}", out(&from_script));
    // the lines of the script are one further down
    let steps =
        |text: String| text.lines().filter(|it| it.starts_with("        ")).map(str::to_string).collect::<Vec<_>>();
    assert_eq!(steps(out(&from_script)), steps(out(&from_option)));
    assert!(!out(&circtool(&["explain"], plain.as_bytes())).contains("profile"));
    for name in ["run", "explain"] {
        let both = circtool(&[name, &option], stated.as_bytes());
        ended(&both, 2);
        assert_eq!(err(&both), "<stdin>:1: the script has a profile, and --profile gives one too\n");
        assert!(both.stdout.is_empty());
    }
}

#[test]
fn the_option_has_the_words_of_a_script_and_its_errors_a_column() {
    for name in ["run", "explain", "show", "page", "compare", "orders"] {
        let files: &[&str] = if ["compare", "orders", "page"].contains(&name) { &["a", "o1"] } else { &[] };
        for (option, message) in [
            ("--profile=", "expected a profile behind --profile".to_string()),
            ("--profile=4 10", "--profile, column 1: expected 'subjects', found '4'".to_string()),
            (
                "--profile=subjects 99",
                "--profile, column 10: expected a number of subjects (1 to 16), found '99'".to_string(),
            ),
            (
                "--profile=subjects 4 objects 10 class 3 needs {0,1} x",
                "--profile, column 43: expected the end of the line, found 'x'".to_string(),
            ),
        ] {
            let output = circtool(&[&[name, option], files].concat(), b"");
            ended(&output, 2);
            assert_eq!(err(&output), format!("circtool {name}: {message}; see 'circtool {name} --help'\n"));
        }
    }
    for name in ["asm", "dis", "load"] {
        let output = circtool(&[name, "--profile", SMALL], b"");
        ended(&output, 2);
        assert_eq!(
            err(&output),
            format!("circtool {name}: unknown option '--profile'; see 'circtool {name} --help'\n")
        );
    }
}

#[test]
fn asm_and_load_take_no_narrower_profile() {
    let widest = format!("profile {}\n{SUBJECTS}{REQUESTS}", profile_words(Profile::WIDEST));
    let assembled = circtool(&["asm"], widest.as_bytes());
    ended(&assembled, 0);
    assert_eq!(Ok(assembled.stdout), assemble(&format!("{SUBJECTS}{REQUESTS}")));
    let refused = circtool(&["asm"], format!("# a plant\n{}", with_profile()).as_bytes());
    ended(&refused, 2);
    assert!(refused.stdout.is_empty());
    assert_eq!(
        err(&refused),
        "<stdin>:2: a profile has no bytes, and the program circmon runs under the widest one; \
         'circtool run' and 'circtool explain' run this script\n"
    );
    ended(&circtool(&["load", "1", "3", "--table", "-"], widest.as_bytes()), 0);
    let refused = circtool(&["load", "1", "3", "--table", "-"], with_profile().as_bytes());
    ended(&refused, 2);
    let message = "<stdin>: a load is for the widest profile, and this script has a narrower one\n";
    assert_eq!((out(&refused), err(&refused)), (String::new(), message.to_string()));
}

#[test]
fn images_are_read_under_the_profile_of_the_option() {
    let folder = folder("profiles");
    let [a, b, gets] = ["a.img", "b.img", "gets.circ"].map(|name| folder.join(name).to_str().unwrap().to_string());
    ended(&circtool(&["run", "--image", &a], with_profile().as_bytes()), 0);
    let more = format!("{}s1 create o0\n", with_profile());
    ended(&circtool(&["run", "--image", &b], more.as_bytes()), 0);
    let option = format!("--profile={SMALL}");
    let shown = circtool(&["show", &option, &a], b"");
    ended(&shown, 0);
    assert!(out(&shown).contains(&format!("\n\nprofile\n  {SMALL}\n\nsubjects\n")), "{}", out(&shown));
    let [with, without] = [out(&shown), out(&circtool(&["show", &a], b""))];
    assert_eq!(with.replace(&format!("profile\n  {SMALL}\n\n"), ""), without, "the widest is not shown");
    let equal = circtool(&["compare", &option, &a, &a], b"");
    ended(&equal, 0);
    assert!(out(&equal).starts_with(&format!("equal: {a} and {a}, under the profile {SMALL}\n")), "{}", out(&equal));
    let different = circtool(&["compare", &option, &a, &b], b"");
    ended(&different, 1);
    assert!(out(&different).contains(&format!("\ndifferent in 1 place, under the profile {SMALL}\n")));
    let page = circtool(&["page", &option, &a, "o9", "o10"], b"");
    ended(&page, 1);
    let beyond = "page of o10: 4 refused: the object is not live; object o10 is beyond the profile: 10 objects, o0 to o9 are in use";
    assert_eq!((out(&page), err(&page)), (String::new(), format!("{a}: {beyond}\n")));
    // the profile of the gets, and both
    std::fs::write(&gets, format!("profile {SMALL}\ns1 get r o9\ns4 get r o9\n")).unwrap();
    let orders = circtool(&["orders", &a, &gets], b"");
    ended(&orders, 2);
    let message =
        "expected a get, found 's4 gets r on o9': subject s4 is beyond the profile: 4 subjects, s0 to s3 are in use";
    assert_eq!(err(&orders), format!("{gets}:3: {message}\n"));
    let both = circtool(&["orders", &option, &a, &gets], b"");
    ended(&both, 2);
    assert_eq!(err(&both), format!("{gets}:1: the script has a profile, and --profile gives one too\n"));
    ended(&circtool(&["orders", &option, &a], b"s1 get r o9\n"), 0);
}
