//! Scripts: every form of a line, and errors with line, column and what was expected.

mod shared;

use circtool::assemble::assemble;
use circtool::disassemble::disassemble;
use load::Random;

fn hex(text: &str) -> Vec<u8> {
    text.split_whitespace().map(|it| u8::from_str_radix(it, 16).unwrap()).collect()
}

#[test]
fn the_bytes_of_the_marked_run() {
    let script = "subject 0 class 1 needs {0}\nsubject 1 class 3 needs {0,1}\nsubject 2 class 0 needs {}\n\
                  s1 create o0\ns1 level o0 class 0 needs {}\ns1 level o1 class 2 needs {0}\n";
    let mut expected = hex("88 00 0C C0 00 E0");
    expected.resize(42, 0);
    expected.extend(hex("50 80 00 00 00 00 70 80 00 00 00 00 70 80 08 20 00 10"));
    assert_eq!(assemble(script).unwrap(), expected);
}

#[test]
fn comments_blank_lines_order_and_spaces_do_not_count() {
    let plain = assemble("subject 1 class 3 needs {0,1}\nsubject 4 class 0 needs {}\ns1 create o1 with e\n").unwrap();
    let loose = "# a comment\r\n\r\n\tsubject 4 class 0 needs {} # flat 4\r\n  subject   1 class 3 needs { 1, 0}\n\n\
                 s1\tcreate o1 with e#last";
    assert_eq!(assemble(loose).unwrap(), plain);
}

#[test]
fn raw_bytes_and_tables() {
    assert_eq!(assemble("").unwrap(), [0; 42]);
    assert_eq!(assemble("table-bytes none").unwrap(), []);
    assert_eq!(assemble("table-bytes 88 0c").unwrap(), [0x88, 0x0C]);
    let mut expected = vec![0; 42];
    expected.extend(hex("01 02 03 04 05 06 50 80 00 00 00 00 FF"));
    assert_eq!(assemble("bytes 01 02 03 04 05 06\ns1 create o0\nbytes ff # short\n# the end\n").unwrap(), expected);
}

/// The errors as they are printed, without the name of the file.
fn errors(script: &str) -> Vec<String> {
    match assemble(script) {
        Ok(bytes) => panic!("no error in {script:?}: {bytes:02x?}"),
        Err(errors) => errors.iter().map(|error| error.to_string()).collect(),
    }
}

#[test]
fn errors_of_requests() {
    let first = "expected a subject (s0 to s15), 'take back', 'profile', 'subject', 'bytes' or 'table-bytes'";
    let verbs = "expected a request (create, get, release, give, rescind, delete, level or companies)";
    for (line, error) in [
        ("s1 get x o0", "1:8: expected a mode (r, w, a or e), found 'x'".to_string()),
        ("s1 get rw o0", "1:8: expected a mode (r, w, a or e), found 'rw'".to_string()),
        ("s1 get r", "1:9: expected an object (o0 to o63), found the end of the line".to_string()),
        ("s1 get r o64", "1:10: expected an object (o0 to o63), found 'o64'".to_string()),
        ("s1 get r 0", "1:10: expected an object (o0 to o63), found '0'".to_string()),
        ("s1 get r o0 o1", "1:13: expected the end of the line, found 'o1'".to_string()),
        ("s16 get r o0", format!("1:1: {first}, found 's16'")),
        ("  s01 get r o0", format!("1:3: {first}, found 's01'")),
        ("S1 get r o0", format!("1:1: {first}, found 'S1'")),
        ("s1", format!("1:3: {verbs}, found the end of the line")),
        ("s1 creat o0", format!("1:4: {verbs}, found 'creat'")),
        (
            "s1 create o0 e",
            "1:14: expected 'under' and an object, 'with e' or the end of the line, found 'e'".to_string(),
        ),
        ("s1 create o0 under", "1:19: expected an object (o0 to o63), found the end of the line".to_string()),
        ("s1 create o0 under o64", "1:20: expected an object (o0 to o63), found 'o64'".to_string()),
        ("s1 create o0 under o1 e", "1:23: expected 'with e' or the end of the line, found 'e'".to_string()),
        ("s1 create o0 with e under o1", "1:21: expected the end of the line, found 'under'".to_string()),
        ("s1 delete o0 under o1", "1:14: expected the end of the line, found 'under'".to_string()),
        ("s1 create o0 with r", "1:19: expected 'e', found 'r'".to_string()),
        ("s1 create o0 with # e", "1:18: expected 'e', found the end of the line".to_string()),
    ] {
        assert_eq!(errors(line), [error], "{line}");
    }
}

#[test]
fn errors_behind_the_first_words() {
    let company = |class| format!("expected the company of conflict class {class} of 4 (0 to 15, 0 for none)");
    for (line, error) in [
        ("s1 give r o0", "1:9: expected a subject (s0 to s15), found 'r'".to_string()),
        ("s1 give s2 o0", "1:12: expected a mode (r, w, a or e), found 'o0'".to_string()),
        ("s1 rescind s16 r o0", "1:12: expected a subject (s0 to s15), found 's16'".to_string()),
        ("s1 level o0 2 needs 0", "1:13: expected 'class', found '2'".to_string()),
        ("s1 level o0 class 16 needs {0}", "1:19: expected a class (0 to 15), found '16'".to_string()),
        ("s1 level o0 class 2", "1:20: expected 'needs', found the end of the line".to_string()),
        (
            "s1 level o0 class 2 needs",
            "1:26: expected a set of needs, as {0,1} or {}, found the end of the line".to_string(),
        ),
        ("s1 level o0 class 2 needs {0,16}", "1:30: expected a need (0 to 15), found '16'".to_string()),
        ("s1 level o0 class 2 needs {3,0,3}", "1:32: this need stands twice".to_string()),
        ("s1 level o0 class 2 needs {0 1}", "1:30: expected ',' or '}', found '1'".to_string()),
        ("s1 level o0 class 2 needs {0,}", "1:30: expected a need (0 to 15), found '}'".to_string()),
        ("s1 level o0 class 2 needs {,0}", "1:28: expected a need (0 to 15), found ','".to_string()),
        ("s1 level o0 class 2 needs {0", "1:29: expected ',' or '}', found the end of the line".to_string()),
        ("s1 level o0 class 2 needs {0}}", "1:30: expected the end of the line, found '}'".to_string()),
        ("s1 level o0 class 2 needs {} 0", "1:30: expected the end of the line, found '0'".to_string()),
        ("s1 level o0 class 2 needs {0}x", "1:30: expected the end of the line, found 'x'".to_string()),
        ("s1 level o0 class 2 needs 0}", "1:27: expected a set of needs, as {0,1} or {}, found '0'".to_string()),
        ("s1 companies o0", format!("1:16: {}, found the end of the line", company(1))),
        ("s1 companies o0 1 0 0", format!("1:22: {}, found the end of the line", company(4))),
        ("s1 companies o0 1 16 0 0", format!("1:19: {}, found '16'", company(2))),
        ("s1 companies o0 {1,0,0,0}", format!("1:17: {}, found '{{'", company(1))),
        ("s1 companies o0 1 0 0 2 3", "1:25: expected the end of the line, found '3'".to_string()),
        ("s1 companies 1 0 0 2", "1:14: expected an object (o0 to o63), found '1'".to_string()),
        ("s1 delete o0 now", "1:14: expected the end of the line, found 'now'".to_string()),
    ] {
        assert_eq!(errors(line), [error], "{line}");
    }
}

#[test]
fn needs_without_braces_are_an_error_that_shows_the_set() {
    for (needs, set) in [("none", "{}"), ("0", "{0}"), ("0 1", "{0,1}"), ("3,4", "{3,4}"), ("16", "{16}")] {
        let error = format!("needs are a set in braces: write 'needs {set}'");
        assert_eq!(errors(&format!("subject 1 class 0 needs {needs}")), [format!("1:25: {error}")]);
        assert_eq!(errors(&format!("s1 level o0 class 2 needs {needs} # why")), [format!("1:27: {error}")]);
    }
}

#[test]
fn only_the_white_space_of_ascii_stands_between_words() {
    let plain = assemble("subject 1 class 3 needs {0,1}").unwrap();
    for spaced in ["\tsubject 1  class\t3 needs{ 0 , 1 }\r\n", "\x0csubject 1 class 3 needs {0,\t1} \n"] {
        assert_eq!(assemble(spaced).unwrap(), plain, "{spaced:?}");
    }
    let first = "expected a subject (s0 to s15), 'take back', 'profile', 'subject', 'bytes' or 'table-bytes'";
    for (script, error) in [
        ("s1\u{a0}get r o0", format!("1:1: {first}, found 's1<U+00A0>get'")),
        ("\u{a0}s1 get r o0", format!("1:1: {first}, found '<U+00A0>s1'")),
        ("s1 get r o0\u{200b}", "1:10: expected an object (o0 to o63), found 'o0<U+200B>'".to_string()),
        ("s1 get \u{3000} o0", "1:8: expected a mode (r, w, a or e), found '<U+3000>'".to_string()),
        ("s1 get r\u{feff} o0", "1:8: expected a mode (r, w, a or e), found 'r<U+FEFF>'".to_string()),
    ] {
        assert_eq!(errors(script), [error], "{script:?}");
    }
}

#[test]
fn a_byte_order_mark_before_the_script_does_not_count() {
    let script = "subject 1 class 3 needs {0,1}\ns1 create o0\n";
    assert_eq!(assemble(&format!("\u{feff}{script}")), assemble(script));
    assert_eq!(errors("\u{feff}s1 get x o0"), ["1:8: expected a mode (r, w, a or e), found 'x'"]);
    // only one, and only before the first line
    assert_eq!(errors("\u{feff}\u{feff}# why").len(), 1);
    assert_eq!(errors("# why\n\u{feff}s1 create o0").len(), 1);
}

#[test]
fn errors_of_subjects_and_bytes() {
    let whole = "table-bytes gives the whole table and stands first, once";
    for (script, error) in [
        ("subject 16 class 0 needs {}", "1:9: expected a subject number (0 to 15), found '16'".to_string()),
        ("subject s1 class 0 needs {}", "1:9: expected a subject number (0 to 15), found 's1'".to_string()),
        ("subject 1 class 0", "1:18: expected 'needs', found the end of the line".to_string()),
        ("subject 1 class 0 needs {1}\n\nsubject 1 class 2 needs {1}", "3:9: this subject stands twice".to_string()),
        (
            "s1 create o0\nsubject 1 class 0 needs {1}",
            "2:1: the subjects stand before the first request or taking-back".to_string(),
        ),
        ("bytes", "1:6: expected a byte (two hexadecimal digits), found the end of the line".to_string()),
        ("bytes 5", "1:7: expected a byte (two hexadecimal digits), found '5'".to_string()),
        ("bytes +5", "1:7: expected a byte (two hexadecimal digits), found '+5'".to_string()),
        ("bytes 00 0x1", "1:10: expected a byte (two hexadecimal digits), found '0x1'".to_string()),
        ("bytes 0 é", "1:7: expected a byte (two hexadecimal digits), found '0'".to_string()),
        ("bytes 01 é", "1:10: expected a byte (two hexadecimal digits), found 'é'".to_string()),
        ("bytes 1 2 3 4 5 6 7", "1:7: expected a byte (two hexadecimal digits), found '1'".to_string()),
        ("bytes 01 02 03 04 05 06 07", "1:25: expected the end of the line after 6 bytes, found '07'".to_string()),
        ("table-bytes 88\ntable-bytes 88", format!("2:1: {whole}")),
        ("subject 1 class 0 needs {1}\ntable-bytes 88", format!("2:1: {whole}")),
        ("table-bytes none 00", "1:18: expected the end of the line, found '00'".to_string()),
        ("table-bytes", "1:12: expected a byte (two hexadecimal digits), found the end of the line".to_string()),
    ] {
        assert!(errors(script).contains(&error), "{script:?}: {:?}", errors(script));
    }
    let long = format!("table-bytes{}\nsubject 1 class 0 needs {{1}}", " 00".repeat(42));
    assert_eq!(errors(&long), ["2:1: expected no subject, since table-bytes gives the whole table"]);
    let long = format!("table-bytes{}", " 00".repeat(43));
    assert_eq!(errors(&long), ["1:139: expected the end of the line after 42 bytes, found '00'"]);
}

#[test]
fn short_pieces_stand_only_in_the_last_line() {
    assert_eq!(
        errors("s1 create o0\n  bytes 50 80\n# nothing\ns1 create o1"),
        ["2:3: expected 6 bytes, found 2: a shorter piece stands only in the last line, since circmon cuts its input \
          into pieces of 6 bytes"]
    );
    assert_eq!(
        errors("table-bytes 88\ns1 create o1"),
        ["1:1: expected 42 bytes, found 1: a shorter table stands only in the last line, since circmon takes the first \
          42 bytes as the table"]
    );
}

#[test]
fn every_error_of_a_script_is_reported_in_its_order() {
    let script = "subjct 1 class 2 needs {0}\nsubject 2 class 2 needs {0}\nbytes 00\ns1 get x o0\ns2 get r o99\n";
    let places: Vec<String> = errors(script).iter().map(|error| error[..3].to_string()).collect();
    // a misspelt subject does not make the next line wrong
    assert_eq!(places, ["1:1", "3:1", "4:8", "5:1"]);
}

/// The script with a few words, lines and characters damaged.
fn damaged(random: &mut Random, script: &str) -> String {
    let mut letters: Vec<char> = script.chars().collect();
    for _ in 0..1 + random.below(4) {
        let at = random.below(letters.len().max(1));
        if letters.is_empty() {
            break;
        }
        match random.below(4) {
            0 => letters[at] = ['x', '9', ' ', '\n', '#', 'é', '\t', 'o'][random.below(8)],
            1 => drop(letters.remove(at)),
            2 => letters.insert(at, [' ', '0', 's', '\n', '\u{3000}', '-'][random.below(6)]),
            _ => letters.truncate(at),
        }
    }
    letters.into_iter().collect()
}

#[test]
fn damaged_scripts_have_errors_at_places_that_exist_or_are_read_as_they_stand() {
    let script = std::fs::read_to_string(shared::root().join("examples/star-conflict.circ")).unwrap();
    let (mut read, mut refused) = (0, 0);
    for seed in 0..20_000 {
        let text = damaged(&mut Random::new(seed), &script);
        match assemble(&text) {
            Ok(bytes) => {
                read += 1;
                assert_eq!(assemble(&disassemble(&bytes)).as_ref(), Ok(&bytes), "seed {seed}");
            }
            Err(errors) => {
                refused += 1;
                for error in errors {
                    let line = text.lines().nth(error.line - 1).unwrap_or_else(|| panic!("seed {seed}: {error}"));
                    assert!((1..=line.chars().count() + 1).contains(&error.column), "seed {seed}: {error}");
                }
            }
        }
    }
    assert!(read > 1000 && refused > 1000, "{read} read, {refused} refused");
}
