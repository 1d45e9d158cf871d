//! What an input is taken for: scripts with a mark or an invisible character, images, and text given as bytes.

mod shared;

use circtool::input::{form, Form};
use load::Random;
use shared::{circtool, ended, err, out};

const SCRIPT: &str = "subject 1 class 3 needs {0,1}\ns1 create o0\ns1 get r o0\n";
const MARK: &str = "\u{feff}";

#[test]
fn a_script_with_a_byte_order_mark_is_a_script() {
    let marked = format!("{MARK}{SCRIPT}");
    for words in [["asm", "-"], ["explain", "-"], ["run", "-"]] {
        let (plain, marked) = (circtool(&words, SCRIPT.as_bytes()), circtool(&words, marked.as_bytes()));
        ended(&marked, 0);
        assert_eq!((marked.stdout, marked.stderr), (plain.stdout, plain.stderr), "{words:?}");
    }
    for file in shared::examples() {
        let marked = [MARK.as_bytes(), &std::fs::read(&file).unwrap()].concat();
        assert_eq!(form(&marked), Form::Script, "{}", file.display());
    }
}

#[test]
fn an_accepted_table_that_begins_like_a_mark_is_a_table() {
    let mut accepted = 0;
    for seed in 0..2000 {
        // all subjects enrolled; the first bytes are those of the mark, which are class 13 and some needs of subject 0
        let mut table = Random::new(seed).bytes(42);
        for subject in 0..16 {
            table[21 * subject / 8] |= 0x80 >> (21 * subject % 8);
        }
        table[..3].copy_from_slice(MARK.as_bytes());
        let number = circmon::begin(&table, &mut [0; circmon::IMAGE_BYTES]);
        accepted += usize::from(number == 0);
        assert_eq!(form(&table), if number == 0 { Form::Bytes } else { Form::Script }, "seed {seed}");
        // text behind the mark: the table's record 8 begins a byte of its own, and there no letter of a script may stand
        table[21] = b's';
        assert_eq!(form(&table), Form::Script, "seed {seed}");
    }
    assert_eq!(accepted, 2000);
}

#[test]
fn text_that_is_taken_for_bytes_says_so() {
    let spaced = format!("\u{a0}{SCRIPT}");
    let refused = circtool(&["explain"], spaced.as_bytes());
    ended(&refused, 1);
    assert!(
        err(&refused).ends_with("  it looks like a script; with --script it is read as one\n"),
        "{}",
        err(&refused)
    );
    let as_script = circtool(&["explain", "--script"], spaced.as_bytes());
    ended(&as_script, 2);
    assert!(err(&as_script).ends_with("found '<U+00A0>subject'\n"), "{}", err(&as_script));
    let asked = circtool(&["run", "--bytes"], SCRIPT.as_bytes());
    ended(&asked, 1);
    assert!(err(&asked).ends_with("  it looks like a script; without --bytes it is read as one\n"), "{}", err(&asked));
    let dis = circtool(&["dis"], SCRIPT.as_bytes());
    ended(&dis, 0);
    assert_eq!(err(&dis), "<stdin>: it looks like a script; 'circtool asm' turns a script into bytes\n");
    // bytes that are no text say nothing of the kind
    let bytes = circtool(&["run"], &[0xFF, 0x00]);
    assert!(!err(&bytes).contains("script"), "{}", err(&bytes));
}

#[test]
fn a_text_of_the_length_of_an_image_is_a_text() {
    let spaced = format!("\u{a0}{SCRIPT}");
    let text = format!("{spaced}{}", "#".repeat(circmon::IMAGE_BYTES - spaced.len()));
    let refused = circtool(&["run"], text.as_bytes());
    ended(&refused, 1);
    assert!(err(&refused).contains("  it looks like a script; with --script"), "{}", err(&refused));
}

#[test]
fn the_line_of_the_script_stands_beside_the_step() {
    let script = "# why\nsubject 1 class 3 needs {}\n\n\ns1 create o0\n# again\ns1 create o0\nbytes 00 # short\n";
    let explained = out(&circtool(&["explain"], script.as_bytes()));
    let rows: Vec<&str> =
        explained.lines().filter(|line| line.contains("  s1 creates") || line.contains("  bytes")).collect();
    assert!(explained.contains("\nstep  line  request"), "{explained}");
    assert_eq!(rows.iter().map(|row| &row[..12]).collect::<Vec<_>>(), ["   1     5  ", "   2     7  ", "   3     8  "]);
    // bytes have no lines
    let bytes = circtool(&["asm"], script.as_bytes()).stdout;
    let explained = out(&circtool(&["explain"], &bytes));
    assert!(explained.contains("\nstep  request") && explained.contains("\n   2  s1 creates o0"), "{explained}");
    let refused = circtool(&["run"], b"# why\n\ntable-bytes 01\n");
    ended(&refused, 1);
    assert!(err(&refused).starts_with("<stdin>:3: table refused with 10 ("), "{}", err(&refused));
}
