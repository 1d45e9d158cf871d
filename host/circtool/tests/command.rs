//! The command itself: standard input and output, exit statuses, files that are written and files that are left.

mod shared;

use shared::{circtool, ended, err, folder, out, shell};

const SCRIPT: &str = "subject 1 class 3 needs {0,1}\ns1 create o0\ns1 get r o0\n";

fn script_bytes() -> Vec<u8> {
    circtool(&["asm"], SCRIPT.as_bytes()).stdout
}

#[test]
fn asm_and_dis_through_standard_input_and_output() {
    let assembled = circtool(&["asm", "-"], SCRIPT.as_bytes());
    ended(&assembled, 0);
    assert_eq!(assembled.stdout.len(), 54);
    let again = circtool(&["dis"], &assembled.stdout);
    ended(&again, 0);
    assert_eq!(out(&again), "subject 1 class 3 needs {0,1}\n\ns1 create o0\ns1 get r o0\n");
    assert_eq!(err(&again), "");
}

#[test]
fn script_errors_go_to_standard_error_with_status_2() {
    let folder = folder("errors");
    let file = folder.join("script.circ");
    std::fs::write(&file, "subject 1 class 3 needs {0,1}\n\ns1 create o0\ns1 get x o0\n").unwrap();
    let name = file.to_str().unwrap();
    for words in [["asm", name], ["explain", name], ["run", name]] {
        let output = circtool(&words, b"");
        ended(&output, 2);
        assert_eq!(err(&output), format!("{name}:4:8: expected a mode (r, w, a or e), found 'x'\n"));
        assert!(output.stdout.is_empty());
    }
    let output = circtool(&["asm"], b"s1 create o0\ns1 get \xFF o0\n");
    ended(&output, 2);
    assert_eq!(err(&output), "<stdin>:2:8: expected UTF-8 text, found the byte FF\n");
    let output = circtool(&["asm"], "x\n".repeat(50).as_bytes());
    assert_eq!(err(&output).lines().count(), 21);
    assert!(err(&output).ends_with("<stdin>: and 30 more errors\n"));
}

#[test]
fn scripts_and_bytes_are_told_by_their_first_byte() {
    let bytes = script_bytes();
    for (words, input) in [
        (vec!["run"], SCRIPT.as_bytes()),
        (vec!["run"], &bytes),
        (vec!["run", "--script"], SCRIPT.as_bytes()),
        (vec!["run", "--bytes"], &bytes),
    ] {
        let output = circtool(&words, input);
        ended(&output, 0);
        assert_eq!(out(&output), "0\n7\n", "{words:?}");
    }
    // flags decide against the first byte
    ended(&circtool(&["run", "--script"], &bytes), 2);
    let refused = circtool(&["run", "--bytes"], SCRIPT.as_bytes());
    ended(&refused, 1);
    assert!(err(&refused).starts_with("<stdin>: table refused with 11 ("), "{}", err(&refused));
    ended(&circtool(&["run", "--bytes", "--script"], &bytes), 2);
    // no byte at all is a table that is too short, as circmon takes it
    let empty = circtool(&["explain"], b"");
    ended(&empty, 1);
    assert_eq!(err(&empty), "<stdin>: table refused with 10 (another length)\n  0 bytes, not 42\n");
    assert!(empty.stdout.is_empty());
}

#[test]
fn accepted_tables_never_look_like_scripts() {
    use circtool::input::{form, Form};
    for seed in 0..500 {
        let table = load::table(&mut load::Random::new(seed), sidebyside::SHAPES[seed as usize % 5]);
        assert_eq!(form(&table), Form::Bytes, "seed {seed}");
    }
    // every first byte: where the rule says script, no table with it is accepted
    for first in 1..0x80 {
        let mut table = [0; 42];
        table[0] = first;
        assert_eq!(
            (form(&table), circmon::begin(&table, &mut [0; circmon::IMAGE_BYTES])),
            (Form::Script, 11),
            "{first:02x}"
        );
    }
    for file in shared::examples() {
        assert_eq!(form(&std::fs::read(&file).unwrap()), Form::Script, "{}", file.display());
    }
}

#[test]
fn run_writes_the_image_and_show_reads_it() {
    let folder = folder("image");
    let image = folder.join("a.img");
    let name = image.to_str().unwrap();
    for words in [vec!["run", "--image", name], vec!["run", &format!("--image={name}")]] {
        let _ = std::fs::remove_file(&image);
        let output = circtool(&words, SCRIPT.as_bytes());
        ended(&output, 0);
        assert_eq!(out(&output), "0\n7\n");
    }
    let bytes = std::fs::read(&image).unwrap();
    assert_eq!((bytes.len(), circmon::read(&bytes)), (circmon::IMAGE_BYTES, 0));
    for shown in [circtool(&["show", name], b""), circtool(&["show"], &bytes), circtool(&["show", "-"], &bytes)] {
        ended(&shown, 0);
        assert!(out(&shown).contains("  o0   owner s1   no label"), "{}", out(&shown));
        assert!(!out(&shown).contains('\x1b'), "no colour where standard output is no terminal");
    }
}

#[test]
fn nothing_is_written_where_the_input_is_bad() {
    let folder = folder("kept");
    let kept = folder.join("kept.img");
    std::fs::write(&kept, "kept").unwrap();
    let name = kept.to_str().unwrap();
    let absent = folder.join("absent.img");
    for (input, status) in [(&b"s1 get x o0\n"[..], 2), (&[0x00, 0x01], 1), (b"", 1)] {
        ended(&circtool(&["run", "--image", name], input), status);
        assert_eq!(std::fs::read(&kept).unwrap(), b"kept");
        ended(&circtool(&["run", "--image", absent.to_str().unwrap()], input), status);
        assert!(!absent.exists());
    }
    let script = folder.join("script.circ");
    std::fs::write(&script, SCRIPT).unwrap();
    let script_name = script.to_str().unwrap();
    let output = circtool(&["run", script_name, "--image", script_name], b"");
    ended(&output, 2);
    assert_eq!(err(&output), "circtool run: --image names the input itself\n");
    assert_eq!(std::fs::read_to_string(&script).unwrap(), SCRIPT);
    let output = circtool(&["run", script_name, "--image", "/no/such/folder/a.img"], b"");
    ended(&output, 2);
    assert!(out(&output).is_empty() && err(&output).starts_with("circtool: cannot write /no/such/folder/a.img: "));
}

#[test]
fn a_refused_image_has_status_1_and_its_place() {
    let mut bytes = vec![0; circmon::IMAGE_BYTES];
    bytes[42] = 0x80;
    let output = circtool(&["show"], &bytes);
    ended(&output, 1);
    assert!(output.stdout.is_empty());
    let message = "<stdin>: image refused with 12 (an absent subject owns, has a right or holds)\n";
    assert!(err(&output).starts_with(message), "{}", err(&output));
    let anyway = circtool(&["show", "--anyway"], &bytes);
    ended(&anyway, 1);
    assert!(out(&anyway).starts_with("REFUSED IMAGE: "), "{}", out(&anyway));
    assert!(out(&anyway).contains("  o0   owner s0   no label"));
    assert_eq!(err(&anyway), err(&output));
    let short = circtool(&["show", "--anyway"], &bytes[..circmon::IMAGE_BYTES - 1]);
    ended(&short, 1);
    assert!(short.stdout.is_empty());
}

#[test]
fn compare_ends_as_cmp_does() {
    let folder = folder("compare");
    let [a, b, bad] = ["a.img", "b.img", "bad.img"].map(|name| folder.join(name).to_str().unwrap().to_string());
    ended(&circtool(&["run", "--image", &a], SCRIPT.as_bytes()), 0);
    let labelled = format!("{SCRIPT}s1 level o0 class 0 needs {{}}\n");
    ended(&circtool(&["run", "--image", &b], labelled.as_bytes()), 0);
    std::fs::write(&bad, [0; 5]).unwrap();
    let equal = circtool(&["compare", &a, &a], b"");
    ended(&equal, 0);
    assert!(out(&equal).contains("proved"));
    let different = circtool(&["compare", &a, &b], b"");
    ended(&different, 1);
    assert!(out(&different).contains("o0: no label in A, label class 0 needs {} in B"), "{}", out(&different));
    let from_input = circtool(&["compare", "-", &b], &std::fs::read(&a).unwrap());
    ended(&from_input, 1);
    for (words, start) in [
        (["compare", &bad, &a], format!("A, {bad}: image refused with 10 (another length)\n")),
        (["compare", &a, &bad], format!("B, {bad}: image refused with 10 (another length)\n")),
        (["compare", &a, "/no/such/file"], "circtool: cannot read /no/such/file: ".to_string()),
        (["compare", "-", "-"], "circtool compare: standard input is one image, not both\n".to_string()),
    ] {
        let output = circtool(&words, b"");
        ended(&output, 2);
        assert!(output.stdout.is_empty() && err(&output).starts_with(&start), "{}", err(&output));
    }
}

#[test]
fn help_and_version() {
    let general = circtool(&["--help"], b"");
    ended(&general, 0);
    for name in ["asm", "dis", "explain", "run", "show", "page", "load", "compare", "orders"] {
        assert!(out(&general).contains(&format!("\n  {name} ")), "{name} is in the general help");
        let help = circtool(&[name, "--help"], b"");
        ended(&help, 0);
        for part in [&format!("Usage: circtool {name} "), "\nExample: circtool ", "\nExit status: 0 "] {
            assert!(out(&help).contains(part), "{name}: {part}");
        }
        assert!(out(&help).lines().all(|line| line.chars().count() <= 120), "{name}");
    }
    for name in ["asm", "dis", "explain", "run", "show", "page", "load", "compare", "orders"] {
        assert_eq!(out(&circtool(&["help", name], b"")), out(&circtool(&[name, "--help"], b"")));
    }
    for words in [vec!["help"], vec!["-h"]] {
        assert_eq!(out(&circtool(&words, b"")), out(&general));
    }
    let version = circtool(&["--version"], b"");
    ended(&version, 0);
    assert_eq!(out(&version), format!("circtool {}\n", env!("CARGO_PKG_VERSION")));
}

#[test]
fn bad_usage_has_status_2() {
    for (words, message) in [
        (vec!["assemble"], "circtool: expected a subcommand, found 'assemble'; see 'circtool --help'\n"),
        (vec!["asm", "--bytes"], "circtool asm: unknown option '--bytes'; see 'circtool asm --help'\n"),
        (vec!["dis", "a", "b"], "circtool dis: unexpected 'b'; see 'circtool dis --help'\n"),
        (vec!["compare", "a"], "circtool compare: expected 2 files, found 1; see 'circtool compare --help'\n"),
        (vec!["run", "--image"], "circtool run: expected a file behind --image; see 'circtool run --help'\n"),
        (vec!["run", "--image", "-"], "circtool run: --image needs a file, not standard output\n"),
        (
            vec!["run", "--image", "a", "--image", "b"],
            "circtool run: --image is given twice; see 'circtool run --help'\n",
        ),
        (vec!["run", "--image="], "circtool run: expected a file behind --image; see 'circtool run --help'\n"),
        (vec!["run", "--image=a", "--image", "b"], "circtool run: --image is given twice; see 'circtool run --help'\n"),
        (vec!["run", "--script=a"], "circtool run: --script takes no value; see 'circtool run --help'\n"),
        (vec!["help", "assemble"], "circtool: expected a subcommand, found 'assemble'; see 'circtool --help'\n"),
        (vec!["help", "asm", "dis"], "circtool: unexpected 'dis'; see 'circtool --help'\n"),
        (vec!["--help", "asm", "dis"], "circtool: unexpected 'dis'; see 'circtool --help'\n"),
        (vec!["--version", "asm"], "circtool: unexpected 'asm'; see 'circtool --help'\n"),
        (vec!["show", "--", "--anyway"], "circtool: cannot read --anyway: No such file or directory (os error 2)\n"),
    ] {
        let output = circtool(&words, b"");
        ended(&output, 2);
        assert_eq!(err(&output), message);
        assert!(output.stdout.is_empty(), "{words:?}");
    }
    let nothing = circtool(&[], b"");
    ended(&nothing, 2);
    assert_eq!(err(&nothing), out(&circtool(&["--help"], b"")));
}

#[test]
fn a_broken_pipe_is_no_panic() {
    let folder = folder("pipe");
    let file = folder.join("long.bin");
    let mut bytes = vec![0; 42];
    bytes.extend(vec![0; 600_000]);
    std::fs::write(&file, bytes).unwrap();
    for name in ["dis", "explain", "run"] {
        let line = format!("$CIRCTOOL {name} {} | head -n 1 > /dev/null; echo ${{PIPESTATUS[0]}}", file.display());
        let output = shell(&line);
        assert_eq!((out(&output), err(&output)), ("0\n".to_string(), String::new()), "{name}");
    }
}

#[test]
fn a_full_disk_is_an_error() {
    let output = shell("$CIRCTOOL --help > /dev/full");
    ended(&output, 2);
    assert!(err(&output).starts_with("circtool: cannot write to standard output: "), "{}", err(&output));
}

#[test]
fn colour_on_a_terminal_only_without_no_color() {
    let image = folder("colour").join("a.img");
    let name = image.to_str().unwrap();
    ended(&circtool(&["run", "--image", name], SCRIPT.as_bytes()), 0);
    // script(1) gives the command a terminal
    let on_terminal = |before: &str| out(&shell(&format!("{before} script -qec \"$CIRCTOOL show {name}\" /dev/null")));
    let coloured = on_terminal("env -u NO_COLOR");
    assert!(coloured.contains("\x1b[1;31mno label\x1b[0m"), "{coloured:?}");
    assert_eq!(on_terminal("NO_COLOR="), coloured, "an empty NO_COLOR counts as none");
    let plain = on_terminal("NO_COLOR=1");
    assert!(plain.contains("no label") && !plain.contains('\x1b'), "{plain:?}");
}
