//! `load`: requests from a seed as a script and as bytes, beside those of the second implementation; with the subjects of a
//! script or of a table in front; refusals, bad words and limits.

mod shared;

use load::Random;
use reference::{program, write_load, Monitor, Request, Xorshift};
use shared::lines::request_line;
use shared::{circtool, ended, err, folder, out, root, shell};
use sidebyside::{image, SHAPES};
use std::process::Output;

const SUBJECTS: &str = "subject 1 class 3 needs {0,1}\nsubject 15 class 0 needs {}\n";

/// The bytes of a load, as the second implementation makes them.
fn requests(seed: u32, count: usize) -> Vec<u8> {
    let mut requests = vec![0; 6 * count];
    assert_eq!(write_load(seed, &mut requests), (0, count));
    requests
}

/// The lines of its requests.
fn lines(seed: u32, count: usize) -> String {
    let mut generator = Xorshift::new(seed).unwrap();
    (0..count).map(|_| request_line(&generator.request()) + "\n").collect()
}

/// The call with a seed, a count and these words behind them.
fn load_with(seed: u32, count: usize, words: &[&str], input: &[u8]) -> Output {
    circtool(&[&["load", &seed.to_string(), &count.to_string()][..], words].concat(), input)
}

/// What such a call writes.
fn written(seed: u32, count: usize, words: &[&str], input: &[u8]) -> Vec<u8> {
    let output = load_with(seed, count, words, input);
    ended(&output, 0);
    assert_eq!(err(&output), "", "{words:?}");
    output.stdout
}

/// Seeds and counts, small and large.
fn loads() -> impl Iterator<Item = (u32, usize)> {
    let random = &mut Random::new(5);
    let drawn: Vec<(u32, usize)> = (0..20).map(|_| (random.number() as u32 | 1, 1 + random.below(500))).collect();
    [(1, 1), (1, 2), (7, 20), (u32::MAX, 300), (1 << 31, 7), (2_463_534_242, 50)].into_iter().chain(drawn)
}

#[test]
fn the_script_and_the_bytes_of_a_load() {
    for (seed, count) in loads() {
        let requests_word = if count == 1 { "request" } else { "requests" };
        let heading = format!("# {count} {requests_word} from seed {seed}, made by 'circtool load {seed} {count}'\n");
        let script = format!("{heading}\n{}", lines(seed, count));
        assert_eq!(String::from_utf8(written(seed, count, &[], b"")).unwrap(), script);
        assert_eq!(written(seed, count, &["--bytes"], b""), requests(seed, count), "seed {seed}, {count} requests");
        let with_table = String::from_utf8(written(seed, count, &["--table", "-"], SUBJECTS.as_bytes())).unwrap();
        assert_eq!(with_table, format!("{heading}{SUBJECTS}\n{}", lines(seed, count)));
    }
}

#[test]
fn the_requests_are_made_again_by_the_first_line_of_their_script() {
    for (seed, count) in loads() {
        let script = String::from_utf8(written(seed, count, &["--table=-"], SUBJECTS.as_bytes())).unwrap();
        let (_, command) = script.lines().next().unwrap().split_once("'circtool ").unwrap();
        let command = command.strip_suffix('\'').unwrap();
        let again = circtool(&command.split(' ').collect::<Vec<_>>(), b"");
        assert_eq!(out(&again).split_once("\n\n").unwrap().1, script.split_once("\n\n").unwrap().1, "{command}");
    }
}

#[test]
fn no_request_at_all() {
    assert_eq!(written(7, 0, &[], b""), b"# 0 requests from seed 7, made by 'circtool load 7 0'\n");
    assert_eq!(written(7, 0, &["--bytes"], b""), b"");
    let table = circtool(&["asm"], SUBJECTS.as_bytes()).stdout;
    assert_eq!(written(7, 0, &["--table", "-", "--bytes"], SUBJECTS.as_bytes()), table);
    let script = written(7, 0, &["--table", "-"], &table);
    assert_eq!(String::from_utf8(script.clone()).unwrap().split_once('\n').unwrap().1, SUBJECTS);
    assert_eq!(circtool(&["asm"], &script).stdout, table);
}

#[test]
fn asm_gives_the_bytes_of_the_script_and_dis_its_lines() {
    for (at, (seed, count)) in loads().enumerate() {
        let table = load::table(&mut Random::new(at as u64), SHAPES[at % SHAPES.len()]);
        let bytes = [&table[..], &requests(seed, count)].concat();
        assert_eq!(written(seed, count, &["--table", "-", "--bytes"], &table), bytes, "seed {seed}");
        let script = written(seed, count, &["--table", "-"], &table);
        let assembled = circtool(&["asm"], &script);
        ended(&assembled, 0);
        assert_eq!(assembled.stdout, bytes, "seed {seed}");
        let (_, behind_heading) = std::str::from_utf8(&script).unwrap().split_once('\n').unwrap();
        assert_eq!(out(&circtool(&["dis"], &bytes)), behind_heading, "seed {seed}");
        // without a table nobody is enrolled
        let alone = written(seed, count, &[], b"");
        assert_eq!(circtool(&["asm"], &alone).stdout, [&[0; 42], &bytes[42..]].concat(), "seed {seed}");
        assert_eq!(out(&circtool(&["run"], &alone)), "3\n".repeat(count), "seed {seed}");
    }
}

#[test]
fn the_table_is_that_of_a_script_or_of_bytes() {
    let folder = folder("load-tables");
    let script = format!("# why\n{SUBJECTS}\ns1 create o0\nbytes 00\n");
    let bytes = circtool(&["asm"], script.as_bytes()).stdout;
    let (table, requests) = (&bytes[..42], requests(7, 30));
    let by_bytes = format!("table-bytes {}\ns1 create o0\n", circtool::words::hex(table));
    let marked = format!("\u{feff}{script}");
    // a script, with a byte-order mark, the table by its bytes; a table alone and with requests behind it
    for (at, input) in [script.as_bytes(), marked.as_bytes(), by_bytes.as_bytes(), table, &bytes].iter().enumerate() {
        let file = folder.join("input");
        std::fs::write(&file, input).unwrap();
        let name = file.to_str().unwrap();
        let joined = format!("--table={name}");
        for words in [vec!["--table", name, "--bytes"], vec!["--bytes", &joined], vec!["--bytes", "--table", "-"]] {
            assert_eq!(written(7, 30, &words, input), [table, &requests].concat(), "input {at}, {words:?}");
        }
    }
    // what stands on standard input is not read where it is not named
    assert_eq!(written(7, 30, &["--bytes"], b"s1 get x o0\n"), requests);
}

#[test]
fn the_script_of_a_load_is_a_table_for_another() {
    let first = written(7, 30, &["--table", "-"], SUBJECTS.as_bytes());
    let second = written(8, 30, &["--table", "-"], &first);
    assert_eq!(second, written(8, 30, &["--table", "-"], SUBJECTS.as_bytes()));
    assert_eq!(written(8, 30, &["--table", "-"], &written(7, 30, &["--table", "-", "--bytes"], &first)), second);
}

/// The replies of the second implementation, a line for each.
fn replies(table: &[u8], requests: &[u8]) -> String {
    let mut monitor = Monitor::from_table(table).unwrap();
    requests.chunks(6).map(|request| format!("{}\n", monitor.request(request))).collect()
}

#[test]
fn run_and_explain_take_the_script_and_the_bytes() {
    let table = load::everyone();
    for (seed, count) in [(1, 4097), (7, 600), (u32::MAX, 100)] {
        let (script, bytes) = (
            written(seed, count, &["--table", "-"], &table),
            written(seed, count, &["--table", "-", "--bytes"], &table),
        );
        let expected = replies(&table, &requests(seed, count));
        assert!(expected.contains("0\n") && !expected.lines().any(|reply| reply == "2"), "seed {seed}");
        for input in [&script, &bytes] {
            let run = circtool(&["run"], input);
            ended(&run, 0);
            assert_eq!(out(&run), expected, "seed {seed}");
            let explained = circtool(&["explain"], input);
            ended(&explained, 0);
            let granted = expected.lines().filter(|reply| ["0", "1"].contains(reply)).count();
            let summary = format!("{} refused\n", count - granted);
            assert!(out(&explained).ends_with(&summary), "seed {seed}: {summary}");
            assert!(!out(&explained).contains("please report"), "seed {seed}");
        }
        // circmon stops after 4,096 requests
        let read = expected.lines().take(4096).map(|reply| format!("{reply}\n")).collect::<String>();
        assert_eq!(program(&bytes), read, "seed {seed}");
    }
}

#[test]
fn a_script_that_circmon_does_not_read_to_its_end_says_so() {
    let remark = "# the program circmon reads no further than 4,096 requests";
    for words in [&[][..], &["--table", "-"]] {
        let remarks = |count| {
            let script = String::from_utf8(written(9, count, words, SUBJECTS.as_bytes())).unwrap();
            let lines: Vec<usize> = script.lines().enumerate().filter(|it| it.1 == remark).map(|it| it.0).collect();
            (lines, script.lines().position(str::is_empty).unwrap())
        };
        assert_eq!(remarks(4096).0, [], "{words:?}");
        let (lines, blank) = remarks(4100);
        assert_eq!(lines, [blank + 1 + 4096], "{words:?}");
    }
}

#[test]
fn the_limits_of_a_count_and_of_a_seed() {
    let most = 1_000_000;
    let bytes = written(u32::MAX, most, &["--bytes"], b"");
    assert_eq!(bytes, requests(u32::MAX, most));
    assert!(bytes.starts_with(&requests(u32::MAX, 20)), "a longer load begins with a shorter one");
    let help = out(&circtool(&["load", "--help"], b""));
    assert!(help.contains(&format!("SEED is 1 to {}", u32::MAX)) && help.contains(&format!("COUNT is 0 to {most}")));
}

#[test]
fn the_seed_0_is_refused_in_words() {
    for words in [
        vec!["load", "0", "20"],
        vec!["load", "0", "0"],
        vec!["load", "0", "1", "--bytes"],
        vec!["load", "0", "20", "--table", "-"],
        vec!["load", "0", "0", "--table", "-", "--bytes"],
    ] {
        let output = circtool(&words, SUBJECTS.as_bytes());
        ended(&output, 1);
        let message = "circtool load: refused with 15 (the seed is 0)\n";
        assert_eq!((out(&output), err(&output)), (String::new(), message.to_string()), "{words:?}");
    }
}

#[test]
fn a_table_that_run_does_not_take_is_told_as_run_tells_it() {
    let stray = [&[0; 41][..], &[1]].concat();
    let table_line = b"# why\n\ntable-bytes 01\n";
    for (input, status) in [(&stray[..], 1), (b"", 1), (&[0x80], 1), (table_line, 1), (b"s1 get x o0\ns1\n", 2)] {
        let (run, output) = (circtool(&["run"], input), load_with(7, 20, &["--table", "-"], input));
        ended(&run, status);
        ended(&output, status);
        assert!(!err(&output).is_empty());
        assert_eq!((out(&output), err(&output)), (String::new(), err(&run)), "{input:?}");
    }
    // here run names flags that a load does not have
    let image = image(&load::rich(7, 20, 300));
    for (input, status, last) in [
        (&image[..], 2, "  'circtool show' prints the state in an image; a run and a load begin from a table\n"),
        (
            "\u{a0}s1 create o0".as_bytes(),
            1,
            "  it looks like a script, but no script begins with its first character\n",
        ),
    ] {
        let (run, output) = (circtool(&["run"], input), load_with(7, 20, &["--table", "-"], input));
        ended(&output, status);
        assert!(output.stdout.is_empty() && err(&output).ends_with(last), "{}", err(&output));
        assert_eq!(err(&output).lines().next(), err(&run).lines().next());
        assert!(!err(&output).contains("--"), "{}", err(&output));
    }
    let absent = load_with(7, 20, &["--table", "/no/such/file"], b"");
    ended(&absent, 2);
    assert!(err(&absent).starts_with("circtool: cannot read /no/such/file: "), "{}", err(&absent));
}

#[test]
fn bad_words_have_status_2() {
    let (seed, count) = ("expected a seed (1 to 4294967295), found ", "expected a count (0 to 1000000), found ");
    for (words, message) in [
        (vec![], "expected a seed and a count".to_string()),
        (vec!["7"], "expected a seed and a count".to_string()),
        (vec!["--bytes", "7", "--table", "20"], "expected a seed and a count".to_string()),
        (vec!["7", "20", "a.circ"], "unexpected 'a.circ'".to_string()),
        (vec!["4294967296", "20"], format!("{seed}'4294967296'")),
        (vec!["99999999999999999999", "20"], format!("{seed}'99999999999999999999'")),
        (vec!["07", "20"], format!("{seed}'07'")),
        (vec!["0x7", "20"], format!("{seed}'0x7'")),
        (vec!["+7", "20"], format!("{seed}'+7'")),
        (vec!["", "20"], format!("{seed}''")),
        (vec!["seven\u{1b}", "20"], format!("{seed}'seven<U+001B>'")),
        (vec!["7", "1000001"], format!("{count}'1000001'")),
        (vec!["7", "20.0"], format!("{count}'20.0'")),
        (vec!["--", "7", "-1"], format!("{count}'-1'")),
        (vec!["7", "-1"], "unknown option '-1'".to_string()),
        (vec!["7", "20", "--script"], "unknown option '--script'".to_string()),
        (vec!["7", "20", "--table"], "expected a file behind --table".to_string()),
        (vec!["7", "20", "--table", "-", "--table=a"], "--table is given twice".to_string()),
        (vec!["7", "20", "--bytes=a"], "--bytes takes no value".to_string()),
    ] {
        let output = circtool(&[&["load"][..], &words].concat(), SUBJECTS.as_bytes());
        ended(&output, 2);
        let message = format!("circtool load: {message}; see 'circtool load --help'\n");
        assert_eq!((out(&output), err(&output)), (String::new(), message), "{words:?}");
    }
}

#[test]
fn a_reader_that_closes_the_pipe_is_no_trouble() {
    for words in ["", "--bytes"] {
        let output =
            shell(&format!("$CIRCTOOL load 7 100000 {words} | head -c 1 > /dev/null; echo ${{PIPESTATUS[0]}}"));
        assert_eq!((out(&output), err(&output)), ("0\n".to_string(), String::new()), "{words}");
    }
}

#[test]
fn the_example_enrols_everyone() {
    let file = root().join("examples/seeded-load.circ");
    let bytes = written(1, 20, &["--table", file.to_str().unwrap(), "--bytes"], b"");
    assert_eq!(bytes, [&load::everyone()[..], &requests(1, 20)].concat());
    assert!(bytes[42..].chunks(6).all(|request| Request::decode(request).is_some()));
}
