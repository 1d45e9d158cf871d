//! The boundary: the header in a C program, and the program `circmon` on files.

use load::Random;
use reference::{program, write_load, MOST_REQUESTS};
use sidebyside::{compiled_here, fed, root, SHAPES};
use std::path::{Path, PathBuf};
use std::process::Command;

const FOLDER: &str = env!("CARGO_TARGET_TMPDIR");

/// What `smoke` prints before its loads. The line of `telling`: subject 1 deletes object 0, which is live in the first image only,
/// and a byte that is left.
const SMOKE: &str = "start 0\nask 0\nask 7\nask 0\nshort 13\nsave 0\nopen 0\nask 1\n\
    page 2 4 13 0\n01 rwa- ---- 0\nto 00 00 00 00 00\nee\n\
    begin 0\nrequest 0\nrequest 7\nrequest 0\nread 0\nshort 13\nthe same image 1\nraised 0 0\nlowered 14 14\n\
    raised 0, deleted 0, gone 4, taken back 0 14 0 17\nas opened 1 1\n\
    second 0 0\nclash 0:0:0 1:0:2 2:2:0 2:0:0 3:0:0 1\n\
    companies 0 0 0 1:0:1 0 0 18 18 10 20\n\
    parents 0 0 19 19 19 19 0 0 20 20 (1) 0 0 0 0 17 1\n\
    start_in 11 16 16 0\nprofile 2 1 3 0 3\nask 0 2 0\nopen_in 11 0 1\ndistinguish_in 16 0\n\
    replay 0\nreplies 0 7 0 238\nbegin 0\ndistinguish 1\ntelling 60 80 00 00 00 00 ee\n\
    compare 0 1 2 3\n";

/// What `smoke` prints, with its loads of two seeds into 13 bytes, as the second implementation makes them.
fn smoke() -> String {
    let load = |seed| {
        let mut buffer = [0xEE; 13];
        let (number, count) = write_load(seed, &mut buffer);
        let bytes: String = buffer.iter().map(|byte| format!(" {byte:02x}")).collect();
        format!("load {number} {count}{bytes}\n")
    };
    format!("{SMOKE}{}{}", load(0), load(1))
}

#[test]
fn a_c_program_over_the_header() {
    for words in [&["-std=c11", "-O0"][..], &["-std=c11", "-O2"]] {
        let output = Command::new(compiled_here("smoke", FOLDER, words)).output().unwrap();
        assert_eq!(String::from_utf8_lossy(&output.stdout), smoke());
    }
}

/// The same program, in C++.
fn compiled_as_cpp() -> PathBuf {
    let binary = Path::new(FOLDER).join("smoke-cpp");
    let mut cpp = Command::new("c++");
    cpp.args(["-std=c++11", "-Wall", "-Wextra", "-Wpedantic", "-Werror", "-I"]).arg(root().join("include"));
    cpp.args(["-x", "c++"]).arg(root().join("host/sidebyside/c/smoke.c"));
    cpp.args(["-x", "none", circmon::ARCHIVE, "-o"]).arg(&binary);
    let output = cpp.output().unwrap();
    assert!(output.status.success(), "{cpp:?}: {}", String::from_utf8_lossy(&output.stderr));
    binary
}

#[test]
fn a_cpp_program_over_the_header() {
    if Command::new("c++").arg("--version").output().is_err() {
        println!("left out, since there is no c++ on the path");
        return;
    }
    let output = Command::new(compiled_as_cpp()).output().unwrap();
    assert_eq!(String::from_utf8_lossy(&output.stdout), smoke());
}

#[test]
fn a_null_pointer_with_length_0_is_an_empty_buffer() {
    for words in [&["-O0"][..], &["-O2"]] {
        let output = Command::new(compiled_here("empty", FOLDER, words)).output().unwrap();
        let expected =
            "open 10\nstart 10 0\nopen_in 10 16\nstart_in 10 16\nask 2\ntake_back 17\nsave 13\npage 2 4 13\n\
            clash 0\nbegin 10 13 0\nread 10\nrequest 138 2\nreplay 10 0 13\ndistinguish 138 202 13\n\
            distinguish_in 138 202 16 13\nload 0 15\n";
        assert_eq!(String::from_utf8_lossy(&output.stdout), expected);
    }
}

/// What `circmon` itself prints.
fn circmon(input: &[u8]) -> String {
    let output = fed(&mut Command::new(sidebyside::program()), input);
    String::from_utf8(output.stdout).unwrap()
}

fn run(seed: u64, requests: usize, tail: usize) -> Vec<u8> {
    let random = &mut Random::new(seed);
    let shape = SHAPES[seed as usize % SHAPES.len()];
    let table = load::table(random, shape);
    let mut monitor = reference::Monitor::from_table(&table).unwrap();
    let mut input = table.to_vec();
    for _ in 0..requests {
        let request = load::request(random, shape, &monitor).encode();
        monitor.request(&request);
        input.extend(request);
    }
    input.extend(random.bytes(tail));
    input
}

#[test]
fn circmon_prints_what_the_second_implementation_prints() {
    for (seed, requests, tail) in [
        (1, 0, 0),
        (2, 1, 0),
        (3, 300, 5),
        (4, 2000, 1),
        (5, MOST_REQUESTS - 1, 3),
        (6, MOST_REQUESTS, 0),
        (7, MOST_REQUESTS, 4),
        (8, MOST_REQUESTS + 1, 0),
        (9, MOST_REQUESTS + 500, 2),
    ] {
        let input = run(seed, requests, tail);
        assert_eq!(circmon(&input), program(&input), "seed {seed}, {requests} requests, {tail} bytes behind them");
    }
}

#[test]
fn circmon_runs_a_load_from_a_seed() {
    for (seed, requests) in [(1, 600), (u32::MAX, MOST_REQUESTS), (7, MOST_REQUESTS + 500)] {
        let mut load = vec![0; 6 * requests];
        assert_eq!(circmon::load(seed, &mut load).number, 0);
        let input = [&load::everyone()[..], &load].concat();
        let printed = circmon(&input);
        assert_eq!(printed, program(&input), "seed {seed}");
        assert!(printed.lines().all(|reply| reply != "2"), "seed {seed}: a request that is malformed");
    }
}

#[test]
fn circmon_refuses_tables() {
    let input = run(10, 20, 0);
    for length in [0, 1, 41] {
        assert_eq!(circmon(&input[..length]), "10\n", "{length} bytes");
    }
    let mut stray = vec![0; 42];
    stray[2] = 1;
    stray.extend([0x50, 0x80, 0, 0, 0, 0]);
    assert_eq!(circmon(&stray), "11\n");
    assert_eq!(program(&stray), "11\n");
}

/// Table W and requests.
fn from_w(requests: &[[u8; 6]]) -> Vec<u8> {
    [&reference::table_w()[..], &requests.concat()].concat()
}

/// s1 changes the level of o0 to this class, with no needs.
fn to_class(class: u8) -> [u8; 6] {
    [0x70, 0x80, 0, class << 4, 0, 0]
}

const CREATE: [u8; 6] = [0x50, 0x80, 0, 0, 0, 0];

#[test]
fn as_many_requests_as_are_read_with_the_longest_reply_that_a_request_gets() {
    let mut requests = vec![to_class(0); MOST_REQUESTS];
    (requests[0], requests[1]) = (CREATE, to_class(1));
    let expected = format!("0\n0\n{}", "14\n".repeat(MOST_REQUESTS - 2));
    assert_eq!(circmon(&from_w(&requests)), expected);
    assert_eq!(program(&from_w(&requests)), expected);
}

#[test]
fn w_with_steps_1_3_and_4_prints_0_0_1() {
    let mut input = vec![0x88, 0x00, 0x0C, 0xC0, 0x00, 0xE0];
    input.resize(42, 0);
    for request in [[0x50, 0x80, 0, 0, 0, 0], [0x70, 0x80, 0, 0, 0, 0], [0x70, 0x80, 0, 0, 0, 0]] {
        input.extend(request);
    }
    assert_eq!(input, from_w(&[CREATE, to_class(0), to_class(0)]));
    assert_eq!(circmon(&input), "0\n0\n1\n");
}
