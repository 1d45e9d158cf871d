//! 1,458 bytes are the size of an image, and also of a table and 236 requests. They are taken for an image only where the reader
//! accepts them; --bytes runs them in any case; and what they were taken for is said.

mod shared;

use circmon::{read, IMAGE_BYTES, REQUEST_BYTES, TABLE_BYTES};
use circtool::layout::{BYTES_WITHOUT_COMPANIES, BYTES_WITHOUT_PARENTS};
use load::Random;
use shared::{circtool, ended, err, folder, out};
use std::path::PathBuf;

const REQUESTS: usize = (IMAGE_BYTES - TABLE_BYTES) / REQUEST_BYTES;

/// A file with these bytes, and its name.
fn written(name: &str, bytes: &[u8]) -> (PathBuf, String) {
    let file = folder(&format!("image-or-run-{name}")).join("input");
    std::fs::write(&file, bytes).unwrap();
    let name = file.to_str().unwrap().to_string();
    (file, name)
}

/// A table and 236 requests of a run.
fn run(seed: u64) -> Vec<u8> {
    let (table, requests) = sidebyside::drawn(seed, sidebyside::SHAPES[4], 2 * REQUESTS);
    let whole = requests.into_iter().filter(|piece| piece.len() == REQUEST_BYTES);
    [table.to_vec(), whole.take(REQUESTS).flatten().collect()].concat()
}

fn taken_for_a_run(name: &str, number: u8) -> String {
    let words = circtool::words::refusal_words(number);
    format!(
        "{name}: 1458 bytes, taken for a table and 236 requests: as an image they are refused with {words}\n  \
         'circtool show' says where\n"
    )
}

#[test]
fn the_sizes_are_the_same() {
    assert_eq!((IMAGE_BYTES, REQUESTS), (1458, 236));
    assert_eq!(TABLE_BYTES + REQUESTS * REQUEST_BYTES, IMAGE_BYTES);
    // and those of images before are no whole run
    for former in [BYTES_WITHOUT_PARENTS, BYTES_WITHOUT_COMPANIES] {
        assert_ne!((former - TABLE_BYTES) % REQUEST_BYTES, 0);
    }
}

#[test]
fn an_accepted_image_is_not_run_unless_bytes_are_asked_for() {
    for seed in 0..20 {
        let image = sidebyside::image(&load::rich(seed, 20, 300));
        let (_, name) = written("accepted", &image);
        let message = format!(
            "{name}: 1458 bytes that are accepted as an image are taken for one, and not for a table and 236 requests\n  \
             'circtool show' prints the state in an image; a run and a load begin from a table\n"
        );
        for words in [["run", &name], ["explain", &name]] {
            let output = circtool(&words, b"");
            ended(&output, 2);
            assert!(output.stdout.is_empty());
            let with_bytes = "  with --bytes it is run as a table and requests all the same\n";
            assert_eq!(err(&output), format!("{message}{with_bytes}"));
        }
        let load = circtool(&["load", "1", "1", "--table", &name], b"");
        ended(&load, 2);
        assert_eq!(err(&load), message);
        // who asks for bytes gets bytes, as circmon takes them
        let asked = circtool(&["run", "--bytes", &name], b"");
        ended(&asked, 0);
        assert_eq!((out(&asked), out(&asked).lines().count()), (reference::program(&image), REQUESTS));
        assert_eq!(err(&asked), "");
        let dis = circtool(&["dis", &name], b"");
        ended(&dis, 0);
        assert_eq!(err(&dis), message);
        assert_eq!(circtool(&["asm"], &dis.stdout).stdout, image, "and dis is exact all the same");
        ended(&circtool(&["show", &name], b""), 0);
    }
}

#[test]
fn a_run_of_the_same_size_is_run_and_that_is_said() {
    for seed in 0..20 {
        let bytes = run(seed);
        let number = read(&bytes);
        assert!(bytes.len() == IMAGE_BYTES && number != 0, "seed {seed}");
        let (_, name) = written("run", &bytes);
        let remark = taken_for_a_run(&name, number);
        let output = circtool(&["run", &name], b"");
        ended(&output, 0);
        assert_eq!((out(&output), err(&output)), (reference::program(&bytes), remark.clone()));
        let explained = circtool(&["explain", &name], b"");
        ended(&explained, 0);
        assert!(out(&explained).contains(&format!("\n{REQUESTS} requests: ")), "seed {seed}");
        assert_eq!(err(&explained), remark);
        let asked = circtool(&["run", "--bytes", &name], b"");
        assert_eq!((out(&asked), err(&asked)), (reference::program(&bytes), String::new()));
        let load = circtool(&["load", "1", "1", "--bytes", "--table", &name], b"");
        ended(&load, 0);
        assert_eq!((&load.stdout[..TABLE_BYTES], err(&load)), (&bytes[..TABLE_BYTES], remark.clone()));
        assert_eq!(err(&circtool(&["dis", &name], b"")), remark);
        // as an image it is refused, with the number that was said
        let show = circtool(&["show", &name], b"");
        ended(&show, 1);
        let words = circtool::words::refusal_words(number);
        assert!(err(&show).starts_with(&format!("{name}: image refused with {words}\n")), "{}", err(&show));
    }
}

#[test]
fn no_run_that_begins_with_a_request_of_kind_1_to_7_is_an_image() {
    let random = &mut Random::new(1);
    for _ in 0..2000 {
        // whatever stands behind the table: a live bit of o0 that is 0, and a bit behind it that is not
        let mut image = sidebyside::image(&load::rich(random.number(), 20, 40));
        let kind = 1 + random.below(7) as u8;
        image[TABLE_BYTES] = kind << 4 | image[TABLE_BYTES] & 15;
        assert_eq!(read(&image), 11, "kind {kind}");
    }
}

#[test]
fn a_damaged_image_is_run_where_its_table_is_accepted_and_else_refused_as_a_table() {
    let mut image = sidebyside::image(&load::rich(5, 20, 300));
    // the parent bits of o63, which is not live
    image[IMAGE_BYTES - 1] |= 1;
    let (_, name) = written("damaged", &image);
    let output = circtool(&["run", &name], b"");
    ended(&output, 0);
    assert_eq!((out(&output), err(&output)), (reference::program(&image), taken_for_a_run(&name, 11)));
    // a table that is refused too: nobody is enrolled as s15, and a bit of its record is set
    image[TABLE_BYTES - 1] |= 1;
    image[TABLE_BYTES - 3] &= 0b1110_1111;
    let number = circmon::begin(&image[..TABLE_BYTES], &mut [0; IMAGE_BYTES]);
    assert_eq!((number, read(&image)), (11, 11));
    let (_, name) = written("damaged-table", &image);
    let output = circtool(&["run", &name], b"");
    ended(&output, 1);
    assert!(err(&output).starts_with(&format!("{name}: table refused with 11 (")), "{}", err(&output));
    assert!(err(&output).ends_with(&taken_for_a_run(&name, 11)), "{}", err(&output));
}

#[test]
fn an_image_of_a_former_size_is_not_run_and_not_read() {
    let image = sidebyside::image(&load::rich(3, 20, 300));
    for (length, from) in [
        (BYTES_WITHOUT_PARENTS, "from before objects had parents"),
        (BYTES_WITHOUT_COMPANIES, "from before objects had companies and parents"),
    ] {
        let former = &image[..length];
        let run = circtool(&["run"], former);
        ended(&run, 2);
        let message = format!(
            "<stdin>: {length} bytes are the size of images {from}, and no table with whole requests behind it\n"
        );
        assert!(err(&run).starts_with(&message), "{}", err(&run));
        ended(&circtool(&["run", "--bytes"], former), 0);
        let show = circtool(&["show"], former);
        ended(&show, 1);
        let message = format!(
            "<stdin>: image refused with 10 (another length)\n  {length} bytes, not 1458: the size of images {from}\n"
        );
        assert_eq!((out(&show), err(&show)), (String::new(), message));
    }
}
