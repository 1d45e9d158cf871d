//! `orders`: whether the order of gets matters, in words: each output and each error.

mod shared;

use reference::MOST_GETS;
use shared::{circtool, ended, err, folder, out, root};
use std::process::Output;

const EXAMPLE: &str = "examples/wake-up-gets.circ";

/// The image of a script, in a folder of its own.
fn image_of(name: &str, script: &str) -> String {
    let file = folder(&format!("orders-{name}")).join("state.img");
    ended(&circtool(&["run", "--image", file.to_str().unwrap()], script.as_bytes()), 0);
    file.to_str().unwrap().to_string()
}

fn example_image(name: &str) -> String {
    image_of(name, &std::fs::read_to_string(root().join("examples/wake-up.circ")).unwrap())
}

/// The call on an image, with a script on standard input.
fn call(image: &str, script: &str) -> Output {
    circtool(&["orders", image], script.as_bytes())
}

#[test]
fn the_example_in_full() {
    let file = example_image("full");
    let output = circtool(&["orders", &file, EXAMPLE], b"");
    ended(&output, 1);
    let expected = format!(
        "the order matters: 5 gets of {EXAMPLE}, on the state in {file}
This is proved: docs/THEOREMS.md, start order of tasks.

two gets, each granted if it came alone, and never both
  line 6: s0 gets r on o0
  line 8: s0 gets a on o1
        the star property: the label of o1 would have to dominate that of o0: s0 would hold r on o0 (class 1
        needs {{0}}) and a on o1 (class 0 needs {{}}), and the label of o1 is below that of o0 and does not
        dominate it; missing: the class (0 is under 1) and needs {{0}}

A: line 6, line 8, then the others as they stand
  s0 gets r on o0  0 granted, the state changed
  s0 gets a on o1  9 refused: the star property would break

B: line 8, line 6, then the others as they stand
  s0 gets a on o1  0 granted, the state changed
  s0 gets r on o0  9 refused: the star property would break

the states that A and B leave, different in 2 places
  o0: accesses of s0: r in A, none in B
  o1: accesses of s0: none in A, a in B
"
    );
    assert_eq!((out(&output), err(&output)), (expected, String::new()));
}

#[test]
fn gets_whose_order_does_not_matter() {
    let file = example_image("agree");
    for (script, how_many) in [
        ("", "0 gets"),
        ("# nobody wakes\n\n", "0 gets"),
        ("s0 get r o0\n", "1 get"),
        ("s0 get r o0\ns0 get r o0\ns0 get r o0", "3 gets"),
        ("s0 get r o0\ns0 get a o2\ns1 get r o0\ns2 get r o1\n", "4 gets"),
        // of two subjects, and one that is refused alone
        ("s0 get a o1\ns1 get r o0\ns15 get r o0\n", "3 gets"),
    ] {
        let output = call(&file, script);
        ended(&output, 0);
        let expected = format!(
            "the order does not matter: {how_many} of <stdin>, on the state in {file}\n\
             All orders of these gets leave equal states, and each get is granted in all of them or refused in all; \
             a grant may say 0 or 1. \
             This is proved: docs/THEOREMS.md, start order of tasks.\n"
        );
        assert_eq!((out(&output), err(&output)), (expected, String::new()), "{script}");
    }
}

#[test]
fn two_gets_of_w_ask_for_dominance_both_ways() {
    let file = image_of(
        "both-ways",
        "subject 4 class 3 needs {0,1}\ns4 create o7\ns4 level o7 class 1 needs {0}\ns4 create o9\n\
         s4 level o9 class 1 needs {1}\n",
    );
    let output = call(&file, "s4 get w o9\ns4 get w o7\n");
    ended(&output, 1);
    for sentence in [
        "the label of o9 would have to dominate that of o7: s4 would hold w on o7 (class 1 needs {0}) and w on o9 (class 1 \
         needs {1}), and the label of o9 is apart from that of o7, neither dominates the other; missing: needs {0}",
        "the label of o7 would have to dominate that of o9: s4 would hold w on o9 (class 1 needs {1}) and w on o7 (class 1 \
         needs {0}), and the label of o7 is apart from that of o9, neither dominates the other; missing: needs {1}",
    ] {
        let text = out(&output).split_whitespace().collect::<Vec<_>>().join(" ");
        assert!(text.contains(sentence), "{text}");
    }
    // there are no others behind the two
    assert!(out(&output).contains("\nA: line 1, line 2\n") && out(&output).contains("\nB: line 2, line 1\n"));
    // r asks for one of the two alone
    let output = call(&file, "s4 get r o7\ns4 get w o9\n");
    ended(&output, 1);
    assert_eq!(out(&output).matches("would have to dominate").count(), 1, "{}", out(&output));
}

#[test]
fn bytes_have_requests_where_a_script_has_lines() {
    let file = example_image("bytes");
    let script = std::fs::read_to_string(root().join(EXAMPLE)).unwrap();
    let requests = circtool(&["asm"], script.as_bytes()).stdout.split_off(42);
    let [by_bytes, by_script] = [circtool(&["orders", "--bytes", &file], &requests), call(&file, &script)];
    ended(&by_bytes, 1);
    let as_bytes = out(&by_script).replace("line 6", "request 3").replace("line 8", "request 5");
    assert_eq!(out(&by_bytes), as_bytes);
    let output = circtool(&["orders", &file, "-", "--bytes"], &requests[..10]);
    ended(&output, 2);
    assert_eq!(err(&output), "<stdin>: request 2: expected a get, found bytes 11 00 09 00: 4 bytes, not 6\n");
    let output = circtool(&["orders", "--bytes", &file], b"");
    ended(&output, 0);
    assert!(out(&output).starts_with("the order does not matter: 0 gets of <stdin>, "), "{}", out(&output));
}

#[test]
fn the_image_or_the_script_on_standard_input() {
    let file = example_image("input");
    let (image, script) = (std::fs::read(&file).unwrap(), std::fs::read(root().join(EXAMPLE)).unwrap());
    let by_files = out(&circtool(&["orders", &file, EXAMPLE], b""));
    let by_image = circtool(&["orders", "-", EXAMPLE], &image);
    ended(&by_image, 1);
    assert_eq!(out(&by_image), by_files.replace(&file, "<stdin>"));
    for words in [vec!["orders", &file], vec!["orders", &file, "-"]] {
        let by_script = circtool(&words, &script);
        ended(&by_script, 1);
        assert_eq!(out(&by_script), by_files.replace(EXAMPLE, "<stdin>"));
    }
    for words in [vec!["orders", "-"], vec!["orders", "-", "-"]] {
        let output = circtool(&words, &image);
        ended(&output, 2);
        assert_eq!(err(&output), "circtool orders: standard input is the image or the gets, not both\n", "{words:?}");
    }
}

/// Scripts that are no list of gets, and what is said of them behind the name of the file.
const NO_GETS: [(&str, &str); 10] = [
    ("s0 get r o0\ns0 get a o1\ns0 release r o0\n", "3: expected a get, found 's0 releases r on o0'"),
    ("# why\n\ns0 get r o0\ns0 create o9 with e\ns0 delete o9\n", "4: expected a get, found 's0 creates o9 with e'"),
    ("s0 level o0 class 2 needs {}", "1: expected a get, found 's0 changes the level of o0 to class 2 needs {}'"),
    (
        "s0 get r o0\nbytes 18 00 01 00 00 01\n",
        "2: expected a get, found bytes 18 00 01 00 00 01: actor 16 is above 15; the unused field spare is 1, not 0",
    ),
    ("s0 get r o0\nbytes 10", "2: expected a get, found bytes 10: 1 byte, not 6"),
    (
        "# why\nsubject 0 class 0 needs {}\nsubject 1 class 0 needs {}\ns0 get r o0\n",
        "2: expected gets alone, found a subject: the image says who is enrolled",
    ),
    ("table-bytes none", "1: expected gets alone, found a table: the image says who is enrolled"),
    ("s0 get r o0\nsubject 1 class 0 needs {}\n", "2:1: the subjects stand before the first request or taking-back"),
    ("s0 get x o0\n", "1:8: expected a mode (r, w, a or e), found 'x'"),
    (
        "s0 get r o0\n  take back\n",
        "2:3: taking back is no request and has no bytes; 'circtool run' and 'circtool explain' carry it out",
    ),
];

#[test]
fn what_is_no_list_of_gets_has_status_2() {
    let file = example_image("no-gets");
    for (script, message) in NO_GETS {
        let output = call(&file, script);
        ended(&output, 2);
        assert_eq!((out(&output), err(&output)), (String::new(), format!("<stdin>:{message}\n")), "{script}");
    }
    let whole_table = format!("# why\ntable-bytes {}\ns0 get r o0\n", ["00"; 42].join(" "));
    let output = call(&file, &whole_table);
    ended(&output, 2);
    assert!(err(&output).starts_with("<stdin>:2: expected gets alone, found a table: "), "{}", err(&output));
    // six bytes that are a get are one
    ended(&call(&file, "bytes 10 00 01 00 00 00\n"), 0);
}

#[test]
fn as_many_gets_as_are_looked_at_and_one_more() {
    let file = example_image("many");
    let most = call(&file, &"s0 get r o0\n".repeat(MOST_GETS));
    ended(&most, 0);
    assert!(out(&most).starts_with("the order does not matter: 4096 gets of <stdin>, "), "{}", out(&most));
    // what the requests are does not matter then
    for script in ["s0 get r o0\n".repeat(MOST_GETS + 1), "s0 delete o0\n".repeat(MOST_GETS) + "bytes 00\n"] {
        let many = call(&file, &script);
        ended(&many, 2);
        let message = "<stdin>: 4097 requests, and the orders of at most 4096 gets are looked at\n";
        assert_eq!((out(&many), err(&many)), (String::new(), message.to_string()));
    }
}

#[test]
fn a_refused_image_and_bad_words_have_status_2() {
    let bad = folder("orders-bad").join("bad.img");
    std::fs::write(&bad, [0; 5]).unwrap();
    let bad = bad.to_str().unwrap();
    let see = "see 'circtool orders --help'";
    for (words, message) in [
        (vec![bad, EXAMPLE], format!("{bad}: image refused with 10 (another length)\n  5 bytes, not 1458")),
        (vec![], format!("circtool orders: expected 1 file, found 0; {see}")),
        (vec!["a", "b", "c"], format!("circtool orders: unexpected 'c'; {see}")),
        (vec!["a", "--script"], format!("circtool orders: unknown option '--script'; {see}")),
        (vec!["a", "--bytes=b"], format!("circtool orders: --bytes takes no value; {see}")),
        (
            vec!["/no/such/file"],
            "circtool: cannot read /no/such/file: No such file or directory (os error 2)".to_string(),
        ),
    ] {
        let output = circtool(&[&["orders"][..], &words].concat(), b"");
        ended(&output, 2);
        assert_eq!((out(&output), err(&output)), (String::new(), message + "\n"), "{words:?}");
    }
}
