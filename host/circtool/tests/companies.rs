//! Companies in every subcommand: scripts, reasons of 18, states, comparisons, orders, refused images and takings-back.

mod shared;

use circmon::{Unit, IMAGE_BYTES};
use circtool::explain::step;
use shared::{circtool, ended, err, folder, out};

/// Three subjects with one clearance.
const THREE: &str = "subject 0 class 1 needs {}\nsubject 1 class 1 needs {}\nsubject 2 class 1 needs {}\n";

/// They may do anything with o0, o1 and o2, which have one label.
fn objects() -> String {
    let of = |object: usize| {
        let gives = |other: usize| -> String {
            ["r", "w", "a", "e"].iter().map(|mode| format!("s0 give s{other} {mode} o{object}\n")).collect()
        };
        format!("s0 create o{object} with e\ns0 level o{object} class 1 needs {{}}\n{}{}", gives(1), gives(2))
    };
    (0..3).map(of).collect()
}

/// The last step of the requests on these objects.
fn last(requests: &str) -> (u8, String) {
    let bytes = circtool::assemble::assemble(&format!("{THREE}{}{requests}", objects())).unwrap();
    let mut unit = Unit::from_table(&bytes[..42]).unwrap();
    let step = bytes[42..].chunks(6).map(|piece| step(&mut unit, piece)).last().unwrap();
    (step.reply, step.note.unwrap_or_default())
}

const FIRST: &str =
    "no subject holds objects of two companies of one conflict class, in whatever modes (the first rule of the wall)";
const SECOND: &str =
    "who reads an object of a company writes only to objects of this company (the second rule of the wall)";

#[test]
fn a_get_refused_with_18_says_who_what_which_class_and_which_rule() {
    let set = "s0 companies o0 0 3 0 0\ns0 companies o1 0 4 0 0\n";
    let (reply, reason) = last(&format!("{set}s1 get e o0\ns1 get w o1"));
    let held = "s1 would hold e on o0 (company 3 of conflict class 2) and w on o1 (company 4 of conflict class 2)";
    assert_eq!((reply, reason), (18, format!("{held}; {FIRST}")));
    let (reply, reason) = last(&format!("{set}s1 get r o0\ns1 get e o0\ns1 get a o2"));
    let held = "s1 would hold r on o0 (company 3 of conflict class 2) and a on o2 (no company of conflict class 2)";
    assert_eq!((reply, reason), (18, format!("{held}; {SECOND}")));
    // the object that is read is the one that is wanted
    let (reply, reason) = last(&format!("{set}s1 get a o2\ns1 get w o0"));
    let held = "s1 would hold w on o0 (company 3 of conflict class 2) and a on o2 (no company of conflict class 2)";
    assert_eq!((reply, reason), (18, format!("{held}; {SECOND}")));
    assert_eq!(last(&format!("{set}s1 get r o2\ns1 get a o0")), (0, String::new()), "the other way round is allowed");
}

#[test]
fn companies_refused_with_18_name_the_subject_that_holds() {
    let (reply, reason) = last("s0 companies o0 9 0 0 0\ns2 get e o0\ns2 get r o1\ns0 companies o1 15 0 0 0");
    let held = "s2 holds e on o0 (company 9 of conflict class 1) and r on o1 (company 15 of conflict class 1)";
    assert_eq!((reply, reason), (18, format!("with the new companies {held}; {FIRST}")));
    let (reply, reason) = last("s2 get r o0\ns2 get a o1\ns0 companies o0 0 0 0 1");
    let held = "s2 holds r on o0 (company 1 of conflict class 4) and a on o1 (no company of conflict class 4)";
    assert_eq!((reply, reason), (18, format!("with the new companies {held}; {SECOND}")));
    let missing = "s1 does not own o0; the owner is s0; the rights of s1: r, w, a, e";
    assert_eq!(last("s1 companies o0 0 0 0 1"), (6, missing.to_string()));
    assert_eq!(last("s0 companies o9 0 0 0 1"), (4, "o9 is not live".to_string()));
}

#[test]
fn a_script_and_its_bytes() {
    let script = format!("{THREE}\ns0 companies o0 1 0 0 2\ns2 companies o63 15 15 15 15\ns1 companies o7 0 0 0 0\n");
    let bytes = circtool(&["asm"], script.as_bytes()).stdout;
    let requests = [[0x80, 0, 0, 0x01, 0x00, 0x20], [0x81, 1, 0xF8, 0x0F, 0xFF, 0xF0], [0x80, 0x80, 0x38, 0, 0, 0]];
    assert_eq!(bytes[42..], requests.concat());
    assert_eq!(out(&circtool(&["dis"], &bytes)), script);
}

/// The file with the image after the requests on these objects.
fn image(name: &str, requests: &str) -> String {
    let file = folder(&format!("companies-{name}")).join("state.img").to_str().unwrap().to_string();
    let script = format!("{THREE}{}{requests}", objects());
    ended(&circtool(&["run", "--image", &file], script.as_bytes()), 0);
    file
}

#[test]
fn states_and_pages() {
    let file = image("states", "s0 companies o1 1 0 0 2\n");
    let show = out(&circtool(&["show", &file], b""));
    assert!(show.contains("  o1   owner s0   label class 1 needs {}   companies 1 0 0 2\n"), "{show}");
    assert!(show.contains("  o2   owner s0   label class 1 needs {}\n"), "{show}");
    let page = out(&circtool(&["page", &file, "o1"], b""));
    assert!(page.starts_with("o1   owner s0   label class 1 needs {}   companies 1 0 0 2\n00 rwae"), "{page}");
}

#[test]
fn images_that_differ_in_companies() {
    let (a, b) = (image("one", "s0 companies o1 1 0 0 2\n"), image("other", "s0 companies o1 1 0 3 2\n"));
    let compared = circtool(&["compare", &a, &b], b"");
    ended(&compared, 1);
    let text = out(&compared);
    assert!(text.contains("different in 1 place\n  o1: companies 1 0 0 2 in A, companies 1 0 3 2 in B\n"), "{text}");
    let told = "   1  s0 sets the companies of o1 to 1 0 0 2   <- different\n        \
                A: 1 granted, it was so already\n        B: 0 granted, the state changed\n";
    assert!(text.ends_with(told), "{text}");
    let text = out(&circtool(&["compare", &a, &image("none", "")], b""));
    assert!(text.contains("  o1: companies 1 0 0 2 in A, no companies in B\n"), "{text}");
    let text = out(&circtool(&["compare", &a, &image("gone", "s0 delete o1\n")], b""));
    let gone = "  o1: live in A (owner s0, label class 1 needs {}, companies 1 0 0 2), not live in B\n";
    assert!(text.contains(gone), "{text}");
}

#[test]
fn orders_that_the_wall_alone_tells_apart() {
    let file = image("orders", "s0 companies o0 2 0 0 0\ns0 companies o1 1 0 0 2\n");
    let orders = circtool(&["orders", &file], b"s1 get e o0\ns2 get r o0\ns1 get e o1\n");
    ended(&orders, 1);
    let words = out(&orders).split_whitespace().collect::<Vec<_>>().join(" ");
    let reason = format!(
        "line 1: s1 gets e on o0 line 3: s1 gets e on o1 the wall of competing companies: s1 would hold e on o0 \
         (company 2 of conflict class 1) and e on o1 (company 1 of conflict class 1); {FIRST}"
    );
    assert!(words.contains(&reason) && !words.contains("the star property"), "{words}");
    ended(&circtool(&["orders", &file], b"s1 get e o0\ns2 get e o1\ns1 get e o2\n"), 0);
}

#[test]
fn an_image_that_is_refused_with_18() {
    let file = image("held", "s1 get e o0\ns1 get r o1\ns1 get a o2\ns0 companies o0 1 0 0 0\n");
    let mut bytes = std::fs::read(file).unwrap();
    assert_eq!((bytes.len(), circmon::read(&bytes)), (IMAGE_BYTES, 0));
    // company 2 of conflict class 1 for o1: its record begins at bit 336 + 177, the companies 26 bits behind that
    let bit = 336 + 177 + 26 + 2;
    bytes[bit / 8] ^= 0x80 >> (bit % 8);
    assert_eq!(circmon::read(&bytes), 18);
    let show = circtool(&["show"], &bytes);
    ended(&show, 1);
    let message = format!(
        "<stdin>: image refused with 18 (the wall of competing companies is broken)\n  \
         s1 holds e on o0 (company 1 of conflict class 1) and r on o1 (company 2 of conflict class 1); {FIRST}\n  \
         s1 holds r on o1 (company 2 of conflict class 1) and a on o2 (no company of conflict class 1); {SECOND}\n"
    );
    assert_eq!((out(&show), err(&show)), (String::new(), message));
}

#[test]
fn companies_are_taken_back() {
    let script = format!("{THREE}s0 create o4\ns0 companies o4 1 0 0 2\ntake back\ntake back\ntake back\n");
    let explained = out(&circtool(&["explain"], script.as_bytes()));
    let words = explained.split_whitespace().collect::<Vec<_>>().join(" ");
    let note = "step 2, s0 sets the companies of o4 to 1 0 0 2: the record of o4 is as it was before it, with no \
                companies and no longer companies 1 0 0 2";
    assert!(words.contains(note), "{explained}");
    assert!(words.contains("step 1, s0 creates o4: o4 is not live, as it was before it"), "{explained}");
    assert!(words.contains("17 refused: the journal is empty"), "{explained}");
}

#[test]
fn no_profile_bounds_the_numbers() {
    let profile = "profile subjects 1 objects 1 class 0 needs {}\nsubject 0 class 0 needs {}\n";
    let script = format!(
        "{profile}s0 create o0\ns0 companies o0 15 15 15 15\ns0 companies o1 0 0 0 0\ns1 companies o0 0 0 0 0\n"
    );
    assert_eq!(out(&circtool(&["run"], script.as_bytes())), "0\n0\n2\n2\n");
}
