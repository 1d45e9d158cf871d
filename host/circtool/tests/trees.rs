//! Objects under objects in every subcommand: scripts, reasons of 19 and 20, deletes of a branch, states, comparisons, refused images
//! and takings-back.

mod shared;

use circmon::Unit;
use circtool::explain::step;
use reference::{Level, Monitor, Object};
use shared::{circtool, ended, err, folder, out};

/// Two subjects with one clearance.
const TWO: &str = "subject 0 class 3 needs {0,1}\nsubject 1 class 3 needs {0,1}\n";

/// o0 with o1 and o2 under it, and o3 under o1; s1 owns o2.
const RISER: &str = "s0 create o0\ns0 create o1 under o0\ns1 create o2 under o0\ns0 create o3 under o1\n";

const RULE: &str = "a labelled child has a labelled parent, whose label it dominates";

/// The last step of the requests behind these.
fn last(requests: &str) -> (u8, String) {
    let bytes = circtool::assemble::assemble(&format!("{TWO}{RISER}{requests}")).unwrap();
    let mut unit = Unit::from_table(&bytes[..42]).unwrap();
    let step = bytes[42..].chunks(6).map(|piece| step(&mut unit, piece)).last().unwrap();
    (step.reply, step.note.unwrap_or_default())
}

#[test]
fn a_script_and_its_bytes() {
    let script = format!("{TWO}\ns0 create o3 under o1\ns1 create o63 under o63 with e\ns1 create o7 with e\n");
    let bytes = circtool(&["asm"], script.as_bytes()).stdout;
    let requests = [[0x50, 0, 0x18, 0, 0, 0x20], [0x50, 0x81, 0xFC, 0, 0x04, 0], [0x50, 0x80, 0x3C, 0, 0, 0]];
    assert_eq!(bytes[42..], requests.concat());
    assert_eq!(out(&circtool(&["dis"], &bytes)), script);
}

#[test]
fn a_create_refused_with_19_says_which_parent_and_why() {
    let not_live = "o9, under which o5 would stand, is not live";
    assert_eq!(last("s0 create o5 under o9"), (19, not_live.to_string()));
    let itself = "o5 cannot be under itself: a parent is live before its child is created";
    assert_eq!(last("s0 create o5 under o5"), (19, itself.to_string()));
    assert_eq!(last("s0 create o1 under o1").0, 5, "a live object is not created again");
    let gone = "o3, under which o4 would stand, is not live";
    assert_eq!(last("s0 delete o1\ns0 create o4 under o3"), (19, gone.to_string()));
    assert_eq!(last("s1 create o5 under o3"), (0, String::new()));
}

#[test]
fn a_level_refused_with_20_says_which_parent_or_child_and_both_labels() {
    let labels = "s0 level o0 class 1 needs {0}\ns0 level o1 class 2 needs {0}\n";
    let absent = "o1 is under o0, which has no label, and so it cannot have the label class 1 needs {}";
    assert_eq!(last("s0 level o1 class 1 needs {}"), (20, format!("{absent}; {RULE}")));
    let (reply, note) = last(&format!("{labels}s1 level o2 class 3 needs {{1}}"));
    let apart = "o2 is under o0, and the new label of o2 (class 3 needs {1}) is apart from the label of o0 (class 1 needs {0}), \
                 neither dominates the other; missing: needs {0}";
    assert_eq!((reply, note), (20, format!("{apart}; {RULE}")));
    let (reply, note) = last(&format!("{labels}s0 level o0 class 3 needs {{0}}"));
    let below = "o1 is under o0, and the label of o1 (class 2 needs {0}) is below the new label of o0 (class 3 needs {0}) and does \
                 not dominate it; missing: the class (2 is under 3)";
    assert_eq!((reply, note), (20, format!("{below}; {RULE}")));
    assert_eq!(last(&format!("{labels}s0 level o0 class 2 needs {{0}}")), (0, String::new()));
    assert_eq!(last(&format!("{labels}s0 level o0 class 1 needs {{0}}")), (1, String::new()));
}

#[test]
fn a_delete_says_what_goes_with_it() {
    assert_eq!(last("s0 delete o0"), (0, "3 objects below it go with it: o1, o2, o3".to_string()));
    assert_eq!(last("s0 delete o1"), (0, "1 object below it goes with it: o3".to_string()));
    assert_eq!(last("s0 delete o3"), (0, String::new()));
    assert_eq!(last("s1 delete o0").0, 6, "what is refused takes nothing");
    assert_eq!(last("s1 delete o0").1, "s1 does not own o0; the owner is s0; the rights of s1: none");
}

/// The words of an explanation, one space between two.
fn explained(requests: &str) -> String {
    let text = out(&circtool(&["explain"], format!("{TWO}{RISER}{requests}").as_bytes()));
    text.split_whitespace().collect::<Vec<_>>().join(" ")
}

#[test]
fn after_a_delete_that_took_children_the_journal_is_empty_and_it_is_said_why() {
    let words = explained("s0 delete o1\ntake back\ns0 create o4\ntake back\ntake back\n");
    let goes =
        "1 object below it goes with it: o3; that empties the journal: neither this request nor one before it can be \
                taken back";
    assert!(words.contains(goes), "{words}");
    let why = "17 refused: the journal is empty the journal is empty: step 5, s0 deletes o1, took 1 object below it and emptied \
               it; what a delete takes with its object cannot be taken back, and takings-back are counted from there";
    assert_eq!(words.matches(why).count(), 2, "{words}");
    assert!(words.contains("step 7, s0 creates o4: o4 is not live, as it was before it"), "{words}");
    // a leaf is taken back, to the place where it was
    let words = explained("s0 delete o3\ntake back\ns0 delete o1\n");
    assert!(words.contains("step 5, s0 deletes o3: the record of o3 is as it was before it"), "{words}");
    assert!(words.contains("1 object below it goes with it: o3"), "{words}");
    // before any such delete the journal is empty for another reason
    let words = explained(&"take back\n".repeat(5));
    assert!(
        words.contains("a monitor begun from a table or an image has none") && !words.contains("emptied"),
        "{words}"
    );
}

#[test]
fn once_an_entry_has_given_way_the_delete_is_no_longer_the_reason() {
    let changes = "s0 give s1 r o0\ns0 rescind s1 r o0\n".repeat(20);
    let words = explained(&format!("s0 delete o1\n{changes}{}", "take back\n".repeat(33)));
    assert!(words.contains("17 refused: the journal is empty the journal is empty: it keeps up to 32"), "{words}");
    let fewer = "s0 give s1 r o0\ns0 rescind s1 r o0\n".repeat(16);
    let words = explained(&format!("s0 delete o1\n{fewer}{}", "take back\n".repeat(33)));
    assert!(words.contains("step 5, s0 deletes o1, took 1 object below it and emptied it"), "{words}");
}

/// The file with the image after the requests behind those of the riser.
fn image(name: &str, requests: &str) -> String {
    let file = folder(&format!("trees-{name}")).join("state.img").to_str().unwrap().to_string();
    ended(&circtool(&["run", "--image", &file], format!("{TWO}{RISER}{requests}").as_bytes()), 0);
    file
}

#[test]
fn a_state_is_shown_as_a_tree() {
    let file =
        image("show", "s0 level o0 class 1 needs {}\ns1 create o9\ns1 companies o9 1 0 0 0\ns0 create o4 under o3\n");
    let shown = out(&circtool(&["show", &file], b""));
    let objects = &shown[shown.find("objects\n").unwrap()..];
    let none = "no label (not class 0: nobody reads, writes or appends)";
    let expected = format!(
        "objects\n  o0   owner s0   label class 1 needs {{}}\n         s0   rights rwa-\n    \
         o1   owner s0   {none}   under o0\n           s0   rights rwa-\n      \
         o3   owner s0   {none}   under o1\n             s0   rights rwa-\n        \
         o4   owner s0   {none}   under o3\n               s0   rights rwa-\n    \
         o2   owner s1   {none}   under o0\n           s1   rights rwa-\n  \
         o9   owner s1   {none}   companies 1 0 0 0\n         s1   rights rwa-\n"
    );
    assert_eq!(objects, expected);
    let page = out(&circtool(&["page", &file, "o3"], b""));
    assert!(page.starts_with(&format!("o3   owner s0   {none}   under o1\n00 rwa- ---- 0\n")), "{page}");
}

#[test]
fn a_different_parent_is_told_in_words_and_shown_by_deletes_and_creates() {
    let (a, b) = (image("a", "s0 create o4 under o1\n"), image("b", "s0 create o4\n"));
    let output = circtool(&["compare", &a, &b], b"");
    ended(&output, 1);
    let text = out(&output);
    assert!(text.contains("different in 1 place\n  o4: under o1 in A, under no object in B\n"), "{text}");
    let requests: Vec<&str> = text.lines().filter(|line| line.starts_with("   ") && line.contains("  s")).collect();
    assert!(requests.len() <= 2 && text.contains("<- different"), "{text}");
    assert!(requests.iter().all(|line| line.contains(" deletes o") || line.contains(" creates o")), "{text}");
    assert!(text.contains("2 objects below it go with it: o3, o4"), "{text}");
    let (c, d) = (image("c", "s0 create o4 under o1\n"), image("d", "s0 create o4 under o2\n"));
    let text = out(&circtool(&["compare", &c, &d], b""));
    assert!(text.contains("  o4: under o1 in A, under o2 in B\n"), "{text}");
    let text = out(&circtool(&["compare", &c, &image("e", "")], b""));
    assert!(text.contains("  o4: live in A (owner s0, under o1, no label), not live in B\n"), "{text}");
}

/// A state that no request leaves: objects with these parents and labels, owned by s0.
fn state(objects: &[(Option<usize>, Option<u8>)]) -> Vec<u8> {
    let mut monitor = Monitor::empty();
    monitor.subjects[0] = Some(Level { class: 3, needs: 0 });
    for (slot, (parent, class)) in objects.iter().enumerate() {
        let label = class.map(|class| Level { class, needs: 0 });
        monitor.objects[slot] = Some(Object { parent: *parent, label, ..Object::new(0) });
    }
    sidebyside::image(&monitor)
}

#[test]
fn images_refused_with_19_say_which_object_and_why() {
    let bytes =
        state(&[(Some(9), None), (Some(1), None), (Some(3), None), (Some(4), None), (Some(2), None), (Some(99), None)]);
    let show = circtool(&["show"], &bytes);
    ended(&show, 1);
    let message = "<stdin>: image refused with 19 (a parent is not live, or a chain of parents does not end)\n  \
                   o0 is under o9, which is not live\n  \
                   o1 is under itself: its chain of parents does not end\n  \
                   a chain of parents does not end: o2 under o3 under o4 under o2\n  \
                   the parent bits of o5, a number plus one, are 100, above 64\n";
    assert_eq!((out(&show), err(&show).as_str()), (String::new(), message));
    // its fields are shown all the same, each object once
    let anyway = out(&circtool(&["show", "--anyway"], &bytes));
    let objects: Vec<&str> =
        anyway.lines().filter(|line| line.trim_start().starts_with('o') && line.contains("owner")).collect();
    let names = |line: &&str| line.split_whitespace().next().unwrap().to_string();
    assert_eq!(objects.iter().map(names).collect::<Vec<_>>(), ["o0", "o5", "o1", "o2", "o4", "o3"]);
    // o6 stands below a ring and not in it: the ring is named once
    let below = state(&[(Some(1), None), (Some(0), None), (Some(0), None), (Some(2), None)]);
    assert!(err(&circtool(&["show"], &below)).ends_with("\n  a chain of parents does not end: o0 under o1 under o0\n"));
}

#[test]
fn images_refused_with_20_say_both_labels() {
    let show = circtool(&["show"], &state(&[(None, Some(2)), (Some(0), Some(1)), (Some(3), Some(1)), (None, None)]));
    ended(&show, 1);
    let message = format!(
        "<stdin>: image refused with 20 (a label breaks the rule toward a parent)\n  \
         o1 is under o0, and the label of o1 (class 1 needs {{}}) is below the label of o0 (class 2 needs {{}}) and does not \
         dominate it; missing: the class (1 is under 2); {RULE}\n  \
         o2 is under o3, which has no label, and so it cannot have the label class 1 needs {{}}; {RULE}\n"
    );
    assert_eq!((out(&show), err(&show)), (String::new(), message));
}

#[test]
fn a_profile_bounds_the_parent_by_its_objects_and_by_no_need() {
    let start = "profile subjects 1 objects 3 class 0 needs {}\nsubject 0 class 0 needs {}\ns0 create o0\n";
    let script =
        format!("{start}s0 create o1 under o0\ns0 create o2 under o2\ns0 create o2 under o3\ns0 create o2 under o1\n");
    assert_eq!(out(&circtool(&["run"], script.as_bytes())), "0\n0\n19\n2\n0\n");
    let words = out(&circtool(&["explain"], script.as_bytes()));
    assert!(words.contains("\n        parent o3 is beyond the profile: 3 objects, o0 to o2 are in use\n"), "{words}");
}
