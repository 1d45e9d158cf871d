//! A state for people: every object state has its own look, and an absent label never looks like class 0.

mod shared;

use circtool::paint::Paint;
use circtool::show::show;
use circtool::view::View;
use reference::{Level, Monitor, Object};
use sidebyside::image;

fn text(monitor: &Monitor) -> String {
    show(&View::new(&image(monitor)), Paint::PLAIN)
}

fn object(owner: usize, label: Option<Level>) -> Object {
    Object { label, ..Object::new(owner) }
}

/// Three subjects and one object in the slot.
fn with_object(slot: usize, object: Object) -> Monitor {
    let mut monitor = Monitor::empty();
    for subject in [0, 3, 15] {
        monitor.subjects[subject] = Some(Level { class: 2, needs: 1 });
    }
    monitor.objects[slot] = Some(object);
    monitor
}

const OPEN: Option<Level> = Some(Level { class: 0, needs: 0 });

/// The line of an object and those of its subjects.
fn lines_of(text: &str, slot: usize) -> Vec<String> {
    let start = format!("o{slot} ");
    let mut lines = text.lines().skip_while(|line| !line.trim_start().starts_with(&start));
    let first = lines.next().unwrap_or_else(|| panic!("no line of o{slot} in\n{text}")).to_string();
    let rest = lines.take_while(|line| line.trim_start().starts_with('s')).map(str::to_string);
    [first].into_iter().chain(rest).collect()
}

#[test]
fn an_unlabelled_object_is_visibly_no_object_of_class_0() {
    let unlabelled = lines_of(&text(&with_object(5, object(3, None))), 5);
    let open = lines_of(&text(&with_object(5, object(3, OPEN))), 5);
    assert_eq!(open, ["  o5   owner s3   label class 0 needs {}"]);
    assert_eq!(unlabelled, ["  o5   owner s3   no label (not class 0: nobody reads, writes or appends)"]);
    assert!(
        text(&with_object(5, object(3, None))).starts_with("3 subjects enrolled, 1 object live (1 without a label)")
    );
    assert!(
        text(&with_object(5, object(3, OPEN))).starts_with("3 subjects enrolled, 1 object live (0 without a label)")
    );
    let coloured = show(&View::new(&image(&with_object(5, object(3, None)))), Paint::COLOURED);
    assert!(coloured.contains("\x1b[1;31mno label\x1b[0m"), "{coloured}");
    assert_eq!(shared::without_colour(&coloured), text(&with_object(5, object(3, None))));
}

#[test]
fn every_object_state() {
    let labelled = Some(Level { class: 15, needs: 0x8005 });
    let label = "label class 15 needs {0,2,15}";
    let mut with_rights = object(15, labelled);
    with_rights.rights[0] = 0b0001;
    with_rights.rights[15] = 0b1110;
    let mut holding = with_rights.clone();
    holding.held[15] = 0b0010;
    let rights = ["         s0   rights ---e", "         s15  rights rwa-"];
    for (slot, object, expected) in [
        (0, object(0, labelled), vec![format!("  o0   owner s0   {label}")]),
        (63, object(15, labelled), vec![format!("  o63  owner s15  {label}")]),
        (9, with_rights, vec![format!("  o9   owner s15  {label}"), rights[0].to_string(), rights[1].to_string()]),
        (
            9,
            holding,
            vec![format!("  o9   owner s15  {label}"), rights[0].to_string(), format!("{}   holds --a-", rights[1])],
        ),
    ] {
        let text = text(&with_object(slot, object));
        assert_eq!(lines_of(&text, slot), expected, "{text}");
        assert_eq!(text.lines().filter(|line| line.starts_with("  o")).count(), 1, "no other object is shown: {text}");
    }
}

#[test]
fn subjects_and_the_empty_state() {
    let nobody = text(&Monitor::empty());
    let counts = "0 subjects enrolled, 0 objects live (0 without a label), 0 rights, 0 accesses held";
    assert_eq!(nobody, format!("{counts}\n\nsubjects\n  nobody is enrolled\n\nobjects\n  none is live\n"));
    let some = text(&with_object(1, object(3, OPEN)));
    let subjects =
        "subjects\n  s0   class 2 needs {0}\n  s3   class 2 needs {0}\n  s15  class 2 needs {0}\n\nobjects\n";
    assert!(some.contains(subjects), "{some}");
}

/// The modes of a set as a row, written from the weights of the second implementation.
fn row(set: u8) -> String {
    let modes = reference::Mode::ALL.into_iter().zip("rwae".chars());
    modes.map(|(mode, letter)| if set & mode.bit() != 0 { letter } else { '-' }).collect()
}

#[test]
fn random_states_are_shown_whole() {
    for seed in 0..100 {
        let monitor = load::rich(seed, 1 + seed as usize % 64, 500);
        let text = text(&monitor);
        for (slot, object) in monitor.objects.iter().enumerate() {
            let Some(object) = object else {
                assert!(!text.contains(&format!("  o{slot} ")), "seed {seed}: o{slot} is not live");
                continue;
            };
            let lines = lines_of(&text, slot);
            let indent = " ".repeat(2 * (load::depth(&monitor, slot) - 1));
            assert!(lines[0].starts_with(&format!("{indent}  o{slot} ")), "seed {seed}: {}", lines[0]);
            let under = object.parent.map_or(String::new(), |parent| format!("   under o{parent}"));
            assert!(lines[0].ends_with(&under), "seed {seed}: {}", lines[0]);
            assert_eq!(lines[0].contains(" under "), object.parent.is_some(), "seed {seed}: {}", lines[0]);
            assert!(lines[0].contains(&format!(" owner s{} ", object.owner)), "seed {seed}: {}", lines[0]);
            assert_eq!(lines[0].contains("no label"), object.label.is_none(), "seed {seed}: {}", lines[0]);
            assert_eq!(lines[0].contains(" class "), object.label.is_some() || lines[0].contains("not class 0"));
            let subjects: Vec<String> = (0..16)
                .filter(|&s| object.rights[s] | object.held[s] != 0)
                .map(|s| {
                    (s, if object.held[s] == 0 { String::new() } else { format!("   holds {}", row(object.held[s])) })
                })
                .map(|(s, holds)| format!("{indent}         s{s:<3} rights {}{holds}", row(object.rights[s])))
                .collect();
            assert_eq!(lines[1..], subjects, "seed {seed}, o{slot}");
        }
        let live: Vec<&Object> = monitor.objects.iter().flatten().collect();
        let unlabelled = live.iter().filter(|object| object.label.is_none()).count();
        assert_eq!(text.matches("no label").count(), unlabelled, "seed {seed}");
        let rights: u32 = live.iter().flat_map(|object| object.rights).map(u8::count_ones).sum();
        let held: u32 = live.iter().flat_map(|object| object.held).map(u8::count_ones).sum();
        let (rights_words, held_words) = (format!(" {rights} right"), format!(" {held} access"));
        assert!(text.lines().next().is_some_and(|it| it.contains(&rights_words) && it.contains(&held_words)), "{text}");
    }
}
