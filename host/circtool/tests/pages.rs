//! `page`: the access pages of objects, beside those of the second implementation and the tables of docs/FORMATS.md; objects
//! that are not live, refused images and bad words.

mod shared;

use circmon::Profile;
use circtool::input::Input;
use circtool::mode::{Mode, Modes};
use circtool::page::{pages, Asked};
use circtool::paint::Paint;
use reference::{Level, Monitor, Object, OBJECTS, PAGE_BYTES};
use shared::formats::fields;
use shared::{circtool, ended, err, folder, out};
use sidebyside::image;

/// o0 is live without a label, o7 and o63 with one; s1 owns all three and holds r on o7.
fn state() -> Monitor {
    let level = Level { class: 0, needs: 0 };
    let mut monitor = Monitor::empty();
    monitor.subjects[1] = Some(level);
    for (slot, label) in [(0, None), (7, Some(level)), (63, Some(level))] {
        let mut object = Object { label, ..Object::new(1) };
        object.rights[1] = 0b1100;
        monitor.objects[slot] = Some(object);
    }
    monitor.objects[7].as_mut().unwrap().held[1] = 0b1000;
    monitor
}

/// The page as the second implementation writes it.
fn page(monitor: &Monitor, object: usize) -> String {
    let mut page = vec![0; PAGE_BYTES];
    assert_eq!(monitor.write_page(object as u8, &mut page), 0, "o{object}");
    String::from_utf8(page).unwrap()
}

/// The pages of some objects, each under the line that `show` has for the object.
fn expected(monitor: &Monitor, objects: &[usize]) -> String {
    let shown = out(&circtool(&["show"], &image(monitor)));
    let section = |&object: &usize| {
        let line = shown.lines().find(|line| line.trim_start().starts_with(&format!("o{object} "))).unwrap();
        format!("{}\n{}", line.trim_start(), page(monitor, object))
    };
    objects.iter().map(section).collect::<Vec<_>>().join("\n")
}

#[test]
fn the_objects_that_are_named_in_their_order() {
    let (monitor, folder) = (state(), folder("pages"));
    let file = folder.join("a.img");
    std::fs::write(&file, image(&monitor)).unwrap();
    let name = file.to_str().unwrap();
    for (words, objects) in [
        (vec!["page", name, "o7"], vec![7]),
        (vec!["page", "-", "o7"], vec![7]),
        (vec!["page", name, "o63", "o0", "o63"], vec![63, 0, 63]),
        (vec!["page", "--all", name], vec![0, 7, 63]),
        (vec!["page", name, "--all"], vec![0, 7, 63]),
        (vec!["page", "--all"], vec![0, 7, 63]),
    ] {
        let output = circtool(&words, &image(&monitor));
        ended(&output, 0);
        assert_eq!((out(&output), err(&output)), (expected(&monitor, &objects), String::new()), "{words:?}");
    }
    let one = out(&circtool(&["page", name, "o7"], b""));
    assert!(one.starts_with("o7   owner s1   label class 0 needs {}\n00 ---- ---- 0\n01 rw-- r--- 1\n02 "), "{one}");
    assert!(one.ends_with("\n15 ---- ---- 0\nto 01 00 00 00 01\n"), "{one}");
    let unlabelled = out(&circtool(&["page", name, "o0"], b""));
    assert!(unlabelled.starts_with("o0   owner s1   no label (not class 0: "), "{unlabelled}");
}

#[test]
fn every_live_object_of_random_states() {
    let mut live = 0;
    for seed in 0..40 {
        let monitor = load::rich(seed, 1 + seed as usize % 64, 500);
        let objects: Vec<usize> = (0..OBJECTS).filter(|&object| monitor.objects[object].is_some()).collect();
        live += objects.len();
        let output = circtool(&["page", "--all"], &image(&monitor));
        ended(&output, 0);
        let pages = if objects.is_empty() { "no object is live\n".to_string() } else { expected(&monitor, &objects) };
        assert_eq!(out(&output), pages, "seed {seed}");
    }
    assert!(live > 500, "{live}");
    let nothing = circtool(&["page", "-", "--all"], &image(&Monitor::empty()));
    ended(&nothing, 0);
    assert_eq!((out(&nothing), err(&nothing)), ("no object is live\n".to_string(), String::new()));
}

#[test]
fn where_an_object_is_not_live_no_page_is_printed() {
    let output = circtool(&["page", "-", "o0", "o8", "o7", "o62"], &image(&state()));
    ended(&output, 1);
    let message = |object| format!("<stdin>: page of o{object}: 4 refused: the object is not live\n");
    assert_eq!((out(&output), err(&output)), (String::new(), message(8) + &message(62)));
}

#[test]
fn a_refused_image_is_told_as_show_tells_it() {
    let mut stray = image(&state());
    *stray.last_mut().unwrap() ^= 0x01;
    stray[41] ^= 0x01;
    for bytes in [&stray[..], &stray[..circmon::IMAGE_BYTES - 1], b"", b"s1 create o0\n"] {
        let shown = circtool(&["show"], bytes);
        for words in [vec!["page", "--all"], vec!["page", "-", "o7"], vec!["page", "-", "o1"]] {
            let output = circtool(&words, bytes);
            ended(&output, 1);
            assert!(err(&output).starts_with("<stdin>: image refused with 1"), "{}", err(&output));
            assert_eq!((out(&output), err(&output)), (String::new(), err(&shown)), "{words:?}");
        }
    }
}

#[test]
fn bad_words_have_status_2() {
    let neither = "expected an image and an object (o0 to o63) behind it, or --all";
    for (words, message) in [
        (vec![], neither),
        (vec!["-"], neither),
        (vec!["o7"], neither),
        (vec!["-", "o7", "--all"], "expected nothing behind the image and --all, found 'o7'"),
        (vec!["-", "o64"], "object 64 is above 63"),
        (vec!["-", "o7", "o255"], "object 255 is above 63"),
        (vec!["-", "o99999999999999999999"], "expected an object (o0 to o63), found 'o99999999999999999999'"),
        (vec!["-", "7"], "expected an object (o0 to o63), found '7'"),
        (vec!["-", "s1"], "expected an object (o0 to o63), found 's1'"),
        (vec!["-", "o07"], "expected an object (o0 to o63), found 'o07'"),
        (vec!["-", "o"], "expected an object (o0 to o63), found 'o'"),
        (vec!["-", ""], "expected an object (o0 to o63), found ''"),
        (vec!["-", "o7\u{1b}"], "expected an object (o0 to o63), found 'o7<U+001B>'"),
        (vec!["-", "o7", "--anyway"], "unknown option '--anyway'"),
    ] {
        let output = circtool(&[&["page"][..], &words].concat(), &image(&state()));
        ended(&output, 2);
        let message = format!("circtool page: {message}; see 'circtool page --help'\n");
        assert_eq!((out(&output), err(&output)), (String::new(), message), "{words:?}");
    }
    let absent = circtool(&["page", "/no/such/file", "o7"], b"");
    ended(&absent, 2);
    assert!(err(&absent).starts_with("circtool: cannot read /no/such/file: "), "{}", err(&absent));
}

#[test]
fn only_an_absent_label_is_coloured() {
    let input = Input { name: "a.img".to_string(), bytes: image(&state()) };
    let text = |paint| String::from_utf8(pages(Profile::WIDEST, &input, &Asked::All, paint).unwrap()).unwrap();
    let coloured = text(Paint::COLOURED);
    assert_eq!(shared::without_colour(&coloured), text(Paint::PLAIN));
    assert_eq!(coloured.matches('\x1b').count(), 2, "{coloured}");
    assert!(coloured.starts_with("o0   owner s1   \x1b[1;31mno label\x1b[0m (not class 0: "), "{coloured}");
}

/// The page of an object with each field where docs/FORMATS.md has it, and spaces between.
fn documented(object: &reference::Object) -> Vec<u8> {
    let (of_line, of_last) = (fields("field of a line"), fields("field of the last line"));
    let mut page = vec![b' '; PAGE_BYTES];
    let mut put = |at: usize, (first, width): (usize, usize), text: &str| {
        page[at + first..at + first + width].copy_from_slice(text.as_bytes());
    };
    for subject in 0..16 {
        let (rights, held) = (Modes(object.rights[subject]), Modes(object.held[subject]));
        let (number, count) = (format!("{subject:02}"), held.count().to_string());
        let texts = [&number, &rights.row(), &held.row(), &count, "\n"];
        for (field, text) in ["subject", "rights", "held", "count", "newline"].into_iter().zip(texts) {
            put(15 * subject, of_line[field], text);
        }
    }
    let holders = Mode::ALL.map(|mode| object.held.iter().filter(|&&held| Modes(held).has(mode)).count());
    for (mode, holders) in Mode::ALL.into_iter().zip(holders) {
        put(240, of_last[&mode.to_string()], &format!("{holders:02}"));
    }
    let total = format!("{:02}", holders.iter().sum::<usize>());
    for (field, text) in [("to", "to"), ("total", &total), ("newline", "\n")] {
        put(240, of_last[field], text);
    }
    page
}

#[test]
fn pages_have_the_fields_of_the_document() {
    for seed in 0..20 {
        let monitor = load::rich(seed, 64, 500);
        let unit = circmon::Unit::from_image(&image(&monitor)).unwrap();
        for (slot, object) in monitor.objects.iter().enumerate() {
            let mut written = [0; PAGE_BYTES];
            assert_eq!(unit.page(slot as u8, &mut written), if object.is_some() { 0 } else { 4 });
            assert!(object.as_ref().is_none_or(|it| documented(it) == written), "seed {seed}, o{slot}");
        }
    }
}
