//! Images under profiles for people: comparisons, orders, pages and states, beside the second implementation; and docs/FORMATS.md on
//! profiles.

mod shared;

use circmon::{Profile, Unit};
use circtool::compare::{compare, Comparison, Named};
use circtool::input::Input;
use circtool::orders::{orders, Gets, Orders};
use circtool::paint::Paint;
use circtool::profile::profile_words;
use circtool::show::show;
use circtool::view::View;
use circtool::words::refusal_words;
use load::Random;
use reference::{Monitor, StartOrder};
use shared::formats::table;
use sidebyside::image;
use sidebyside::orders::Met;
use sidebyside::profiles;
use sidebyside::start_order::bytes;

/// A profile, and two states of it that runs have reached: often the one is the other after a request.
fn pair(random: &mut Random) -> (Profile, Monitor, Monitor) {
    let profile = profiles::drawn(random);
    let one = profiles::reached(random, profile, 60);
    let mut other = one.clone();
    if random.once_in(3) {
        other = profiles::reached(random, profile, 60);
    } else {
        let request = load::bytes(random, profiles::shape(profile, 5), &one);
        other.request(&request);
    }
    (profiles::proved(profile).unwrap(), one, other)
}

/// The replies that the text has behind the letter of an image.
fn printed(text: &str, letter: &str) -> Vec<u8> {
    let start = format!("        {letter}: ");
    text.lines().filter_map(|line| line.strip_prefix(&start)?.split(' ').next()?.parse().ok()).collect()
}

#[test]
fn comparisons_of_images_of_one_profile() {
    let mut met = Met::default();
    for seed in 0..600 {
        let (profile, one, other) = pair(&mut Random::new(seed));
        let (a, b) = (image(&one), image(&other));
        let named = [Named { name: "a.img", bytes: &a }, Named { name: "b.img", bytes: &b }];
        let under =
            if profile == Profile::WIDEST { String::new() } else { format!("the profile {}", profile_words(profile)) };
        let text = match compare(profile, &named[0], &named[1], Paint::PLAIN) {
            Comparison::Equal(text) => {
                assert!(one == other, "seed {seed}: {text}");
                met.note("equal");
                text
            }
            Comparison::Different(text) => {
                assert!(one != other, "seed {seed}: {text}");
                assert_ne!(printed(&text, "A"), printed(&text, "B"), "seed {seed}: {text}");
                met.note("different");
                text
            }
            Comparison::Trouble(text) => panic!("seed {seed}: {text}"),
        };
        assert!(text.contains(&under) && (!under.is_empty() || !text.contains("profile")), "seed {seed}: {text}");
        assert!(!text.contains("please report") && !text.contains(": 2 refused"), "seed {seed}: {text}");
    }
    met.check(50, &["equal", "different"]);
}

#[test]
fn orders_of_gets_under_profiles() {
    let mut met = Met::default();
    for seed in 0..2000 {
        let random = &mut Random::new(seed);
        let (profile, one, _) = pair(random);
        let monitor = profiles::released(&one);
        let gets = profiles::likely_gets(random, &monitor);
        let (image, input) = (image(&monitor), Input { name: "gets.bin".to_string(), bytes: bytes(&gets) });
        let list = Gets::new(&input, true).unwrap();
        let found = orders(profile, &Named { name: "a.img", bytes: &image }, &list, Paint::PLAIN);
        match (found, monitor.start_order(&input.bytes)) {
            (Orders::Agree(_), StartOrder::Agree) => met.note("agree"),
            (Orders::Matter(text), StartOrder::Clash { first, second }) => {
                let [one, other] = [first, second].map(|at| format!("\n  request {}: ", at + 1));
                assert!(text.contains(&one) && text.contains(&other), "seed {seed}: {text}");
                assert!(!text.contains("please report"), "seed {seed}: {text}");
                met.note("matter");
            }
            (_, answer) => panic!("seed {seed}: {answer:?}"),
        }
    }
    met.check(30, &["agree", "matter"]);
}

#[test]
fn a_state_is_shown_with_its_profile_where_it_is_not_the_widest() {
    for seed in 0..200 {
        let (profile, one, _) = pair(&mut Random::new(seed));
        let bytes = image(&one);
        let unit = Unit::from_image_in(profile, &bytes).unwrap();
        let [shown, widest] = [View::of(&unit), View::new(&bytes)].map(|view| show(&view, Paint::PLAIN));
        let block = format!("profile\n  {}\n\n", profile_words(profile));
        assert_eq!(shown.replacen(&block, "", 1), widest, "seed {seed}");
        assert_eq!(shown.contains(&block), profile != Profile::WIDEST, "seed {seed}");
    }
}

#[test]
fn the_ranges_of_a_profile_are_those_of_the_page() {
    let rows = table("number of a profile");
    let range = |at: usize| {
        let (first, last) = rows[at][1].split_once(" to ").unwrap();
        first.parse::<u8>().unwrap()..=last.parse::<u8>().unwrap()
    };
    let [subjects, objects, class] = [range(0), range(1), range(2)];
    for number in 0..=255 {
        assert_eq!(Profile::new(number, 1, 0, 0).is_some(), subjects.contains(&number), "{number} subjects");
        assert_eq!(Profile::new(1, number, 0, 0).is_some(), objects.contains(&number), "{number} objects");
        assert_eq!(Profile::new(1, 1, number, 0).is_some(), class.contains(&number), "class {number}");
    }
    assert!(rows[3][1].starts_with("any set of 0 to 15"), "{rows:?}");
    let widest = Profile::new(*subjects.end(), *objects.end(), *class.end(), u16::MAX);
    assert_eq!(widest, Some(Profile::WIDEST));
}

#[test]
fn the_numbers_of_tables_and_images_are_those_of_the_page_and_have_words() {
    let rows = table("number | request");
    let column = |at: usize| -> Vec<u8> {
        rows.iter().filter(|row| !row[at].is_empty()).map(|row| row[0].parse().unwrap()).collect()
    };
    assert_eq!((column(2), column(3)), (vec![0, 10, 11, 16], vec![0, 6, 7, 8, 9, 10, 11, 12, 16, 18, 19, 20]));
    assert!(column(3)[1..].iter().all(|&number| !refusal_words(number).contains("a number that")));
}
