//! Two images: equal ones, every kind of difference with its words, and requests that tell the two apart.

use circmon::{distinguish, Profile};
use circtool::compare::{compare, Comparison, Named};
use circtool::difference::differences;
use circtool::paint::Paint;
use circtool::view::View;
use load::Random;
use reference::{Level, Monitor, Object};
use sidebyside::{image, SHAPES};

fn compared(a: &[u8], b: &[u8]) -> Comparison {
    compare(Profile::WIDEST, &Named { name: "a.img", bytes: a }, &Named { name: "b.img", bytes: b }, Paint::PLAIN)
}

fn replies(state: &Monitor, requests: &[u8]) -> Vec<u8> {
    let mut monitor = state.clone();
    requests.chunks(6).map(|request| monitor.request(request)).collect()
}

/// That two states are told apart: by the proved list of requests, which is printed and which the second implementation
/// answers too, and in words. The number is that of the list.
fn told_apart(a: &Monitor, b: &Monitor, what: &str) -> (usize, Vec<String>) {
    let (first, second) = (image(a), image(b));
    let mut requests = [0xEE; 30];
    let number = usize::from(distinguish(&first, &second, &mut requests));
    assert!((1..=4).contains(&number), "{what}: {number}");
    assert!(requests[6 * number..].iter().all(|&byte| byte == 0xEE), "{what}: later bytes are left");
    let list = &requests[..6 * number];
    let (in_a, in_b) = (replies(a, list), replies(b, list));
    assert_ne!(in_a, in_b, "{what}: {list:02x?}");
    let Comparison::Different(text) = compared(&first, &second) else { panic!("{what}: not different") };
    // both replies stand at each place, and a mark where they are not the same
    for (letter, replies) in [("A", &in_a), ("B", &in_b)] {
        let start = format!("        {letter}: ");
        let printed: Vec<u8> =
            text.lines().filter_map(|line| line.strip_prefix(&start)?.split(' ').next()?.parse().ok()).collect();
        assert_eq!(printed, *replies, "{what}\n{text}");
    }
    let marks = in_a.iter().zip(&in_b).filter(|(a, b)| a != b).count();
    assert_eq!(text.matches("<- different").count(), marks, "{what}\n{text}");
    let words = differences(&View::new(&first), &View::new(&second));
    assert!(!words.is_empty() && words.iter().all(|it| text.contains(it.as_str())), "{what}\n{text}");
    (number, words)
}

const LOW: Level = Level { class: 0, needs: 0 };
const HIGH: Level = Level { class: 3, needs: 3 };

fn state() -> Monitor {
    let mut monitor = Monitor::empty();
    monitor.subjects[0] = Some(LOW);
    monitor.subjects[1] = Some(HIGH);
    let mut object = Object { label: Some(LOW), ..Object::new(1) };
    object.rights[1] = 0b1110;
    object.held[1] = 0b1000;
    monitor.objects[2] = Some(object);
    monitor
}

fn changed(change: impl Fn(&mut Monitor)) -> Monitor {
    let mut monitor = state();
    change(&mut monitor);
    monitor
}

fn object(monitor: &mut Monitor) -> &mut Object {
    monitor.objects[2].as_mut().unwrap()
}

#[test]
fn each_kind_of_difference_has_its_words() {
    for (other, requests, words) in [
        (changed(|m| m.subjects[7] = Some(LOW)), 1, "s7: not enrolled in A, clearance class 0 needs {} in B"),
        (
            changed(|m| m.subjects[0] = Some(HIGH)),
            3,
            "s0: clearance class 0 needs {} in A, clearance class 3 needs {0,1} in B",
        ),
        (changed(|m| m.objects[2] = None), 1, "o2: live in A (owner s1, label class 0 needs {}), not live in B"),
        (changed(|m| object(m).owner = 0), 1, "o2: owner s1 in A, s0 in B"),
        (
            changed(|m| object(m).label = Some(Level { class: 1, needs: 0 })),
            1,
            "o2: label class 0 needs {} in A, label class 1 needs {} in B",
        ),
        (changed(|m| object(m).rights[0] = 0b0101), 1, "o2: rights of s0: none in A, w, e in B"),
        (changed(|m| object(m).held[1] = 0b1010), 1, "o2: accesses of s1: r in A, r, a in B"),
    ] {
        let (number, found) = told_apart(&state(), &other, words);
        assert_eq!((number, found), (requests, vec![words.to_string()]));
        told_apart(&other, &state(), &format!("{words}, the other way round"));
    }
}

#[test]
fn an_absent_label_differs_from_class_0_with_no_needs() {
    let open = changed(|m| object(m).held[1] = 0);
    let mut unlabelled = open.clone();
    object(&mut unlabelled).label = None;
    let (number, words) = told_apart(&unlabelled, &open, "label");
    assert_eq!((number, words), (1, vec!["o2: no label in A, label class 0 needs {} in B".to_string()]));
    let mut none = changed(|m| m.objects[2] = None);
    none.objects[3] = unlabelled.objects[2].clone();
    let (_, words) = told_apart(&none, &unlabelled, "slot");
    assert_eq!(words[0], "o2: not live in A, live in B (owner s1, no label)");
}

#[test]
fn clearances_are_told_apart_where_every_slot_is_taken() {
    let full = changed(|m| m.objects = std::array::from_fn(|_| m.objects[2].clone()));
    let mut other = full.clone();
    other.subjects[0] = Some(Level { class: 0, needs: 0x8000 });
    assert_eq!(told_apart(&full, &other, "full").0, 4);
}

#[test]
fn images_along_runs() {
    let (mut equal, mut different) = (0, 0);
    for seed in 0..300 {
        let random = &mut Random::new(seed);
        let shape = SHAPES[seed as usize % SHAPES.len()];
        let mut monitor = Monitor::from_table(&load::table(random, shape)).unwrap();
        let mut before = monitor.clone();
        for at in 0..120 {
            let request = load::bytes(random, shape, &monitor);
            monitor.request(&request);
            if monitor == before {
                assert!(matches!(compared(&image(&before), &image(&monitor)), Comparison::Equal(_)), "seed {seed}");
                equal += 1;
            } else {
                told_apart(&before, &monitor, &format!("seed {seed}, request {at}"));
                different += 1;
            }
            if random.once_in(3) {
                before = monitor.clone();
            }
        }
    }
    assert!(equal >= 5_000 && different >= 10_000, "{equal} equal, {different} different");
}

#[test]
fn images_of_different_runs() {
    for seed in 0..200 {
        let (a, b) = (load::rich(seed, 20, 200), load::rich(seed + 1000, 20, 200));
        told_apart(&a, &b, &format!("seed {seed}"));
    }
}

#[test]
fn equal_images_cite_the_proof() {
    let bytes = image(&state());
    let Comparison::Equal(text) = compared(&bytes, &bytes) else { panic!("not equal") };
    assert!(text.starts_with("equal: a.img and b.img\n"), "{text}");
    assert!(text.contains("Every further list of requests draws the same replies from both."), "{text}");
    assert!(text.contains("docs/THEOREMS.md"), "{text}");
    assert_eq!(distinguish(&bytes, &bytes, &mut [0; 24]), 0);
    assert_eq!(distinguish(&bytes, &bytes, &mut [0; 23]), 13);
}

#[test]
fn a_refused_image_is_named_with_its_place() {
    let good = image(&state());
    let mut stray = good.clone();
    *stray.last_mut().unwrap() |= 1;
    let Comparison::Trouble(text) = compared(&stray, &good) else { panic!("no trouble") };
    assert!(text.starts_with("A, a.img: image refused with 11 (") && text.contains("object record 63 "), "{text}");
    let broken = image(&changed(|m| object(m).label = None));
    let Comparison::Trouble(text) = compared(&good, &broken) else { panic!("no trouble") };
    assert!(
        text.starts_with("B, b.img: image refused with 7 (") && text.contains("s1 holds r on o2, which has no label")
    );
    let Comparison::Trouble(text) = compared(&good[..9], &good[..8]) else { panic!("no trouble") };
    assert!(text.starts_with("A, a.img: image refused with 10 (another length)\n  9 bytes, not 1458"), "{text}");
}
