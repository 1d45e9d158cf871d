//! A list of rights in two orders, as scripts: the same replies but for 0 and 1, and equal images.

mod shared;

use shared::{circtool, ended, folder, out, root};
use std::collections::BTreeMap;

const BY_OBJECT: &str = "examples/rights-by-object.circ";
const BY_TASK: &str = "examples/rights-by-task.circ";

/// Each line of a script that is no comment, without its comment; and the number in the list of those that have one.
fn lines(script: &str) -> Vec<(String, Option<usize>)> {
    let parts = script.lines().map(|line| line.split_once('#').unwrap_or((line, "")));
    let numbered = |(line, comment): (&str, &str)| {
        let number = comment.split(':').next().and_then(|it| it.trim().parse().ok());
        (line.trim().to_string(), number)
    };
    parts.map(numbered).filter(|(line, _)| !line.is_empty()).collect()
}

/// What a script replies, by the number of the give in the list, and the image that it leaves.
struct Ran {
    gives: BTreeMap<usize, (String, u8)>,
    image: Vec<u8>,
}

fn ran(name: &str, script: &str) -> Ran {
    let file = folder(&format!("rights-{name}")).join("after.img");
    let output = circtool(&["run", "--image", file.to_str().unwrap()], script.as_bytes());
    ended(&output, 0);
    let replies: Vec<u8> = out(&output).lines().map(|line| line.parse().unwrap()).collect();
    let requests: Vec<_> = lines(script).into_iter().filter(|(line, _)| !line.starts_with("subject")).collect();
    assert_eq!(replies.len(), requests.len());
    let give = |((line, number), reply): ((String, Option<usize>), u8)| Some((number?, (line, reply)));
    Ran { gives: requests.into_iter().zip(replies).filter_map(give).collect(), image: std::fs::read(&file).unwrap() }
}

fn script(file: &str) -> String {
    std::fs::read_to_string(root().join(file)).unwrap()
}

#[test]
fn the_two_examples_have_the_same_beginning_and_the_same_gives_in_other_orders() {
    let [by_object, by_task] = [BY_OBJECT, BY_TASK].map(|file| lines(&script(file)));
    let beginning = by_object.iter().take_while(|(_, number)| number.is_none()).count();
    assert_eq!(by_object[..beginning], by_task[..beginning]);
    let (a, b) = (&by_object[beginning..], &by_task[beginning..]);
    assert!(a.iter().all(|(line, number)| line.contains(" give ") && number.is_some()));
    assert_ne!(a, b);
    let sorted = |gives: &[(String, Option<usize>)]| {
        let mut gives = gives.to_vec();
        gives.sort_by_key(|(_, number)| *number);
        gives
    };
    assert_eq!(sorted(a), sorted(b));
    // each is sorted as its name says
    let word = |(line, _): &(String, Option<usize>), at: usize| line.split(' ').nth(at).unwrap().to_string();
    assert!(a.is_sorted_by_key(|give| word(give, 4)) && b.is_sorted_by_key(|give| word(give, 2)));
}

#[test]
fn both_examples_grant_the_same_gives_and_leave_equal_images() {
    let [a, b] = [("by-object", BY_OBJECT), ("by-task", BY_TASK)].map(|(name, file)| ran(name, &script(file)));
    assert_eq!(a.image, b.image);
    let numbers: Vec<usize> = a.gives.keys().copied().collect();
    assert_eq!(numbers, (1..=9).collect::<Vec<_>>());
    for (number, (give, reply)) in &a.gives {
        let (same_give, other_reply) = &b.gives[number];
        assert_eq!((give, *reply < 2), (same_give, *other_reply < 2), "number {number}");
    }
    // the copies: whichever comes second is replied 1
    assert_eq!(a.gives[&1].0, a.gives[&5].0);
    let replied = |ran: &Ran, number: usize| ran.gives[&number].1;
    assert_eq!([replied(&a, 1), replied(&a, 5), replied(&b, 1), replied(&b, 5)], [0, 1, 1, 0]);
    for ran in [&a, &b] {
        let refused: Vec<usize> = ran.gives.iter().filter(|(_, (_, reply))| *reply > 1).map(|(n, _)| *n).collect();
        assert_eq!(refused, [3, 7]);
        assert!(refused.iter().all(|&number| replied(ran, number) == 6));
    }
}

#[test]
fn a_rescind_in_the_list_makes_the_order_matter() {
    let rescind = "s0 rescind s1 r o0\n";
    let behind = |file: &str| ran("rescind-behind", &(script(file) + rescind)).image;
    let before =
        |file: &str| ran("rescind-before", &script(file).replacen("s0 give", &format!("{rescind}s0 give"), 1)).image;
    assert_eq!(behind(BY_OBJECT), behind(BY_TASK));
    assert_eq!(before(BY_OBJECT), before(BY_TASK));
    assert_ne!(behind(BY_OBJECT), before(BY_OBJECT));
}
