//! `orders` on random lists of gets: what is printed, beside what the second implementation finds.

mod shared;

use circmon::Profile;
use circtool::compare::Named;
use circtool::difference::differences;
use circtool::input::Input;
use circtool::orders::{orders, Gets, Orders};
use circtool::paint::Paint;
use circtool::view::View;
use load::Random;
use reference::{Get, Level, Monitor, Object, Request, StartOrder};
use shared::lines::request_line;
use sidebyside::orders::beginning_with;
use sidebyside::start_order::bytes;
use sidebyside::{image, SHAPES};

/// What is printed of gets on a state of the second implementation, whose answer it is.
fn printed(monitor: &Monitor, gets: &[Get], paint: Paint) -> (StartOrder, String) {
    let script: String = gets.iter().map(|get| request_line(&Request::decode(&get.encode()).unwrap()) + "\n").collect();
    let input = Input { name: "gets".to_string(), bytes: script.into_bytes() };
    let named = Named { name: "state", bytes: &image(monitor) };
    let answer = monitor.start_order(&bytes(gets));
    match (orders(Profile::WIDEST, &named, &Gets::new(&input, false).unwrap(), paint), answer) {
        (Orders::Agree(text), StartOrder::Agree) | (Orders::Matter(text), StartOrder::Clash { .. }) => (answer, text),
        (Orders::Agree(text) | Orders::Matter(text) | Orders::Trouble(text), _) => panic!("{answer:?}: {text}"),
    }
}

/// That the text names the two lines, and the replies and the difference that the second implementation finds.
fn check_text(monitor: &Monitor, gets: &[Get], two: [usize; 2], text: &str) {
    let [first, second] = two;
    let begins = [[first, second], [second, first]];
    let states = begins.map(|[a, b]| monitor.after_order(gets, &beginning_with(a, b, gets.len())));
    let [a, b] = states.each_ref().map(|state| View::new(&image(state)));
    for place in differences(&a, &b) {
        assert!(text.contains(&format!("\n  {place}\n")), "{place}: {text}");
    }
    for (letter, [one, other]) in ["A", "B"].into_iter().zip(begins) {
        assert!(text.contains(&format!("\n{letter}: line {}, line {}", one + 1, other + 1)), "{text}");
    }
    assert_eq!(text.matches("  0 granted, the state changed\n").count(), 2, "{text}");
    assert_eq!(text.matches("  9 refused: the star property would break\n").count(), 2, "{text}");
    assert!(text.contains(" would have to dominate that of o") && !text.contains("please report"), "{text}");
}

/// Five objects with random labels or none, to which two subjects with the highest clearance have all rights; some accesses
/// are held.
fn state(random: &mut Random) -> Monitor {
    let shape = SHAPES[random.below(SHAPES.len())];
    let mut monitor = Monitor::empty();
    monitor.subjects[..2].fill(Some(Level { class: 15, needs: 0xFFFF }));
    for slot in 0..5 {
        let label = (!random.once_in(6)).then(|| load::level(random, shape));
        let mut object = Object { label, ..Object::new(1) };
        object.rights[..2].fill(0b1111);
        monitor.objects[slot] = Some(object);
    }
    for _ in 0..random.below(3) {
        monitor.request(&drawn(random).encode());
    }
    monitor
}

fn drawn(random: &mut Random) -> Get {
    Get { actor: random.below(2), object: random.below(6), mode: random.mode() }
}

#[test]
fn random_lists_are_told_as_the_second_implementation_finds_them() {
    let (mut agree, mut matter) = (0, 0);
    for seed in 0..3000 {
        let random = &mut Random::new(seed);
        let monitor = state(random);
        let gets: Vec<Get> = (0..2 + random.below(4)).map(|_| drawn(random)).collect();
        let (answer, text) = printed(&monitor, &gets, Paint::PLAIN);
        let (_, coloured) = printed(&monitor, &gets, Paint::COLOURED);
        assert_eq!(shared::without_colour(&coloured), text);
        match answer {
            StartOrder::Clash { first, second } => {
                check_text(&monitor, &gets, [first, second], &text);
                assert_ne!(coloured, text);
                matter += 1;
            }
            _ => {
                assert_eq!(coloured, text, "where the order does not matter, nothing is coloured");
                agree += 1;
            }
        }
    }
    assert!(agree > 1000 && matter > 500, "{agree} agree, {matter} do not");
}
