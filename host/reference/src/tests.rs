//! The marked run, the table of two modes, an access page, comparisons, changes of level and the sizes, from the text of the
//! requirements. The edges are in `sidebyside`, for both implementations.

use crate::marked::{marked_run, table_w};
use crate::star::{entry, kept, Asked};
use crate::*;

const WAYS: [Star; 3] = [Star::Plain, Star::Listed, Star::Tabled];

#[test]
fn the_marked_run_in_each_way_of_the_star_check() {
    for star in WAYS {
        let mut monitor = Monitor::from_table(&table_w()).unwrap();
        monitor.star = star;
        for (row, (request, reply)) in marked_run().into_iter().enumerate() {
            assert_eq!(monitor.request(&request.encode()), reply, "{star:?}, row {}", row + 1);
        }
    }
}

/// "where one subject holds r or w on P and a or w on Q, the label of Q dominates the label of P", of a mode on P and one on Q
fn said_of(on_p: Mode, on_q: Mode) -> bool {
    let letter = |mode: Mode| ['r', 'w', 'a', 'e'][mode as usize];
    "rw".contains(letter(on_p)) && "aw".contains(letter(on_q))
}

/// Every two modes.
fn pairs() -> impl Iterator<Item = (Mode, Mode)> {
    Mode::ALL.into_iter().flat_map(|held| Mode::ALL.map(|wanted| (held, wanted)))
}

#[test]
fn each_entry_of_the_table_is_what_the_sentence_says_of_the_two_modes() {
    for (held, wanted) in pairs() {
        // what is held is P and what is wanted Q, then the other way round
        let expected = match (said_of(held, wanted), said_of(wanted, held)) {
            (false, false) => Asked::Neither,
            (true, false) => Asked::Wanted,
            (false, true) => Asked::Held,
            (true, true) => Asked::Both,
        };
        assert_eq!(entry(held, wanted), expected, "{held:?} held, {wanted:?} wanted");
    }
    assert_eq!(pairs().count(), 16);
}

/// Two objects with these labels, on which subject 3 holds these sets of modes.
fn held_by_3(labels: [Option<Level>; 2], sets: [u8; 2]) -> [Option<Object>; OBJECTS] {
    let mut objects = std::array::from_fn(|_| None);
    for (slot, label, set) in [(9, labels[0], sets[0]), (40, labels[1], sets[1])] {
        let mut object = Object { label, ..Object::new(3) };
        object.held[3] = set;
        objects[slot] = Some(object);
    }
    objects
}

#[test]
fn the_ways_of_the_star_check_answer_alike_on_every_two_sets_of_modes() {
    let level = |class, needs| Some(Level { class, needs });
    // none, one, and three above it that are apart from one another
    let labels = [None, level(1, 1), level(2, 1), level(1, 3), level(1, 5)];
    let mut kept_in = 0;
    for (p, q) in labels.iter().flat_map(|p| labels.map(|q| (*p, q))) {
        for (on_p, on_q) in (0..16).flat_map(|on_p| (0..16).map(move |on_q| (on_p, on_q))) {
            let objects = held_by_3([p, q], [on_p, on_q]);
            let answers = WAYS.map(|star| kept(star, &objects, 3));
            assert_eq!(answers, [answers[0]; 3], "{on_p:04b} on {p:?}, {on_q:04b} on {q:?}");
            kept_in += usize::from(answers[0]);
        }
    }
    assert!((2000..4000).contains(&kept_in), "both answers are met often: kept in {kept_in}");
}

#[test]
fn the_printed_bytes_of_steps_1_3_and_7() {
    let run = marked_run();
    assert_eq!(run[0].0.encode(), [0x50, 0x80, 0, 0, 0, 0]);
    assert_eq!(run[2].0.encode(), [0x70, 0x80, 0, 0, 0, 0]);
    assert_eq!(run[6].0.encode(), [0x70, 0x80, 0x08, 0x20, 0x00, 0x10]);
}

#[test]
fn requests_decode_to_what_was_encoded() {
    for (request, _) in marked_run() {
        assert_eq!(Request::decode(&request.encode()), Some(request));
    }
}

#[test]
fn the_program_prints_one_line_for_each_request() {
    let run = marked_run();
    let mut input = table_w().to_vec();
    for i in [0, 2, 3] {
        input.extend(run[i].0.encode());
    }
    assert_eq!(program(&input), "0\n0\n1\n");
    input.push(0);
    assert_eq!(program(&input), "0\n0\n1\n2\n");
    assert_eq!(program(&input[..41]), "10\n");
    assert_eq!(program(&[]), "10\n");
    // a bit in the absent record of subject 3
    input[10] = 1;
    assert_eq!(program(&input), "11\n");
}

/// Object 5 with rw of subject 1, who holds r, and all modes of subject 15, who holds w, a and e.
fn with_object_5() -> Monitor {
    let mut object = Object::new(1);
    (object.rights[1], object.held[1]) = (0b1100, 0b1000);
    (object.rights[15], object.held[15]) = (0b1111, 0b0111);
    let mut monitor = Monitor::empty();
    monitor.objects[5] = Some(object);
    monitor
}

#[test]
fn a_page_as_the_text_has_it() {
    let page = "\
00 ---- ---- 0
01 rw-- r--- 1
02 ---- ---- 0
03 ---- ---- 0
04 ---- ---- 0
05 ---- ---- 0
06 ---- ---- 0
07 ---- ---- 0
08 ---- ---- 0
09 ---- ---- 0
10 ---- ---- 0
11 ---- ---- 0
12 ---- ---- 0
13 ---- ---- 0
14 ---- ---- 0
15 rwae -wae 3
to 01 01 01 01 04
";
    let mut buffer = [0xEE; PAGE_BYTES + 2];
    assert_eq!(with_object_5().write_page(5, &mut buffer), reply::CHANGED);
    assert_eq!(buffer, [page.as_bytes(), &[0xEE; 2]].concat()[..]);
}

#[test]
fn the_last_line_of_a_page_where_everyone_holds_everything() {
    let mut monitor = with_object_5();
    monitor.objects[5].as_mut().unwrap().held = [0b1111; SUBJECTS];
    let mut page = [0; PAGE_BYTES];
    assert_eq!(monitor.write_page(5, &mut page), reply::CHANGED);
    assert!(page.ends_with(b"\n15 rwae rwae 4\nto 16 16 16 16 64\n"));
}

/// "A dominates B when A's class is at least B's and every need of B is in A", need by need.
fn at_least(a: Level, b: Level) -> bool {
    let has = |level: Level, need: u16| level.needs / (1 << need) % 2 == 1;
    a.class >= b.class && (0..16).all(|need| has(a, need) || !has(b, need))
}

#[test]
fn a_comparison_as_the_text_has_it() {
    let numbers = [(0, 0), (1, 0), (1, 1), (1, 2), (1, 3), (2, 1), (2, 0x8001), (15, 0xFFFF)];
    let levels = numbers.map(|(class, needs)| Level { class, needs });
    for (a, b) in levels.iter().flat_map(|a| levels.map(|b| (*a, b))) {
        let expected = match (at_least(a, b), at_least(b, a)) {
            (true, true) => Comparison::Equal,
            (true, false) => Comparison::Above,
            (false, true) => Comparison::Below,
            (false, false) => Comparison::Apart,
        };
        assert_eq!(a.compare(&b), expected, "{a:?} with {b:?}");
        assert_eq!(a.dominates(&b), at_least(a, b), "{a:?} over {b:?}");
        assert_eq!(expected == Comparison::Equal, a == b, "{a:?} with {b:?}");
    }
}

/// The reply of table W's monitor to a request about object 0 or 1.
fn asked(monitor: &mut Monitor, actor: usize, object: usize, kind: Kind) -> u8 {
    monitor.step(Request { actor, object, kind })
}

fn to(class: u8, needs: u16) -> Kind {
    Kind::ChangeLevel(Level { class, needs })
}

#[test]
fn a_new_label_that_does_not_dominate_the_old_is_refused_with_14() {
    let monitor = &mut Monitor::from_table(&table_w()).unwrap();
    assert_eq!(asked(monitor, 1, 0, Kind::Create { execute: false, parent: None }), 0);
    for (class, needs, reply) in [
        (3, 1, 0), // a first label is free
        (0, 0, 14),
        (3, 1, 1),
        (3, 0, 14),
        (3, 2, 14),
        (15, 2, 14), // apart: a need is gone, though the class is higher
        (2, 3, 14),  // apart: the class is lower, though there is one more need
        (3, 3, 0),
        (3, 1, 14), // not even back
        (15, 0xFFFF, 0),
    ] {
        assert_eq!(asked(monitor, 1, 0, to(class, needs)), reply, "class {class} needs {needs}");
    }
    assert_eq!(asked(monitor, 1, 0, Kind::Delete), 0);
    assert_eq!(asked(monitor, 1, 0, Kind::Create { execute: false, parent: None }), 0);
    assert_eq!(asked(monitor, 1, 0, to(0, 0)), 0, "a first label again");
}

#[test]
fn check_14_is_after_6_and_before_8() {
    let monitor = &mut Monitor::from_table(&table_w()).unwrap();
    assert_eq!(asked(monitor, 1, 0, to(0, 0)), reply::NOT_LIVE);
    for (object, level, mode) in [(0, to(1, 1), Mode::Read), (1, to(2, 1), Mode::Append)] {
        for kind in [Kind::Create { execute: false, parent: None }, level, Kind::Get(mode)] {
            assert_eq!(asked(monitor, 1, object, kind), 0, "{kind:?} of o{object}");
        }
    }
    assert_eq!(asked(monitor, 0, 0, to(0, 0)), reply::NO_RIGHT);
    // s1, who has (3, 0003), reads o0 and appends to o1
    assert_eq!(asked(monitor, 1, 0, to(0, 5)), reply::LOWERED, "simple would break too");
    assert_eq!(asked(monitor, 1, 0, to(1, 5)), reply::SIMPLE);
    assert_eq!(asked(monitor, 1, 1, to(0, 1)), reply::LOWERED, "star would break too");
    assert_eq!(asked(monitor, 1, 0, to(3, 1)), reply::STAR);
    assert_eq!(asked(monitor, 1, 0, to(2, 1)), reply::CHANGED);
}

#[test]
fn the_printed_sizes() {
    assert_eq!((TABLE_BYTES, IMAGE_BYTES, PAGE_BYTES), (42, 1458, 258));
}
