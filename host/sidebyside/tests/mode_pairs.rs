//! The star check of each mode held on an object P beside each mode wanted on an object Q, with every relation of their labels:
//! gets, changes of level and images, and the table in docs/ARCHITECTURE.md.

use circmon::{Unit, SUBJECTS};
use reference::{reply, Kind, Level, Mode, Monitor, Object, Request, Star};
use sidebyside::level::label_dominates;
use sidebyside::pair::{observes, Met, Pair};
use sidebyside::{image, root, Both, Count};

const TOP: Level = level(15, 0xFFFF);

/// Low ones, and the corners with their neighbours: the lowest and the highest class, no need, the first, the last and all.
const LEVELS: [Level; 14] = [
    level(0, 0),
    level(1, 0),
    level(1, 1),
    level(1, 2),
    level(1, 3),
    level(2, 1),
    level(3, 2),
    level(0, 0xFFFF),
    level(14, 0xFFFF),
    level(15, 0),
    level(15, 1),
    level(15, 0x8000),
    level(15, 0x7FFF),
    TOP,
];

const fn level(class: u8, needs: u16) -> Level {
    Level { class, needs }
}

/// The slots of P and Q: a check over all objects comes to P first, then to Q first.
const SLOTS: [[usize; 2]; 2] = [[0, 63], [63, 0]];
/// The owner of P and Q.
const OWNER: usize = 7;

/// Every pair of modes with every two labels and both choices of slots.
fn cases() -> impl Iterator<Item = (Pair, [usize; 2], [Level; 2])> {
    let labels = LEVELS.into_iter().flat_map(|p| LEVELS.map(|q| [p, q]));
    let places = labels.flat_map(|labels| SLOTS.map(|slots| (slots, labels)));
    places.flat_map(|(slots, labels)| Pair::all().map(move |pair| (pair, slots, labels)))
}

/// Everyone is enrolled at the top and has all rights to P and Q, which have these labels.
fn labelled(slots: [usize; 2], labels: [Level; 2]) -> Monitor {
    let mut monitor = Monitor::begin([Some(TOP); SUBJECTS]);
    monitor.star = Star::Tabled;
    for (slot, label) in slots.into_iter().zip(labels) {
        let object = Object { label: Some(label), rights: [0b1111; SUBJECTS], ..Object::new(OWNER) };
        monitor.objects[slot] = Some(object);
    }
    monitor
}

fn get(actor: usize, object: usize, mode: Mode) -> [u8; 6] {
    Request { actor, object, kind: Kind::Get(mode) }.encode()
}

/// The reply to a subject who holds the one mode on P and asks for the other on Q.
fn asked(pair: Pair, slots: [usize; 2], labels: [Level; 2]) -> u8 {
    // each pair by another subject
    let actor = usize::from(pair.number());
    let mut both = Both::new(labelled(slots, labels));
    assert_eq!(both.request(&get(actor, slots[0], pair.held)), reply::CHANGED, "nothing else is held");
    both.request(&get(actor, slots[1], pair.wanted))
}

/// 0 or 9.
fn answer(kept: bool) -> u8 {
    if kept {
        reply::CHANGED
    } else {
        reply::STAR
    }
}

#[test]
fn a_get_in_every_pair_of_modes_with_every_relation_of_the_labels() {
    let (mut met, mut relations) = (Met::default(), Count::default());
    for (pair, slots, labels) in cases() {
        let [p, q] = labels.map(Some);
        let kept = pair.is_kept(p, q);
        assert_eq!(asked(pair, slots, labels), answer(kept), "{pair:?}, {slots:?}, {labels:?}");
        met.note(pair, kept);
        relations.note(2 * u8::from(label_dominates(p, q)) + u8::from(label_dominates(q, p)));
    }
    met.check_kept(Pair::all(), 20);
    met.check_not_kept(200);
    // apart, below, above and equal
    assert!((0..4).all(|relation| relations.of(relation) > 400), "{relations:?}");
}

/// The cells of a line of a table.
fn cells(line: &str) -> Vec<String> {
    line.split('|').map(|cell| cell.trim().to_string()).collect()
}

/// The rows of the table in the document.
fn printed_rows() -> Vec<Vec<String>> {
    const HEAD: &str = "| held | r wanted | w wanted | a wanted | e wanted |";
    let text = std::fs::read_to_string(root().join("docs/ARCHITECTURE.md")).expect("docs/ARCHITECTURE.md can be read");
    let head = text.lines().position(|line| cells(line) == cells(HEAD));
    let head = head.unwrap_or_else(|| panic!("docs/ARCHITECTURE.md has no table with the head {HEAD}"));
    // the rows begin behind the line under the head
    text.lines().skip(head + 2).take_while(|line| line.starts_with('|')).map(cells).collect()
}

/// The entry of the table, from the replies alone.
fn entry(held: Mode, wanted: Mode) -> &'static str {
    let (low, high) = (level(2, 1), level(3, 3));
    let is_refused = |p: Level, q: Level| asked(Pair { held, wanted }, SLOTS[0], [p, q]) == reply::STAR;
    match (is_refused(high, low), is_refused(low, high)) {
        (false, false) => "neither",
        (true, false) => "wanted",
        (false, true) => "held",
        (true, true) => "both",
    }
}

#[test]
fn the_table_of_the_document_is_what_the_replies_say() {
    let row = |(held, letter)| cells(&format!("|{letter}|{}|", Mode::ALL.map(|wanted| entry(held, wanted)).join("|")));
    let replied: Vec<Vec<String>> = Mode::ALL.into_iter().zip(["r", "w", "a", "e"]).map(row).collect();
    assert_eq!(printed_rows(), replied, "the document on the left, the replies on the right");
}

#[test]
fn two_modes_on_one_object_are_granted_in_every_pair() {
    for (pair, slots, labels) in cases() {
        let mut both = Both::new(labelled(slots, labels));
        assert_eq!(both.request(&get(2, slots[0], pair.held)), reply::CHANGED, "{pair:?}, {labels:?}");
        let expected = if pair.held == pair.wanted { reply::ALREADY } else { reply::CHANGED };
        assert_eq!(both.request(&get(2, slots[0], pair.wanted)), expected, "{pair:?}, {labels:?}");
        assert_eq!(circmon::read(&both.unit.image()), 0, "{pair:?}, {labels:?}: the image");
    }
}

#[test]
fn a_mode_held_by_one_subject_and_one_wanted_by_another_are_granted_in_every_pair() {
    for (pair, slots, labels) in cases() {
        let mut both = Both::new(labelled(slots, labels));
        assert_eq!(both.request(&get(2, slots[0], pair.held)), reply::CHANGED, "{pair:?}, {labels:?}");
        assert_eq!(both.request(&get(3, slots[1], pair.wanted)), reply::CHANGED, "{pair:?}, {labels:?}");
    }
}

/// A label, and two above it that are apart.
const RAISES: [[Level; 3]; 4] = [
    [level(0, 0), level(15, 0), level(0, 0xFFFF)],
    [level(1, 1), level(2, 1), level(1, 3)],
    [level(1, 1), level(2, 3), level(1, 5)],
    [level(14, 0x7FFF), level(15, 0x7FFF), level(14, 0xFFFF)],
];

/// The holder gets both modes while the labels are equal; then the owner raises P (0) and Q (1) in the order of the list. Where
/// a new label is refused, the old one stays for the next change.
fn raised(pair: Pair, slots: [usize; 2], holder: usize, equal: Level, raises: [(usize, Level); 2], met: &mut Met) {
    let mut labels = [equal; 2];
    let mut both = Both::new(labelled(slots, labels));
    for (slot, mode) in slots.into_iter().zip([pair.held, pair.wanted]) {
        assert_eq!(both.request(&get(holder, slot, mode)), reply::CHANGED, "{pair:?}, the labels are equal");
    }
    for (which, level) in raises {
        let mut after = labels;
        after[which] = level;
        let kept = pair.is_kept(Some(after[0]), Some(after[1]));
        let request = Request { actor: OWNER, object: slots[which], kind: Kind::ChangeLevel(level) };
        let reply = both.request(&request.encode());
        assert_eq!(reply, answer(kept), "{pair:?}, {slots:?}, s{holder} holds, {labels:?} to {after:?}");
        met.note(pair, kept);
        if kept {
            labels = after;
        }
    }
}

#[test]
fn a_change_of_level_in_every_pair_of_modes_held() {
    let mut met = Met::default();
    for (pair, [equal, one, other]) in Pair::all().flat_map(|pair| RAISES.map(|levels| (pair, levels))) {
        for (slots, holder) in SLOTS.into_iter().flat_map(|slots| [OWNER, 2, 15].map(|holder| (slots, holder))) {
            // apart in the end, then equal in the end, P first and Q first
            for raises in [[(0, one), (1, other)], [(1, other), (0, one)], [(0, one), (1, one)], [(1, one), (0, one)]] {
                raised(pair, slots, holder, equal, raises, &mut met);
            }
        }
    }
    // where one subject writes both, neither label can be raised: they would no longer be equal
    let writes_both = Pair { held: Mode::Write, wanted: Mode::Write };
    met.check_kept(Pair::all().filter(|pair| *pair != writes_both), 100);
    assert_eq!(met.kept.of(writes_both.number()), 0, "{met:?}");
    met.check_not_kept(60);
}

/// The number that an image gets in which a subject with this clearance holds these modes on these labels.
fn expected(clearance: Level, pair: Pair, labels: [Level; 2]) -> u8 {
    let [p, q] = labels.map(Some);
    let is_cleared = |mode: Mode, label| !observes(mode) || label_dominates(Some(clearance), label);
    if is_cleared(pair.held, p) && is_cleared(pair.wanted, q) {
        answer(pair.is_kept(p, q))
    } else {
        reply::SIMPLE
    }
}

#[test]
fn an_image_in_every_pair_of_modes_held() {
    let (mut met, mut numbers) = (Met::default(), Count::default());
    for ((pair, slots, labels), clearance) in cases().flat_map(|case| [TOP, level(1, 3)].map(|it| (case, it))) {
        let mut monitor = labelled(slots, labels);
        monitor.subjects[11] = Some(clearance);
        for (slot, mode) in slots.into_iter().zip([pair.held, pair.wanted]) {
            monitor.objects[slot].as_mut().unwrap().held[11] = mode.bit();
        }
        let bytes = image(&monitor);
        let number = expected(clearance, pair, labels);
        let place = format!("{clearance:?}, {pair:?}, {slots:?}, {labels:?}");
        assert_eq!(Unit::from_image(&bytes).err().unwrap_or(0), number, "{place}");
        assert_eq!((circmon::read(&bytes), monitor.fault().unwrap_or(0)), (number, number), "{place}");
        numbers.note(number);
        if number != reply::SIMPLE {
            met.note(pair, number == 0);
        }
    }
    met.check_kept(Pair::all(), 30);
    met.check_not_kept(200);
    assert!(numbers.of(reply::SIMPLE) > 3000, "{numbers:?}");
}
