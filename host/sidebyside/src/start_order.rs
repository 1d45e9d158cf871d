//! Lists of gets in both implementations: the answer, orders carried out, and what was met.

use crate::orders::{self, equal_grants, equal_states, Met};
use crate::Both;
use circmon::{StartOrder, REQUEST_BYTES};
use reference::{Get, Mode, Monitor};

/// The six bytes of each get, one behind the other.
pub fn bytes(gets: &[Get]) -> Vec<u8> {
    gets.iter().flat_map(Get::encode).collect()
}

/// The answer of both implementations, which is the same. Every byte of the unit and of the requests is left.
pub fn answer(both: &Both, requests: &[u8]) -> StartOrder {
    let (unit, list) = (both.unit.clone(), requests.to_vec());
    let found = both.unit.clash(requests);
    let second = match both.monitor.start_order(requests) {
        reference::StartOrder::Agree => StartOrder::Agree,
        reference::StartOrder::Clash { first, second } => StartOrder::Clash { first, second },
        reference::StartOrder::NoGet { at } => StartOrder::NoGet { at },
        reference::StartOrder::TooMany => StartOrder::TooMany,
    };
    assert_eq!(found, second, "{requests:02x?}");
    assert!(both.unit.rows() == unit.rows() && requests == list, "{requests:02x?}: what is only read is changed");
    found
}

fn encoded(gets: &[Get]) -> Vec<[u8; REQUEST_BYTES]> {
    gets.iter().map(Get::encode).collect()
}

/// What is left where the gets come in this order of their places, in both implementations.
pub fn after_order(both: &Both, gets: &[Get], order: &[usize]) -> Both {
    orders::after_order(both, &encoded(gets), order).both
}

/// Whether all these orders leave equal states. Where they do, each get is granted in all of them or refused in all.
pub fn agree(both: &Both, gets: &[Get], orders: &[Vec<usize>]) -> bool {
    let after = orders::after_orders(both, &encoded(gets), orders);
    let equal = equal_states(&after);
    assert!(!equal || equal_grants(&after), "{gets:?}: granted in one of {orders:?} and refused in another");
    equal
}

/// What lists of gets of enrolled subjects on live objects meet, if there are enough of them.
pub const LISTS_MET: [&str; 27] = [
    "agree",
    "clash at 0 and 1",
    "clash at later places",
    "clash of r and w",
    "clash of r and a",
    "clash of w and r",
    "clash of w and w",
    "clash of w and a",
    "clash of a and r",
    "clash of a and w",
    "clash by star alone",
    "the same get twice",
    "the same get twice, agree",
    "the same get twice, clash at 0 and 1",
    "the same get twice, clash at later places",
    "granted alone: r",
    "granted alone: w",
    "granted alone: a",
    "granted alone: e",
    "already held: r",
    "already held: w",
    "already held: a",
    "already held: e",
    "refused alone with 6",
    "refused alone with 7",
    "refused alone with 8",
    "refused alone with 9",
];

/// What they meet beside this where objects have companies: the wall tells any two modes apart.
pub const WALL_LISTS_MET: [&str; 11] = [
    "clash of r and r",
    "clash of r and e",
    "clash of w and e",
    "clash of a and a",
    "clash of a and e",
    "clash of e and r",
    "clash of e and w",
    "clash of e and a",
    "clash of e and e",
    "clash by the wall alone",
    "refused alone with 18",
];

impl Met {
    /// The answer for a list of gets and what is in the list.
    pub fn note_list(&mut self, monitor: &Monitor, gets: &[Get], answer: StartOrder) {
        let word = match answer {
            StartOrder::Agree => "agree",
            StartOrder::Clash { first: 0, second: 1 } => "clash at 0 and 1",
            StartOrder::Clash { .. } => "clash at later places",
            StartOrder::NoGet { .. } | StartOrder::TooMany => panic!("{gets:?}: {answer:?}"),
        };
        self.note(word);
        if let StartOrder::Clash { first, second } = answer {
            self.note(format!("clash of {} and {}", letter(gets[first].mode), letter(gets[second].mode)));
            let (a, b) = (gets[first], gets[second]);
            self.note(match (monitor.break_star_together(a, b), monitor.break_wall_together(a, b)) {
                (true, false) => "clash by star alone",
                (false, true) => "clash by the wall alone",
                _ => "clash by star and wall",
            });
        }
        if gets.iter().enumerate().any(|(at, get)| gets[..at].contains(get)) {
            self.note("the same get twice");
            self.note(format!("the same get twice, {word}"));
        }
        for get in gets {
            match monitor.reply_alone(*get) {
                0 => self.note(format!("granted alone: {}", letter(get.mode))),
                1 => self.note(format!("already held: {}", letter(get.mode))),
                number => self.note(format!("refused alone with {number}")),
            }
        }
    }
}

fn letter(mode: Mode) -> char {
    ['r', 'w', 'a', 'e'][mode as usize]
}
