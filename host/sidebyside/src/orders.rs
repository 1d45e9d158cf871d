//! Orders of a list of byte strings, carried out by both implementations, and how often each thing was met.

use crate::{rows, Both};
use load::Random;
use reference::reply;
use std::collections::BTreeMap;
use std::fmt::Debug;

/// What is left where a list comes in some order, and the reply to the byte string at each place of the list.
pub struct After {
    pub both: Both,
    pub replies: Vec<u8>,
}

/// The byte strings of a list in this order of their places, by both implementations: each reply is the same, and so is all of
/// the state in the end.
pub fn after_order<B: AsRef<[u8]> + Debug>(both: &Both, list: &[B], order: &[usize]) -> After {
    let mut both = both.clone();
    // no request is replied this number
    let mut replies = vec![u8::MAX; list.len()];
    for &place in order {
        let bytes = list[place].as_ref();
        replies[place] = both.monitor.request(bytes);
        assert_eq!(both.unit.ask(bytes), replies[place], "{list:02x?} in the order {order:?}, place {place}");
    }
    assert!(both.unit == rows::unit(&both.monitor), "{list:02x?} in the order {order:?}");
    After { both, replies }
}

/// The same for each of the orders.
pub fn after_orders<B: AsRef<[u8]> + Debug>(both: &Both, list: &[B], orders: &[Vec<usize>]) -> Vec<After> {
    orders.iter().map(|order| after_order(both, list, order)).collect()
}

/// Whether equal states are left: both implementations say the same of it.
pub fn equal_states(after: &[After]) -> bool {
    let proved = after.iter().all(|it| it.both.unit == after[0].both.unit);
    assert_eq!(after.iter().all(|it| it.both.monitor == after[0].both.monitor), proved);
    proved
}

/// Granted: the state changed, or it was so already. Which of the two is replied may differ between orders.
pub fn is_granted(reply: u8) -> bool {
    matches!(reply, reply::CHANGED | reply::ALREADY)
}

pub fn same_grants(some: &[u8], others: &[u8]) -> bool {
    some.len() == others.len() && some.iter().zip(others).all(|(&a, &b)| is_granted(a) == is_granted(b))
}

/// Whether the byte string at each place of the list is granted in all of them or refused in all.
pub fn equal_grants(after: &[After]) -> bool {
    after.iter().all(|it| same_grants(&it.replies, &after[0].replies))
}

/// A random order of so many places.
pub fn shuffled(random: &mut Random, count: usize) -> Vec<usize> {
    let mut order: Vec<usize> = (0..count).collect();
    for last in (1..count).rev() {
        order.swap(last, random.below(last + 1));
    }
    order
}

/// The order that begins with these two places, with the others behind them as they stand.
pub fn beginning_with(first: usize, second: usize, count: usize) -> Vec<usize> {
    let others = (0..count).filter(|place| ![first, second].contains(place));
    [first, second].into_iter().chain(others).collect()
}

/// How often each thing was met, by its name.
#[derive(Default, Debug)]
pub struct Met(BTreeMap<String, usize>);

impl Met {
    pub fn note(&mut self, what: impl Into<String>) {
        *self.0.entry(what.into()).or_default() += 1;
    }

    pub fn of(&self, what: &str) -> usize {
        self.0.get(what).copied().unwrap_or(0)
    }

    /// Each of these was met more often than this.
    pub fn check(&self, often: usize, what: &[&str]) {
        for what in what {
            assert!(self.of(what) > often, "{what}: {} times; {self:#?}", self.of(what));
        }
    }
}
