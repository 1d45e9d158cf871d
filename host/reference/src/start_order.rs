//! When it matters in which order tasks take accesses after a power return: by two gets that would together break the star
//! property or the wall, and by carrying out every order.

use crate::mode::Mode;
use crate::monitor::Monitor;
use crate::record::SUBJECTS;
use crate::request::{Kind, Request, REQUEST_BYTES};
use crate::{reply, star, wall};

/// As many gets as are looked at in one list.
pub const MOST_GETS: usize = 4096;

/// What is found of a list of gets; places count from 0.
#[derive(Clone, Copy, Debug, PartialEq, Eq)]
pub enum StartOrder {
    /// no two gets are as below
    Agree,
    /// the first two gets, each granted if it came alone, that would together break star or wall
    Clash {
        first: usize,
        second: usize,
    },
    /// the first piece that is no get
    NoGet {
        at: usize,
    },
    TooMany,
}

/// An access that a get asks for.
#[derive(Clone, Copy, Debug, PartialEq, Eq)]
pub struct Get {
    pub actor: usize,
    pub object: usize,
    pub mode: Mode,
}

impl Get {
    /// What six bytes say; nothing where they are no well-formed get.
    pub fn decode(bytes: &[u8]) -> Option<Get> {
        let Request { actor, object, kind } = Request::decode(bytes)?;
        match kind {
            Kind::Get(mode) => Some(Get { actor, object, mode }),
            _ => None,
        }
    }

    pub fn encode(&self) -> [u8; REQUEST_BYTES] {
        self.request().encode()
    }

    fn request(&self) -> Request {
        Request { actor: self.actor, object: self.object, kind: Kind::Get(self.mode) }
    }
}

impl Monitor {
    /// The reply to the get if it came alone.
    pub fn reply_alone(&self, get: Get) -> u8 {
        self.clone().step(get.request())
    }

    pub fn grants_alone(&self, get: Get) -> bool {
        matches!(self.reply_alone(get), reply::CHANGED | reply::ALREADY)
    }

    /// The state with the two accesses beside those that are held.
    fn with_both(&self, a: Get, b: Get) -> Monitor {
        let mut state = self.clone();
        for Get { actor, object, mode } in [a, b] {
            if let Some(it) = &mut state.objects[object] {
                it.held[actor] |= mode.bit();
            }
        }
        state
    }

    /// Whether the two accesses, put beside those that are held, break the star property: of any subject.
    pub fn break_star_together(&self, a: Get, b: Get) -> bool {
        let state = self.with_both(a, b);
        !(0..SUBJECTS).all(|s| star::kept(state.star, &state.objects, s))
    }

    /// Whether they break the wall: of any subject.
    pub fn break_wall_together(&self, a: Get, b: Get) -> bool {
        let state = self.with_both(a, b);
        !(0..SUBJECTS).all(|s| wall::kept(state.star, &state.objects, s))
    }

    /// "would together break star or wall"
    pub fn clash(&self, a: Get, b: Get) -> bool {
        self.break_star_together(a, b) || self.break_wall_together(a, b)
    }

    /// The answer for a list: pieces of six bytes, a short last one counted.
    pub fn start_order(&self, requests: &[u8]) -> StartOrder {
        let pieces: Vec<&[u8]> = requests.chunks(REQUEST_BYTES).collect();
        if pieces.len() > MOST_GETS {
            return StartOrder::TooMany;
        }
        let mut gets = Vec::new();
        for (at, piece) in pieces.into_iter().enumerate() {
            match Get::decode(piece).filter(|get| self.profile.has_request(&get.request())) {
                Some(get) => gets.push(get),
                None => return StartOrder::NoGet { at },
            }
        }
        match self.first_clash(&gets) {
            Some((first, second)) => StartOrder::Clash { first, second },
            None => StartOrder::Agree,
        }
    }

    fn first_clash(&self, gets: &[Get]) -> Option<(usize, usize)> {
        let alone: Vec<bool> = gets.iter().map(|get| self.grants_alone(*get)).collect();
        for first in 0..gets.len() {
            for second in first + 1..gets.len() {
                if alone[first] && alone[second] && self.clash(gets[first], gets[second]) {
                    return Some((first, second));
                }
            }
        }
        None
    }

    /// The state that is left where the gets come in this order of their places.
    pub fn after_order(&self, gets: &[Get], order: &[usize]) -> Monitor {
        let mut state = self.clone();
        for &place in order {
            state.step(gets[place].request());
        }
        state
    }

    /// Whether all orders of the gets leave equal states: every one is carried out.
    pub fn all_orders_agree(&self, gets: &[Get]) -> bool {
        let states: Vec<Monitor> = orders(gets.len()).iter().map(|order| self.after_order(gets, order)).collect();
        states.iter().all(|state| *state == states[0])
    }
}

/// Every order of so many places: each place comes first once, with every order of the others behind it.
pub fn orders(count: usize) -> Vec<Vec<usize>> {
    fn behind(start: &[usize], left: &[usize], all: &mut Vec<Vec<usize>>) {
        if left.is_empty() {
            all.push(start.to_vec());
        }
        for &next in left {
            let others: Vec<usize> = left.iter().copied().filter(|&place| place != next).collect();
            behind(&[start, &[next]].concat(), &others, all);
        }
    }
    let mut all = Vec::new();
    behind(&[], &(0..count).collect::<Vec<usize>>(), &mut all);
    all
}

#[cfg(test)]
mod tests {
    use super::*;
    use crate::level::Level;
    use crate::record::Object;

    fn level(class: u8, needs: u16) -> Option<Level> {
        Some(Level { class, needs })
    }

    /// Subjects 0 and 1 have the highest clearance of the three labels and all rights: object 0 is a trace of class 2, object 1 a
    /// public log, object 2 has no label, and object 3 has the label of object 0. Subject 2 may do everything and is cleared for
    /// nothing.
    fn state() -> Monitor {
        let mut monitor = Monitor::empty();
        (monitor.subjects[0], monitor.subjects[1], monitor.subjects[2]) = (level(2, 1), level(2, 1), level(0, 0));
        for (slot, label) in [(0, level(2, 1)), (1, level(0, 0)), (2, None), (3, level(2, 1))] {
            let mut object = Object { label, ..Object::new(0) };
            object.rights[..3].fill(0b1111);
            monitor.objects[slot] = Some(object);
        }
        monitor
    }

    fn get(actor: usize, object: usize, mode: Mode) -> Get {
        Get { actor, object, mode }
    }

    /// The answer, which is that of carrying out every order.
    fn answer(monitor: &Monitor, gets: &[Get]) -> StartOrder {
        let bytes: Vec<u8> = gets.iter().flat_map(Get::encode).collect();
        let answer = monitor.start_order(&bytes);
        assert_eq!(answer == StartOrder::Agree, monitor.all_orders_agree(gets), "{gets:?}");
        answer
    }

    const READ: Get = Get { actor: 0, object: 0, mode: Mode::Read };
    const APPEND: Get = Get { actor: 0, object: 1, mode: Mode::Append };
    const AGREE: StartOrder = StartOrder::Agree;

    #[test]
    fn two_gets_that_would_together_break_the_star_property() {
        let monitor = state();
        assert!(monitor.grants_alone(READ) && monitor.grants_alone(APPEND));
        assert_eq!(answer(&monitor, &[READ, APPEND]), StartOrder::Clash { first: 0, second: 1 });
        assert_eq!(answer(&monitor, &[APPEND, READ]), StartOrder::Clash { first: 0, second: 1 });
        let between = get(0, 1, Mode::Read);
        assert_eq!(answer(&monitor, &[between, READ, between, APPEND]), StartOrder::Clash { first: 1, second: 3 });
        // w reads and writes: of two equal labels each dominates the other, of two different ones not
        let (w0, w1, w3) = (get(0, 0, Mode::Write), get(0, 1, Mode::Write), get(0, 3, Mode::Write));
        assert_eq!(answer(&monitor, &[w0, w1]), StartOrder::Clash { first: 0, second: 1 });
        assert_eq!(answer(&monitor, &[w0, w3, w0]), AGREE);
    }

    #[test]
    fn gets_of_two_subjects_the_same_get_twice_and_e() {
        let monitor = state();
        assert_eq!(answer(&monitor, &[]), AGREE);
        assert_eq!(answer(&monitor, &[READ]), AGREE);
        assert_eq!(answer(&monitor, &[READ, READ, READ]), AGREE);
        assert_eq!(answer(&monitor, &[READ, Get { actor: 1, ..APPEND }]), AGREE);
        assert_eq!(answer(&monitor, &[get(0, 0, Mode::Execute), get(0, 2, Mode::Execute), APPEND]), AGREE);
        // the first of the two places of the same get is named
        assert_eq!(answer(&monitor, &[READ, APPEND, APPEND]), StartOrder::Clash { first: 0, second: 1 });
        assert_eq!(answer(&monitor, &[APPEND, APPEND, READ]), StartOrder::Clash { first: 0, second: 2 });
    }

    #[test]
    fn a_get_that_is_refused_alone_is_refused_in_every_order() {
        let mut monitor = state();
        for (refused, number) in [
            (get(9, 0, Mode::Read), reply::NOT_ENROLLED),
            (get(0, 9, Mode::Append), reply::NOT_LIVE),
            (get(0, 2, Mode::Read), reply::NO_LABEL),
            (get(2, 0, Mode::Read), reply::SIMPLE),
        ] {
            assert_eq!(monitor.reply_alone(refused), number, "{refused:?}");
            assert_eq!(answer(&monitor, &[refused, APPEND, refused]), AGREE, "{refused:?}");
        }
        // what is held already refuses the other one alone
        monitor.step(READ.request());
        assert_eq!((monitor.reply_alone(READ), monitor.reply_alone(APPEND)), (reply::ALREADY, reply::STAR));
        assert_eq!(answer(&monitor, &[READ, APPEND]), AGREE);
    }

    #[test]
    fn two_gets_that_would_together_break_the_wall() {
        let mut monitor = state();
        let companies = [[1, 0, 0, 0], [0; 4], [2, 0, 0, 0], [0, 3, 0, 0]];
        for (slot, companies) in companies.into_iter().enumerate() {
            monitor.objects[slot].as_mut().unwrap().companies = companies;
        }
        let clash = StartOrder::Clash { first: 0, second: 1 };
        let (e0, e2) = (get(0, 0, Mode::Execute), get(0, 2, Mode::Execute));
        assert!(!monitor.break_star_together(e0, e2) && monitor.break_wall_together(e0, e2));
        assert_eq!((answer(&monitor, &[e0, e2]), answer(&monitor, &[e2, e0, e2])), (clash, clash));
        assert_eq!(answer(&monitor, &[e0, get(1, 2, Mode::Execute), get(0, 1, Mode::Execute)]), AGREE);
        // equal labels: star allows it, and the second rule of the wall does not
        let (read, write) = (get(0, 0, Mode::Read), get(0, 3, Mode::Append));
        assert!(!monitor.break_star_together(read, write));
        assert_eq!((answer(&monitor, &[read, write]), answer(&monitor, &[write, read])), (clash, clash));
        // held already, the one refuses the other alone
        monitor.step(e0.request());
        assert_eq!((monitor.reply_alone(e0), monitor.reply_alone(e2)), (reply::ALREADY, reply::WALL));
        assert_eq!(answer(&monitor, &[e0, e2, e0]), AGREE);
    }

    #[test]
    fn pieces_that_are_no_gets_and_how_many_are_looked_at() {
        let monitor = state();
        let clash = [READ.encode(), APPEND.encode()].concat();
        let release = Request { kind: Kind::Release(Mode::Read), ..READ.request() }.encode();
        assert_eq!(monitor.start_order(&[&clash[..], &release].concat()), StartOrder::NoGet { at: 2 });
        assert_eq!(monitor.start_order(&clash[..11]), StartOrder::NoGet { at: 1 });
        assert_eq!(monitor.start_order(&[0; 1]), StartOrder::NoGet { at: 0 });
        assert_eq!(monitor.start_order(&[0; 6 * MOST_GETS]), StartOrder::NoGet { at: 0 });
        assert_eq!(monitor.start_order(&[0; 6 * MOST_GETS + 1]), StartOrder::TooMany);
    }

    #[test]
    fn every_order_once() {
        assert_eq!(orders(0), [Vec::new()]);
        assert_eq!(orders(3), [[0, 1, 2], [0, 2, 1], [1, 0, 2], [1, 2, 0], [2, 0, 1], [2, 1, 0]]);
        let mut five = orders(5);
        five.sort_unstable();
        five.dedup();
        assert_eq!(five.len(), 120);
    }
}
