//! A test load from a seed: requests of which every field is drawn from a generator that everybody can repeat.

use crate::level::Level;
use crate::mode::Mode;
use crate::record::{OBJECTS, SUBJECTS};
use crate::reply;
use crate::request::{Kind, Request, REQUEST_BYTES};

/// The 32-bit xorshift of Marsaglia (2003). The state after a step is the value drawn.
#[derive(Clone, Debug)]
pub struct Xorshift(u32);

impl Xorshift {
    /// Nothing from the seed 0: every value would be 0.
    pub fn new(seed: u32) -> Option<Xorshift> {
        (seed != 0).then_some(Xorshift(seed))
    }

    pub fn draw(&mut self) -> u32 {
        self.0 ^= self.0 << 13;
        self.0 ^= self.0 >> 17;
        self.0 ^= self.0 << 5;
        self.0
    }

    /// The next request. All seven fields are drawn, also those that the kind does not use.
    pub fn request(&mut self) -> Request {
        let kind = 1 + self.draw() % 7;
        let actor = self.draw() as usize % SUBJECTS;
        let other = self.draw() as usize % SUBJECTS;
        let object = self.draw() as usize % OBJECTS;
        let mode = self.draw();
        let class = (self.draw() % 16) as u8;
        let needs = (self.draw() % 65536) as u16;
        let one = Mode::ALL[mode as usize % 4];
        let kind = match kind {
            1 => Kind::Get(one),
            2 => Kind::Release(one),
            3 => Kind::Give(other, one),
            4 => Kind::Rescind(other, one),
            // "The test load writes 0 there", where the parent stands
            5 => Kind::Create { execute: mode % 2 == 1, parent: None },
            6 => Kind::Delete,
            _ => Kind::ChangeLevel(Level { class, needs }),
        };
        Request { actor, object, kind }
    }
}

/// Writes as many whole requests as fit: 0 and their number, and the bytes after the last one left. Or 15 and no request
/// where the seed is 0, and every byte left.
pub fn write_load(seed: u32, buffer: &mut [u8]) -> (u8, usize) {
    let Some(mut generator) = Xorshift::new(seed) else {
        return (reply::SEED_0, 0);
    };
    let mut count = 0;
    for place in buffer.chunks_exact_mut(REQUEST_BYTES) {
        place.copy_from_slice(&generator.request().encode());
        count += 1;
    }
    (reply::CHANGED, count)
}

#[cfg(test)]
mod tests {
    use super::*;

    fn draws<const N: usize>(seed: u32) -> [u32; N] {
        let mut generator = Xorshift::new(seed).unwrap();
        std::array::from_fn(|_| generator.draw())
    }

    #[test]
    fn the_first_values() {
        assert_eq!(draws(1), [270_369]);
        // the seed that Marsaglia's own code starts from
        assert_eq!(draws(2_463_534_242), [723_471_715]);
    }

    #[test]
    fn the_first_request_of_seed_1_from_its_seven_draws() {
        let [kind, actor, _, object, mode, _, _] = draws(1);
        assert_eq!((kind % 7, actor % 16, object % 64, mode % 4), (1, 1, 15, 1));
        let request = Request { actor: 1, object: 15, kind: Kind::Release(Mode::Write) };
        assert_eq!(Xorshift::new(1).unwrap().request(), request);
        let mut buffer = [0xEE; 8];
        assert_eq!(write_load(1, &mut buffer), (0, 1));
        assert_eq!(buffer, [0x20, 0x80, 0x7A, 0, 0, 0, 0xEE, 0xEE]);
    }

    /// The mode of a kind that takes one of the four, and whether a create has e.
    fn mode_of(kind: Kind) -> Option<u32> {
        match kind {
            Kind::Get(mode) | Kind::Release(mode) | Kind::Give(_, mode) | Kind::Rescind(_, mode) => Some(mode.number()),
            Kind::Create { execute, parent } => {
                assert_eq!(parent, None);
                Some(4 * u32::from(execute))
            }
            Kind::Delete | Kind::ChangeLevel(_) | Kind::SetCompanies(_) => None,
        }
    }

    #[test]
    fn every_kind_with_every_mode_every_subject_and_every_object() {
        let mut generator = Xorshift::new(7).unwrap();
        let (mut kinds, mut met) = (Vec::new(), [Vec::new(), Vec::new(), Vec::new(), Vec::new(), Vec::new()]);
        for _ in 0..5000 {
            let request = generator.request();
            let bytes = request.encode();
            // in range, and 0 where the kind does not use it
            assert_eq!(Request::decode(&bytes), Some(request));
            kinds.push((bytes[0] >> 4, mode_of(request.kind)));
            met[0].push(request.actor);
            met[1].push(request.object);
            match request.kind {
                Kind::Give(other, _) | Kind::Rescind(other, _) => met[2].push(other),
                Kind::ChangeLevel(level) => {
                    met[3].push(level.class.into());
                    met[4].extend((0..16).filter(|need| level.needs >> need & 1 == 1));
                }
                _ => {}
            }
        }
        kinds.sort_unstable();
        kinds.dedup();
        // four modes of kinds 1 to 4, two of create, and none of delete and change level
        assert_eq!(kinds.len(), 4 * 4 + 2 + 1 + 1, "{kinds:?}");
        for (all, count) in met.iter_mut().zip([SUBJECTS, OBJECTS, SUBJECTS, 16, 16]) {
            all.sort_unstable();
            all.dedup();
            assert_eq!(*all, (0..count).collect::<Vec<usize>>());
        }
    }

    #[test]
    fn a_buffer_takes_as_many_whole_requests_as_fit() {
        let mut long = [0; 10 * REQUEST_BYTES];
        assert_eq!(write_load(9, &mut long), (reply::CHANGED, 10));
        for length in 0..=long.len() {
            let mut buffer = vec![0xEE; length];
            let count = length / 6;
            assert_eq!(write_load(9, &mut buffer), (reply::CHANGED, count), "{length} bytes");
            assert_eq!(buffer[..6 * count], long[..6 * count], "{length} bytes");
            assert!(buffer[6 * count..].iter().all(|&byte| byte == 0xEE), "{length} bytes");
            let mut left = vec![0xEE; length];
            assert_eq!(write_load(0, &mut left), (reply::SEED_0, 0), "{length} bytes");
            assert!(left.iter().all(|&byte| byte == 0xEE), "{length} bytes");
        }
    }
}
