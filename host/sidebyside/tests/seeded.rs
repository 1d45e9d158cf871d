//! Test loads from a seed: the library beside the second implementation, on buffers of many lengths and byte by byte; each field
//! beside the draw that the requirements name, drawn here once more; and both monitors on such loads.

use circmon::{Counted, Unit};
use load::Random;
use reference::{reply, write_load, Level, Monitor, Request, Xorshift};
use sidebyside::{fields, image, Count, SHAPES};
use std::collections::BTreeSet;

/// Bytes before and behind a buffer, which no call may write.
const AROUND: usize = 16;

/// So many different seeds: small ones, powers of two and their neighbours, the highest, and random ones.
fn seeds(count: usize) -> BTreeSet<u32> {
    let powers = (0..32).flat_map(|k| [(1u32 << k) - 1, 1 << k, (1 << k) + 1]);
    let mut seeds: BTreeSet<u32> = (1..=300).chain(powers).chain([u32::MAX - 1, u32::MAX]).collect();
    seeds.remove(&0);
    let random = &mut Random::new(11);
    while seeds.len() < count {
        seeds.insert(1 + random.below(u32::MAX as usize) as u32);
    }
    seeds
}

/// A load into a buffer of this length, with random bytes in it and around it: number, count and every byte are those of the
/// second implementation.
fn compare(random: &mut Random, seed: u32, length: usize) -> Counted {
    let what = format!("seed {seed}, {length} bytes");
    let start = AROUND + random.below(8);
    let before = random.bytes(start + length + AROUND);
    let (mut proved, mut second) = (before.clone(), before.clone());
    let loaded = circmon::load(seed, &mut proved[start..][..length]);
    let (number, count) = write_load(seed, &mut second[start..][..length]);
    assert_eq!(loaded, Counted { number, count: count as u64 }, "{what}");
    assert_eq!(proved, second, "{what}");
    let end = start + 6 * count;
    assert!(proved[..start] == before[..start] && proved[end..] == before[end..], "{what}: bytes that are left");
    loaded
}

#[test]
fn ten_thousand_seeds_and_buffers_of_every_length_to_20() {
    let random = &mut Random::new(12);
    let seeds = seeds(10_000);
    for length in 0..=20 {
        for &seed in &seeds {
            let fitting = Counted { number: 0, count: length as u64 / 6 };
            assert_eq!(compare(random, seed, length), fitting, "seed {seed}, {length} bytes");
        }
    }
    assert_eq!(seeds.len(), 10_000);
}

#[test]
fn longer_buffers() {
    let random = &mut Random::new(13);
    let lengths = (0..=300).chain((0..12).map(|more| 300_000 + more));
    for length in lengths {
        for seed in [1, 2_463_534_242, u32::MAX] {
            let fitting = Counted { number: 0, count: length as u64 / 6 };
            assert_eq!(compare(random, seed, length), fitting, "seed {seed}, {length} bytes");
        }
    }
}

#[test]
fn the_seed_0_is_refused_before_any_byte_is_written() {
    let random = &mut Random::new(14);
    for length in (0..=300).chain([300_000]) {
        let before = random.bytes(length);
        let mut buffer = before.clone();
        let refused = Counted { number: reply::SEED_0, count: 0 };
        assert_eq!(circmon::load(0, &mut buffer), refused, "{length} bytes");
        assert_eq!(buffer, before, "{length} bytes");
        assert_eq!(compare(random, 0, length), refused, "{length} bytes");
    }
}

/// "shift left 13, right 17, left 5, each combined by exclusive or, high bits dropped": here in numbers of 64 bits.
fn after(state: u64) -> u64 {
    let low = |number: u64| number % (1 << 32);
    let state = low(state ^ (state << 13));
    let state = low(state ^ (state >> 17));
    low(state ^ (state << 5))
}

/// Kind, actor, other, object, mode, class and needs from the seven draws.
fn said(draws: [u64; 7]) -> [u64; 7] {
    let [kind, actor, other, object, mode, class, needs] = draws;
    let kind = 1 + kind % 7;
    let mode = match kind {
        1..=4 => 1 + mode % 4,
        5 => 4 * (mode % 2),
        _ => 0,
    };
    let used = |it: bool, number: u64| if it { number } else { 0 };
    let other = used([3, 4].contains(&kind), other % 16);
    [kind, actor % 16, other, object % 64, mode, used(kind == 7, class % 16), used(kind == 7, needs % 65536)]
}

#[test]
fn each_field_is_the_draw_that_the_text_names() {
    let mut met = [(); 7].map(|()| Count::default());
    let mut pairs = BTreeSet::new();
    for seed in seeds(1000) {
        let mut requests = [0; 6 * 60];
        assert_eq!(circmon::load(seed, &mut requests), Counted { number: 0, count: 60 });
        let mut state = u64::from(seed);
        for (at, bytes) in requests.chunks(6).enumerate() {
            let draws = std::array::from_fn(|_| {
                state = after(state);
                state
            });
            let request = Request::decode(bytes).unwrap_or_else(|| panic!("seed {seed}, request {at}: malformed"));
            let found = fields(&request);
            assert_eq!(found, said(draws), "seed {seed}, request {at}");
            met.iter_mut().zip(found).for_each(|(count, number)| count.note(number as u8));
            pairs.insert((found[0], found[4]));
        }
    }
    // kinds, actors, others, objects, modes, classes, and the low bytes of needs
    for (count, numbers) in met.iter().zip([7, 16, 16, 64, 5, 16, 256]) {
        assert_eq!(count.numbers(), numbers, "{count:?}");
    }
    assert!((1..=7).all(|kind| met[0].of(kind) > 8000), "{:?}", met[0]);
    assert_eq!(pairs.len(), 4 * 4 + 2 + 1 + 1, "kinds with their modes: {pairs:?}");
}

#[test]
fn different_seeds_give_different_loads_and_the_same_seed_the_same() {
    let first = |seed| {
        let mut requests = [0; 60];
        assert_eq!(circmon::load(seed, &mut requests), Counted { number: 0, count: 10 });
        requests
    };
    let loads: BTreeSet<[u8; 60]> = seeds(1000).into_iter().map(first).collect();
    assert_eq!(loads.len(), 1000);
    for seed in seeds(1000) {
        assert_eq!(first(seed), first(seed), "seed {seed}");
    }
}

#[test]
fn the_second_implementation_never_draws_0_either() {
    for seed in [1, 2_463_534_242, u32::MAX] {
        let mut generator = Xorshift::new(seed).unwrap();
        assert!((0..1_000_000).all(|_| generator.draw() != 0), "seed {seed}");
    }
}

/// Everyone enrolled; every fourth subject absent and the others with the highest clearance; and random ones.
fn tables() -> [[u8; 42]; 3] {
    let top = Level { class: 15, needs: u16::MAX };
    let some = Monitor::begin(std::array::from_fn(|subject| (subject % 4 != 3).then_some(top)));
    [load::everyone(), some.table(), load::table(&mut Random::new(15), SHAPES[4])]
}

/// The replies of both monitors to a load, which are the same, as are their images now and then.
fn compare_run(seed: u32, table: &[u8; 42], count: usize, replies: &mut Count) {
    let mut requests = vec![0; 6 * count];
    assert_eq!(circmon::load(seed, &mut requests), Counted { number: 0, count: count as u64 });
    let (mut monitor, mut unit) = (Monitor::from_table(table).unwrap(), Unit::from_table(table).unwrap());
    for (at, request) in requests.chunks(6).enumerate() {
        let reply = monitor.request(request);
        assert_eq!(unit.ask(request), reply, "seed {seed}, request {at}: {request:02x?}");
        replies.note(reply);
        if at % 5000 == 0 || at + 1 == count {
            assert_eq!(unit.image()[..], image(&monitor)[..], "seed {seed}: images after request {at}");
        }
    }
    let mut replayed = vec![0xEE; count];
    assert_eq!(circmon::replay(table, &requests, &mut replayed), 0);
    let mut unit = Unit::from_table(table).unwrap();
    assert!(requests.chunks(6).zip(replayed).all(|(request, reply)| unit.ask(request) == reply), "seed {seed}: replay");
}

/// For each table the replies that its loads get, and how often each of them at least: eight to nine tenths of what was counted.
const LEAST: [&[(u8, usize)]; 3] = [
    &[(0, 11_000), (1, 50_000), (4, 19_000), (5, 48_000), (6, 220_000), (7, 1200), (8, 450), (9, 290), (14, 1300)],
    &[(0, 10_000), (1, 37_000), (3, 100_000), (4, 17_000), (5, 35_000), (6, 140_000), (7, 1200), (9, 590), (14, 1300)],
    &[
        (0, 10_000),
        (1, 30_000),
        (3, 150_000),
        (4, 16_000),
        (5, 28_000),
        (6, 110_000),
        (7, 1200),
        (8, 800),
        (9, 25),
        (14, 1300),
    ],
];

#[test]
fn a_million_requests_of_both_monitors() {
    let mut all = 0;
    for (table, least) in tables().iter().zip(LEAST) {
        let mut replies = Count::default();
        for seed in [1, 7, 0x8000_0000, u32::MAX] {
            compare_run(seed, table, 100_000, &mut replies);
        }
        all += replies.all();
        // these and no others: so no request is malformed
        assert_eq!(replies.numbers(), least.len(), "{replies:?}");
        for &(reply, times) in least {
            assert!(replies.of(reply) >= times, "reply {reply}: {replies:?}");
        }
    }
    assert!(all >= 1_000_000, "{all}");
}
