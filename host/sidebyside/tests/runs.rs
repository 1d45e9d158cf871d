//! Runs from seeds: every reply, and the image along the way.

use circmon::Unit;
use load::{Random, Shape};
use reference::{Monitor, Star};
use sidebyside::{compare_run, image, shape, Replies, REPLIES, RUNS, RUN_REQUESTS};

#[test]
fn a_million_requests_draw_the_same_replies_and_images() {
    let mut replies = Replies::default();
    for seed in 0..RUNS {
        compare_run(seed, shape(seed), RUN_REQUESTS, 40, &mut replies);
    }
    let Replies { all, levels } = replies;
    assert!(all.all() >= 1_000_000);
    // the loads reach every reply that a request can get
    for reply in REPLIES {
        assert!(all.of(reply) > 1000, "reply {reply}: {all:?}");
    }
    // they do not come to rest at the top labels: over all shapes each of these is more than one percent of the replies to changes
    // of level; where there are many classes and needs, 8 and 9 are rarer
    for reply in [0, 1, 8, 9, 14] {
        assert!(100 * levels.of(reply) > levels.all(), "reply {reply} to a change of level: {levels:?}");
    }
}

#[test]
fn replay_gives_the_replies_of_the_requests_one_by_one() {
    for seed in 1000..1200 {
        let random = &mut Random::new(seed);
        let shape = shape(seed);
        let table = load::table(random, shape);
        let mut monitor = Monitor::from_table(&table).unwrap();
        monitor.star = Star::Listed;
        let mut requests = Vec::new();
        let mut expected = Vec::new();
        for _ in 0..random.below(3000) {
            let request = load::request(random, shape, &monitor).encode();
            expected.push(monitor.request(&request));
            requests.extend(request);
        }
        // a short last piece is counted, and replies to 2
        let short = random.below(6);
        if short > 0 {
            requests.extend(random.bytes(short));
            expected.push(2);
        }
        let spare = random.below(3);
        let mut replies = vec![0xEE; expected.len() + spare];
        assert_eq!(circmon::replay(&table, &requests, &mut replies), 0, "seed {seed}");
        assert_eq!(replies[..expected.len()], expected[..], "seed {seed}");
        assert_eq!(replies[expected.len()..], vec![0xEE; spare][..], "seed {seed}: later bytes are left");
        if !expected.is_empty() {
            let mut few = vec![0xEE; expected.len() - 1];
            assert_eq!(circmon::replay(&table, &requests, &mut few), 13, "seed {seed}");
            assert!(few.iter().all(|&b| b == 0xEE), "seed {seed}: a refusal leaves every byte");
        }
        let mut left = vec![0xEE; expected.len()];
        assert_eq!(circmon::replay(&table[..41], &requests, &mut left), 10);
        assert!(left.iter().all(|&b| b == 0xEE));
    }
}

#[test]
fn a_deleted_object_leaves_nothing_for_the_next_in_its_slot() {
    let shape = Shape { objects: 1, subjects: 16, classes: 2, needs: 1, companies: 2, parents: 0, damaged: 1000 };
    let mut replies = Replies::default();
    for seed in 5000..5050 {
        compare_run(seed, shape, 2000, 1, &mut replies);
    }
    let count = replies.all;
    assert!(count.of(4) > 0 && count.of(5) > 0 && count.of(0) > 0, "{count:?}");
}

#[test]
fn a_unit_that_ran_and_one_begun_from_its_image_go_on_alike() {
    for seed in 7000..7040 {
        let random = &mut Random::new(seed);
        let shape = shape(seed);
        let table = load::table(random, shape);
        let mut monitor = Monitor::from_table(&table).unwrap();
        let mut ran = Unit::from_table(&table).unwrap();
        for _ in 0..random.below(400) {
            let request = load::bytes(random, shape, &monitor);
            monitor.request(&request);
            ran.ask(&request);
        }
        let mut begun = Unit::from_image(&image(&monitor)).unwrap();
        for at in 0..400 {
            let request = load::bytes(random, shape, &monitor);
            let reply = monitor.request(&request);
            assert_eq!(ran.ask(&request), reply, "seed {seed}, request {at}");
            assert_eq!(begun.ask(&request), reply, "seed {seed}, request {at}");
        }
        assert_eq!(ran.image()[..], image(&monitor)[..], "seed {seed}");
        assert_eq!(begun, ran, "seed {seed}");
    }
}
