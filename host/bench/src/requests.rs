//! Requests: a unit in memory and a replay beside the second implementation with each way of the star check. A unit keeps a journal,
//! and so does what it is compared with; a replay keeps none, and neither does what that is compared with.

use crate::loads::{loads, Load};
use crate::timing::{median, time, ROUNDS};
use circmon::{Profile, Unit};
use reference::{Journaled, Monitor, Star, REQUEST_BYTES};

/// Runs a whole load, from its table on.
type Run = fn(&Load, &mut [u8]);

/// A unit and what it is compared with, then a replay and what that is compared with.
const RUNS: [(&str, Run); 6] = [
    ("unit", |load, replies| {
        let mut unit = Unit::from_table_in(profile(load), &load.table).expect("a table that was written");
        each(load, replies, |request| unit.ask(request));
    }),
    ("plain", |load, replies| run_journaled(load, Star::Plain, replies)),
    ("listed", |load, replies| run_journaled(load, Star::Listed, replies)),
    ("replay", |load, replies| assert_eq!(circmon::replay(&load.table, &load.requests, replies), 0)),
    ("plain", |load, replies| run_monitor(load, Star::Plain, replies)),
    ("listed", |load, replies| run_monitor(load, Star::Listed, replies)),
];

/// The profile of the load as the bindings have it.
fn profile(load: &Load) -> Profile {
    let it = load.profile;
    Profile::new(it.subjects, it.objects, it.highest_class, it.needs).expect("a profile in its ranges")
}

fn each(load: &Load, replies: &mut [u8], mut ask: impl FnMut(&[u8]) -> u8) {
    for (reply, request) in replies.iter_mut().zip(load.requests.chunks(REQUEST_BYTES)) {
        *reply = ask(request);
    }
}

fn begun(load: &Load, star: Star) -> Monitor {
    let monitor = Monitor::from_table_in(load.profile, &load.table).expect("a table that was written");
    Monitor { star, ..monitor }
}

fn run_monitor(load: &Load, star: Star, replies: &mut [u8]) {
    let mut monitor = begun(load, star);
    each(load, replies, |request| monitor.request(request));
}

fn run_journaled(load: &Load, star: Star, replies: &mut [u8]) {
    let mut journaled = Journaled::begin(begun(load, star));
    each(load, replies, |request| journaled.request(request));
}

/// The median of the seconds that each run takes.
fn medians(load: &Load) -> [f64; RUNS.len()] {
    let count = load.requests.len() / REQUEST_BYTES;
    let mut times: [Vec<f64>; RUNS.len()] = Default::default();
    let mut replies: [Vec<u8>; RUNS.len()] = std::array::from_fn(|_| vec![0; count]);
    for round in 0..ROUNDS {
        replies.iter_mut().for_each(|it| it.fill(0xEE));
        // each is the first of a round as often as the others
        for at in (0..RUNS.len()).map(|turn| (round + turn) % RUNS.len()) {
            times[at].push(time(|| RUNS[at].1(load, &mut replies[at])));
        }
        assert!(replies.iter().all(|it| *it == replies[0]), "replies differ on {}", load.name);
    }
    times.map(median)
}

/// One row for each load whose name has the word.
pub fn requests(wanted: &str) {
    println!("requests: millions per second, and the ratio to each way of the star check; first with a journal, then without");
    print!("{:<34}", "load");
    for names in RUNS.map(|run| run.0).chunks(3) {
        names.iter().for_each(|name| print!(" {name:>7}"));
        names[1..].iter().for_each(|other| print!(" {:>13}", format!("{}/{other}", names[0])));
    }
    println!();
    for load in loads().into_iter().filter(|load| load.name.contains(wanted)) {
        let count = load.requests.len() / REQUEST_BYTES;
        print!("{:<34}", load.name);
        for seconds in medians(&load).chunks(3) {
            seconds.iter().for_each(|seconds| print!(" {:>7.2}", count as f64 / seconds / 1e6));
            print!(" {:>13.2} {:>13.2}", seconds[1] / seconds[0], seconds[2] / seconds[0]);
        }
        println!();
    }
}
