//! Requests that tell two states of one profile apart: inside the profile, and answered differently by both implementations.

use circmon::{distinguish_in, Unit, DISTINGUISH_BYTES, REQUEST_BYTES};
use load::Random;
use reference::{Kind, Level, Monitor, Object, Profile, Request, SUBJECTS};
use sidebyside::image;
use sidebyside::orders::Met;
use sidebyside::profiles;

const LEFT: u8 = 0xEE;

/// The requests that tell a from b; bytes behind them are left.
fn told(a: &Monitor, b: &Monitor, what: &str) -> Vec<Vec<u8>> {
    let profile = profiles::proved(a.profile).expect("in its ranges");
    let mut buffer = [LEFT; DISTINGUISH_BYTES + 5];
    let number = usize::from(distinguish_in(profile, &image(a), &image(b), &mut buffer));
    assert!(number <= 4, "{what}: {number}");
    let end = number * REQUEST_BYTES;
    assert!(buffer[end..].iter().all(|&byte| byte == LEFT), "{what}: later bytes are left");
    buffer[..end].chunks(REQUEST_BYTES).map(<[u8]>::to_vec).collect()
}

/// The replies of both implementations from a state, which are the same; every request is inside the profile.
fn replies(monitor: &Monitor, requests: &[Vec<u8>], what: &str) -> Vec<u8> {
    let (mut monitor, profile) = (monitor.clone(), profiles::proved(monitor.profile).expect("in its ranges"));
    let mut unit =
        Unit::from_image_in(profile, &image(&monitor)).unwrap_or_else(|n| panic!("{what}: refused with {n}"));
    let mut reply = |request: &Vec<u8>| {
        let reply = monitor.request(request);
        assert_eq!(unit.ask(request), reply, "{what}: {request:02x?}");
        assert_ne!(reply, 2, "{what}: {request:02x?}");
        reply
    };
    requests.iter().map(&mut reply).collect()
}

/// Two states are told apart exactly where they differ. How many requests it takes.
fn check(a: &Monitor, b: &Monitor, what: &str) -> usize {
    let requests = told(a, b, what);
    assert_eq!(requests.is_empty(), a == b, "{what}: {requests:02x?}");
    let (here, there) = (replies(a, &requests, what), replies(b, &requests, what));
    assert!(a == b || here != there, "{what}: {requests:02x?}");
    requests.len()
}

/// The state with one thing changed, where that leaves another accepted state of the profile.
fn changed(random: &mut Random, monitor: &Monitor) -> Option<(&'static str, Monitor)> {
    let mut other = monitor.clone();
    let Profile { subjects, objects, .. } = monitor.profile;
    let level = load::inside(monitor.profile, Level { class: random.below(16) as u8, needs: random.number() as u16 });
    let (subject, slot) = (random.below(subjects.into()), random.below(objects.into()));
    let name = match random.below(8) {
        0 => {
            other.subjects[subject] = if monitor.subjects[subject].is_some() { None } else { Some(level) };
            "enrolment"
        }
        1 => {
            other.subjects[subject] = Some(monitor.subjects[subject].map(|_| level)?);
            "clearance"
        }
        2 => {
            other.objects[slot] = monitor.objects[slot].is_none().then(|| Object::new(subject));
            "life"
        }
        _ => changed_record(random, monitor.profile, other.objects[slot].as_mut()?, subject, level),
    };
    let accepted = Monitor::from_image_in(other.profile, &image(&other)).is_ok();
    (accepted && other != *monitor).then_some((name, other))
}

/// One thing of a live object, and its name.
fn changed_record(
    random: &mut Random,
    profile: Profile,
    object: &mut Object,
    subject: usize,
    level: Level,
) -> &'static str {
    match random.below(5) {
        0 => {
            object.owner = subject;
            "owner"
        }
        1 => {
            object.label = [None, Some(level), Some(profiles::top(profile))][random.below(3)];
            "label"
        }
        2 => {
            object.rights[subject] ^= random.mode().bit();
            "right"
        }
        3 => {
            object.parent = random.below(usize::from(profile.objects) + 1).checked_sub(1);
            "parent"
        }
        _ => {
            object.held[subject] ^= object.rights[subject] & random.mode().bit();
            "access"
        }
    }
}

/// Every slot of the profile gets an object, where somebody is enrolled.
fn fill(monitor: &mut Monitor) {
    let Some(actor) = (0..SUBJECTS).find(|&subject| monitor.subjects[subject].is_some()) else { return };
    for object in 0..monitor.profile.objects.into() {
        monitor.step(Request { actor, object, kind: Kind::Create { execute: false, parent: None } });
    }
}

#[test]
fn states_of_one_profile_that_differ_in_one_thing() {
    let mut met = Met::default();
    for seed in 0..2500 {
        let random = &mut Random::new(seed);
        let profile = profiles::drawn(random);
        let mut monitor = profiles::reached(random, profile, 120);
        let full = random.once_in(2);
        if full {
            fill(&mut monitor);
        }
        profiles::note_narrow(profile, &mut met);
        for _ in 0..12 {
            let Some((name, other)) = changed(random, &monitor) else { continue };
            let what = format!("seed {seed}, {name}, {profile:?}");
            for (a, b) in [(&monitor, &other), (&other, &monitor)] {
                let count = check(a, b, &what);
                assert_eq!(count == 2, name == "parent", "{what}: {count} requests");
                met.note(name);
                met.note(format!("{count} requests"));
            }
        }
    }
    println!("{met:#?}");
    met.check(200, &["enrolment", "clearance", "life", "owner", "label", "right", "access", "parent"]);
    met.check(200, &["1 requests", "2 requests", "3 requests", "4 requests"]);
    profiles::check_narrow(&met, 50);
}

#[test]
fn states_along_runs() {
    let mut pairs = [0, 0];
    for seed in 0..600 {
        let random = &mut Random::new(seed);
        let profile = profiles::drawn(random);
        let shape = profiles::shape(profile, 5);
        let mut states = vec![profiles::reached(random, profile, 20)];
        for _ in 0..40 {
            let mut next = states.last().expect("the first").clone();
            next.request(&load::bytes(random, shape, &next));
            states.push(next);
        }
        let stranger = profiles::reached(random, profile, 60);
        for at in 0..12 {
            let (a, b) = (&states[random.below(states.len())], &states[random.below(states.len())]);
            let b = if at % 4 == 0 { &stranger } else { b };
            check(a, b, &format!("seed {seed}, pair {at}"));
            pairs[usize::from(a == b)] += 1;
        }
    }
    assert!(pairs[0] > 2000 && pairs[1] > 200, "{pairs:?}: different and equal");
}

#[test]
fn refused_images_and_short_buffers() {
    let mut met = Met::default();
    for seed in 0..3000 {
        let random = &mut Random::new(seed);
        let (own, profile) = (profiles::drawn(random), profiles::drawn(random));
        let proved = profiles::proved(profile).expect("in its ranges");
        let [a, b] = [own, profile].map(|it| image(&profiles::reached(random, it, 60)));
        let length = if random.once_in(2) { random.below(DISTINGUISH_BYTES) } else { DISTINGUISH_BYTES };
        let before = random.bytes(length);
        for (one, other) in [(&a, &b), (&b, &a), (&a[..9].to_vec(), &b), (&b, &b[..9].to_vec())] {
            let mut buffer = before.clone();
            let number = distinguish_in(proved, one, other, &mut buffer);
            let read = [one, other].map(|it| Monitor::from_image_in(profile, it).err());
            let expected = match read {
                [Some(n), _] => Some(128 + n),
                [_, Some(n)] => Some(192 + n),
                _ => (length < DISTINGUISH_BYTES).then_some(13),
            };
            assert_eq!(expected.unwrap_or(number), number, "seed {seed}");
            assert!(number <= 4 || buffer == before, "seed {seed}: every byte is left");
            met.note(if number <= 4 { "told".to_string() } else { number.to_string() });
        }
    }
    println!("{met:#?}");
    met.check(100, &["told", "13", "138", "139", "144", "202", "203", "208"]);
}
