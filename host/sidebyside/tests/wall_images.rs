//! Images with companies: refused with 18 by each rule, with 11 where a number stands in a record that is not live, accepted without a
//! label; by both implementations, and told apart by companies.

use load::{Random, Shape};
use reference::{Kind, Monitor, Profile, Request, CONFLICT_CLASSES, IMAGE_BYTES, OBJECTS, SUBJECTS};
use sidebyside::orders::Met;
use sidebyside::telling::told_in;
use sidebyside::tree::parent_at;
use sidebyside::wall::{broken, Broken, NAMES};
use sidebyside::{image, profiles, reached_in};

/// Where the companies of an object begin, in bits.
fn companies_at(object: usize) -> usize {
    8 * 42 + 177 * object + 26
}

/// A state of few levels, so that the wall and not the star property decides.
fn reached(random: &mut Random) -> Monitor {
    let objects = [2, 5, 20, 64][random.below(4)];
    let shape = Shape { objects, subjects: 5, classes: 1, needs: 1, companies: 2, parents: 0, damaged: 1000 };
    reached_in(random, shape, 20 * objects)
}

/// The number of both.
fn number(bytes: &[u8], what: &str) -> u8 {
    let number = Monitor::from_image(bytes).err().unwrap_or(0);
    assert_eq!(circmon::read(bytes), number, "{what}");
    number
}

fn rules(monitor: &Monitor) -> Broken {
    (0..SUBJECTS)
        .map(|subject| broken(monitor, subject))
        .fold(Broken::default(), |all, it| Broken { first: all.first || it.first, second: all.second || it.second })
}

/// One number of a live object changed: the image is refused with 18 exactly where a rule is then broken.
fn one_number(random: &mut Random, monitor: &Monitor, what: &str, met: &mut Met) {
    let mut changed = monitor.clone();
    let live = changed.objects.iter().flatten().count();
    let Some(object) = changed.objects.iter_mut().flatten().nth(random.below(live.max(1))) else { return };
    object.companies[random.below(CONFLICT_CLASSES)] = random.below(4) as u8;
    let rules = rules(&changed);
    let number = number(&image(&changed), what);
    assert_eq!(number, if rules.any() { 18 } else { 0 }, "{what}: {rules:?}");
    met.note(format!("image {number}"));
    rules.name().into_iter().for_each(|name| met.note(format!("image with {name} broken")));
    let unlabelled = changed.objects.iter().flatten().any(|it| it.label.is_none() && it.companies != [0; 4]);
    if number == 0 && unlabelled {
        met.note("numbers without a label");
    }
}

/// A bit of a number set in a record: 11 where the object is not live.
fn one_bit(random: &mut Random, monitor: &Monitor, what: &str, met: &mut Met) {
    let object = random.below(OBJECTS);
    let bit = companies_at(object) + random.below(16);
    let mut bytes = image(monitor);
    bytes[bit / 8] ^= 0x80 >> (bit % 8);
    let number = number(&bytes, what);
    if monitor.objects[object].is_none() {
        assert_eq!(number, 11, "{what}: o{object}");
        met.note("a number in a record that is not live");
    } else {
        assert!([0, 18].contains(&number), "{what}: {number}");
    }
}

#[test]
fn numbers_changed_in_images() {
    let mut met = Met::default();
    for seed in 0..3000 {
        let random = &mut Random::new(seed);
        let (monitor, what) = (reached(random), format!("seed {seed}"));
        assert_eq!(number(&image(&monitor), &what), 0);
        for _ in 0..10 {
            one_number(random, &monitor, &what, &mut met);
            one_bit(random, &monitor, &what, &mut met);
        }
    }
    println!("{met:#?}");
    met.check(1000, &["image 0", "image 18", "numbers without a label", "a number in a record that is not live"]);
    met.check(200, &NAMES.map(|name| format!("image with {name} broken")).each_ref().map(String::as_str));
}

#[test]
fn images_of_former_sizes_are_refused_by_their_length() {
    for seed in 0..50 {
        let bytes = image(&reached(&mut Random::new(seed)));
        assert_eq!((bytes.len(), IMAGE_BYTES), (1458, 1458));
        for length in [1274, 1273, 1275, 1401, 1402, 1403, 1457] {
            assert_eq!(number(&bytes[..length], &format!("seed {seed}")), 10, "{length} bytes");
        }
        // as it was written before: without the seven bits of the parent, and without the sixteen of the companies too
        let companies = |object| companies_at(object)..companies_at(object) + 16;
        let parent = |object| parent_at(object)..parent_at(object) + 7;
        let no_parent = without(&bytes, |place| (0..OBJECTS).any(|object| parent(object).contains(&place)));
        let neither = without(&bytes, |place| {
            (0..OBJECTS).any(|object| parent(object).contains(&place) || companies(object).contains(&place))
        });
        for (former, length) in [(no_parent, 1402), (neither, 1274)] {
            assert_eq!((former.len(), number(&former, &format!("seed {seed}"))), (length, 10));
        }
    }
}

/// The bytes without some of their bits.
fn without(bytes: &[u8], left_out: impl Fn(usize) -> bool) -> Vec<u8> {
    let bit = |place: usize| bytes[place / 8] >> (7 - place % 8) & 1;
    let bits: Vec<u8> = (0..8 * bytes.len()).filter(|&place| !left_out(place)).map(bit).collect();
    bits.chunks(8).map(|bits| bits.iter().fold(0, |byte, bit| byte << 1 | bit)).collect()
}

/// States that differ in companies alone are told apart by one request of the owner, with the numbers of the first: 1 in it, and
/// 0 or 18 in the other.
fn told_by_companies(a: &Monitor, b: &Monitor, what: &str, met: &mut Met) {
    let object = (0..OBJECTS).find(|&object| a.objects[object] != b.objects[object]).expect("they differ");
    let it = a.objects[object].as_ref().expect("it is live");
    let expected = Request { actor: it.owner, object, kind: Kind::SetCompanies(it.companies) };
    assert_eq!(told_in(a, b, what), [expected], "{what}");
    let replies = (a.clone().step(expected), b.clone().step(expected));
    assert!(matches!(replies, (1, 0) | (1, 18)), "{what}: {replies:?}");
    met.note(format!("told by companies, {} in the other", replies.1));
}

/// The state with the companies of some objects changed, or with two companies of a class exchanged in all of them, which keeps the
/// wall; where it is accepted and another one.
fn other_companies(random: &mut Random, monitor: &Monitor) -> Option<Monitor> {
    let mut other = monitor.clone();
    let (class, exchanged) = (random.below(CONFLICT_CLASSES), random.once_in(2));
    for object in other.objects.iter_mut().flatten() {
        let company = &mut object.companies[class];
        match *company {
            1 | 2 if exchanged => *company = 3 - *company,
            _ if !exchanged && random.once_in(3) => *company = random.below(4) as u8,
            _ => {}
        }
    }
    (other.fault().is_none() && other != *monitor).then_some(other)
}

#[test]
fn images_that_differ_in_companies_alone() {
    let mut met = Met::default();
    for seed in 0..3000 {
        let random = &mut Random::new(seed);
        let profile = if seed % 2 == 0 { Profile::WIDEST } else { profiles::drawn(random) };
        let monitor = if seed % 2 == 0 { reached(random) } else { profiles::reached(random, profile, 150) };
        for round in 0..5 {
            let what = format!("seed {seed}, round {round}");
            let Some(other) = other_companies(random, &monitor) else { continue };
            told_by_companies(&monitor, &other, &what, &mut met);
            told_by_companies(&other, &monitor, &what, &mut met);
            assert!(told_in(&other, &other, &what).is_empty(), "{what}: equal images");
            // a label before it is told first, and a right behind it is not
            let differing = (0..OBJECTS).find(|&object| monitor.objects[object] != other.objects[object]);
            let object = other.objects[differing.expect("they differ")].clone().expect("it is live");
            let mut given = other.clone();
            let it = given.objects[differing.expect("they differ")].as_mut().expect("it is live");
            it.rights[object.owner] ^= 0b0001 & !it.held[object.owner];
            if given.fault().is_none() && given != other {
                let first = told_in(&monitor, &given, &what);
                assert!(matches!(first[..], [Request { kind: Kind::SetCompanies(_), .. }]), "{what}: {first:?}");
                met.note("companies before rights");
            }
        }
    }
    println!("{met:#?}");
    met.check(
        300,
        &["told by companies, 0 in the other", "told by companies, 18 in the other", "companies before rights"],
    );
}
