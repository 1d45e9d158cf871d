//! Profiles for tests: drawn ones, narrow and wide, and requests with a field outside them.

use crate::orders::Met;
use load::{Random, Shape};
use reference::{Get, Kind, Level, Mode, Monitor, Profile, Request, OBJECTS, SUBJECTS};

/// The profile as the bindings have it; nothing where it is outside its ranges.
pub fn proved(profile: Profile) -> Option<circmon::Profile> {
    circmon::Profile::new(profile.subjects, profile.objects, profile.highest_class, profile.needs)
}

/// The profile with the least of everything.
pub const LEAST: Profile = Profile { subjects: 1, objects: 1, highest_class: 0, needs: 0 };

/// A profile in its ranges. The least and the most of each number are frequent, and so are those of all together.
pub fn drawn(random: &mut Random) -> Profile {
    if random.once_in(10) {
        return [LEAST, Profile::WIDEST][random.below(2)];
    }
    let needs = [0, 1, 0b11, 0x8001, u16::MAX, random.number() as u16, random.number() as u16];
    Profile {
        subjects: one_of(random, &[1, 2, 4, 16], 16),
        objects: one_of(random, &[1, 2, 10, 64], 64),
        highest_class: one_of(random, &[1, 2, 4, 16], 16) - 1,
        needs: needs[random.below(needs.len())],
    }
}

/// One of these numbers, or any from 1 to the most.
fn one_of(random: &mut Random, numbers: &[u8], most: usize) -> u8 {
    let any = 1 + random.below(most) as u8;
    numbers.get(random.below(numbers.len() + 3)).copied().unwrap_or(any)
}

/// The shape of runs under a profile; few objects make conflicts frequent.
pub fn shape(profile: Profile, most_objects: usize) -> Shape {
    Shape {
        objects: usize::from(profile.objects).min(most_objects),
        subjects: profile.subjects.into(),
        classes: usize::from(profile.highest_class) + 1,
        needs: 16,
        companies: 2,
        parents: 2,
        damaged: 25,
    }
}

/// What a profile may have the least of, as `note_narrow` names it.
pub const NARROW: [&str; 4] = ["one subject", "one object", "class 0", "no needs"];

/// Notes what the profile has the least of, by itself or beside others, and whether it has the least or the most of all.
pub fn note_narrow(profile: Profile, met: &mut Met) {
    let Profile { subjects, objects, highest_class, needs } = profile;
    let least = [subjects == 1, objects == 1, highest_class == 0, needs == 0];
    let names: Vec<&str> = NARROW.into_iter().zip(least).filter(|(_, is_so)| *is_so).map(|(name, _)| name).collect();
    match names.as_slice() {
        [] => {}
        [name] => met.note(format!("{name} alone")),
        several => several.iter().for_each(|name| met.note(format!("{name} beside another"))),
    }
    if profile == LEAST {
        met.note("the least of all");
    }
    if profile == Profile::WIDEST {
        met.note("the most of all");
    }
}

/// That profiles with each of these were met more often than this.
pub fn check_narrow(met: &Met, often: usize) {
    for name in NARROW {
        met.check(often, &[&format!("{name} alone"), &format!("{name} beside another")]);
    }
    met.check(often, &["the least of all", "the most of all"]);
}

/// The fields that may be outside a profile.
pub const FIELDS: [&str; 6] = ["actor", "other", "object", "class", "need", "parent"];

/// Those of the request that are.
pub fn fields_outside(profile: Profile, request: &Request) -> Vec<&'static str> {
    let (other, level, parent) = match request.kind {
        Kind::Give(other, _) | Kind::Rescind(other, _) => (Some(other), None, None),
        Kind::ChangeLevel(level) => (None, Some(level), None),
        Kind::Create { parent, .. } => (None, None, parent),
        _ => (None, None, None),
    };
    let outside = [
        request.actor >= profile.subjects.into(),
        other.is_some_and(|other| other >= profile.subjects.into()),
        request.object >= profile.objects.into(),
        level.is_some_and(|level| level.class > profile.highest_class),
        level.is_some_and(|level| level.needs & !profile.needs != 0),
        parent.is_some_and(|parent| parent >= profile.objects.into()),
    ];
    FIELDS.into_iter().zip(outside).filter(|(_, is_so)| *is_so).map(|(name, _)| name).collect()
}

/// Notes the reply to a byte string and, where it is 2 for one field outside the profile and nothing else, that field.
pub fn note_reply(profile: Profile, bytes: &[u8], reply: u8, met: &mut Met) {
    met.note(format!("reply {reply}"));
    let Some(request) = Request::decode(bytes) else { return };
    let outside = fields_outside(profile, &request);
    assert_eq!(outside.is_empty(), reply != 2, "{bytes:02x?} under {profile:?}");
    if let [field] = outside.as_slice() {
        met.note(format!("2 by {field} alone"));
    }
}

/// That each reply, and a 2 by each field alone, were met more often than this.
pub fn check_replies(met: &Met, often: usize) {
    crate::REPLIES.iter().for_each(|reply| met.check(often, &[&format!("reply {reply}")]));
    FIELDS.iter().for_each(|field| met.check(often, &[&format!("2 by {field} alone")]));
}

/// The request with one field outside the profile and inside the ranges of every field, and the name of the field. Nothing where
/// the field that is drawn cannot be so.
pub fn outside(random: &mut Random, profile: Profile, request: Request) -> Option<(&'static str, Request)> {
    let field = random.below(3);
    let mut changed = request;
    let name = match (field, &mut changed.kind) {
        (0, _) => {
            changed.actor = above(random, profile.subjects.into(), SUBJECTS)?;
            "actor"
        }
        (1, _) => {
            changed.object = above(random, profile.objects.into(), OBJECTS)?;
            "object"
        }
        (_, Kind::Give(other, _) | Kind::Rescind(other, _)) => {
            *other = above(random, profile.subjects.into(), SUBJECTS)?;
            "other"
        }
        (_, Kind::ChangeLevel(level)) => outside_level(random, profile, level)?,
        (_, Kind::Create { parent, .. }) => {
            *parent = Some(above(random, profile.objects.into(), OBJECTS)?);
            "parent"
        }
        _ => return None,
    };
    Some((name, changed))
}

/// A number from the first on, below the end.
fn above(random: &mut Random, first: usize, end: usize) -> Option<usize> {
    (first < end).then(|| first + random.below(end - first))
}

fn outside_level(random: &mut Random, profile: Profile, level: &mut Level) -> Option<&'static str> {
    if random.once_in(2) {
        level.class = above(random, usize::from(profile.highest_class) + 1, 16)? as u8;
        return Some("class");
    }
    let others: Vec<u32> = (0..16).filter(|need| profile.needs >> need & 1 == 0).collect();
    let need = others.get(random.below(others.len().max(1)))?;
    level.needs |= 1 << need;
    Some("need")
}

/// The bytes of the next request for a state, often with a field outside its profile, and sometimes damaged.
pub fn bytes(random: &mut Random, shape: Shape, monitor: &Monitor) -> Vec<u8> {
    if random.once_in(5) {
        let request = load::request(random, shape, monitor);
        if let Some((_, request)) = outside(random, monitor.profile, request) {
            return request.encode().to_vec();
        }
    }
    load::bytes(random, shape, monitor)
}

/// A state that a run under the profile reaches.
pub fn reached(random: &mut Random, profile: Profile, requests: usize) -> Monitor {
    let shape = shape(profile, [2, 5, OBJECTS][random.below(3)]);
    let table = load::table_in(random, profile, shape);
    let mut monitor = Monitor::from_table_in(profile, &table).expect("a table inside the profile");
    for _ in 0..requests {
        let bytes = load::bytes(random, shape, &monitor);
        monitor.request(&bytes);
    }
    monitor
}

/// The highest level of a profile.
pub fn top(profile: Profile) -> Level {
    Level { class: profile.highest_class, needs: profile.needs }
}

/// The state as after a power return, when nobody holds anything yet.
pub fn released(monitor: &Monitor) -> Monitor {
    let mut released = monitor.clone();
    released.objects.iter_mut().flatten().for_each(|object| object.held = [0; SUBJECTS]);
    released
}

/// Six gets of one actor, who has the right to most of them where it has any.
pub fn likely_gets(random: &mut Random, monitor: &Monitor) -> Vec<Get> {
    let actor = random.below(monitor.profile.subjects.clamp(1, SUBJECTS as u8).into());
    let all = (0..OBJECTS).flat_map(|object| Mode::ALL.map(|mode| Get { actor, object, mode }));
    let has = |get: &Get| monitor.objects[get.object].as_ref().is_some_and(|it| it.rights[actor] & get.mode.bit() != 0);
    let with_right: Vec<Get> = all.filter(has).collect();
    let mut get = |_| match with_right.get(random.below(with_right.len() + 1)) {
        Some(get) => *get,
        None => Get {
            actor,
            object: random.below(monitor.profile.objects.clamp(1, OBJECTS as u8).into()),
            mode: random.mode(),
        },
    };
    (0..6).map(&mut get).collect()
}
