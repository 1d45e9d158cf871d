//! What is changed in states and images so that a monitor of their profile refuses them.

use crate::profiles::top;
use load::Random;
use reference::{Level, Mode, Monitor, Object, Profile, CONFLICT_CLASSES, OBJECTS, SUBJECTS, TABLE_BYTES};

/// A level of which the class or a need is outside the profile, where there is one.
fn level_outside(random: &mut Random, profile: Profile) -> Option<Level> {
    let level = Level { class: random.below(16) as u8, needs: random.number() as u16 };
    [level, Level { class: 15, needs: 0 }, Level { class: 0, needs: u16::MAX }]
        .into_iter()
        .find(|level| !profile.has_level(level))
}

/// A subject beyond the profile, where there is one.
fn subject_beyond(random: &mut Random, profile: Profile) -> Option<usize> {
    let first = usize::from(profile.subjects);
    (first < SUBJECTS).then(|| first + random.below(SUBJECTS - first))
}

fn object_beyond(random: &mut Random, profile: Profile) -> Option<usize> {
    let first = usize::from(profile.objects);
    (first < OBJECTS).then(|| first + random.below(OBJECTS - first))
}

/// An enrolled subject, where there is one.
fn enrolled(random: &mut Random, monitor: &Monitor) -> Option<usize> {
    let all: Vec<usize> = (0..SUBJECTS).filter(|&it| monitor.subjects[it].is_some()).collect();
    all.get(random.below(all.len().max(1))).copied()
}

/// A live object, where there is one.
fn live<'a>(random: &mut Random, monitor: &'a mut Monitor) -> Option<&'a mut Object> {
    let count = monitor.objects.iter().flatten().count();
    monitor.objects.iter_mut().flatten().nth(random.below(count.max(1)))
}

/// One thing that is changed in a state, after which it may be one that no monitor of its profile has. Nothing where it cannot be.
pub type Change = fn(&mut Random, &mut Monitor) -> Option<()>;

pub const CHANGES: [(&str, Change); 18] = [
    ("a clearance outside", |random, it| {
        let level = level_outside(random, it.profile)?;
        it.subjects[enrolled(random, it)?] = Some(level);
        Some(())
    }),
    ("a label outside", |random, it| {
        let level = level_outside(random, it.profile)?;
        live(random, it)?.label = Some(level);
        Some(())
    }),
    ("a subject enrolled beyond", |random, it| {
        let level = [Level { class: 0, needs: 0 }, top(it.profile)][random.below(2)];
        it.subjects[subject_beyond(random, it.profile)?] = Some(level);
        Some(())
    }),
    ("an object live beyond", |random, it| {
        it.objects[object_beyond(random, it.profile)?] = Some(Object::new(enrolled(random, it)?));
        Some(())
    }),
    ("a right of a subject beyond", |random, it| {
        let subject = subject_beyond(random, it.profile)?;
        live(random, it)?.rights[subject] |= random.mode().bit();
        Some(())
    }),
    ("an access of a subject beyond", |random, it| {
        let subject = subject_beyond(random, it.profile)?;
        live(random, it)?.held[subject] |= random.mode().bit();
        Some(())
    }),
    ("an owner beyond", |random, it| {
        let subject = subject_beyond(random, it.profile)?;
        live(random, it)?.owner = subject;
        Some(())
    }),
    ("a subject absent", |random, it| {
        it.subjects[enrolled(random, it)?] = None;
        Some(())
    }),
    ("no rights", |random, it| {
        live(random, it)?.rights = [0; SUBJECTS];
        Some(())
    }),
    ("no label", |random, it| {
        live(random, it)?.label = None;
        Some(())
    }),
    ("labels at the top", |random, it| {
        let label = top(it.profile);
        it.objects.iter_mut().flatten().filter(|_| random.once_in(3)).for_each(|it| it.label = Some(label));
        Some(())
    }),
    ("companies beyond every profile", |random, it| {
        live(random, it)?.companies = std::array::from_fn(|_| random.below(16) as u8);
        Some(())
    }),
    ("two companies of one class", |random, it| {
        let (subject, class) = (enrolled(random, it)?, random.below(CONFLICT_CLASSES));
        let mut live = it.objects.iter_mut().flatten();
        for company in [1, 2] {
            let object = live.next()?;
            object.companies[class] = company;
            object.rights[subject] |= Mode::Execute.bit();
            object.held[subject] |= Mode::Execute.bit();
        }
        Some(())
    }),
    ("any parent", |random, it| {
        live(random, it)?.parent = Some(random.below(127));
        Some(())
    }),
    ("a parent beyond", |random, it| {
        let parent = object_beyond(random, it.profile)?;
        live(random, it)?.parent = Some(parent);
        Some(())
    }),
    ("two objects under each other", |_, it| {
        let mut live = (0..OBJECTS).filter(|&object| it.objects[object].is_some());
        let (one, other) = (live.next()?, live.next()?);
        it.objects[one].as_mut()?.parent = Some(other);
        it.objects[other].as_mut()?.parent = Some(one);
        Some(())
    }),
    ("a label under one that it does not dominate", |_, it| {
        let mut live = (0..OBJECTS).filter(|&object| it.objects[object].is_some());
        let (above, below) = (live.next()?, live.next()?);
        let levels = [None, Some(top(it.profile)), Some(Level { class: 0, needs: 0 })];
        for (object, parent, label) in [(above, None, levels[below % 2]), (below, Some(above), levels[2])] {
            let object = it.objects[object].as_mut()?;
            (object.parent, object.label, object.held) = (parent, label, [0; SUBJECTS]);
        }
        Some(())
    }),
    ("a read at the top beside an append at the bottom", |random, it| {
        let (subject, highest) = (enrolled(random, it)?, top(it.profile));
        it.subjects[subject] = Some(highest);
        let mut live = it.objects.iter_mut().flatten();
        for (level, mode) in [(highest, Mode::Read), (Level { class: 0, needs: 0 }, Mode::Append)] {
            let object = live.next()?;
            (object.label, object.held) = (Some(level), [0; SUBJECTS]);
            object.rights[subject] |= mode.bit();
            object.held[subject] = mode.bit();
        }
        Some(())
    }),
];

/// Sets the enrolled bit of a subject beyond the profile or the live bit of an object beyond it, and names it.
pub fn first_bit_beyond(random: &mut Random, profile: Profile, bytes: &mut [u8]) -> Option<&'static str> {
    let (bit, name) = match (subject_beyond(random, profile), object_beyond(random, profile)) {
        (Some(subject), _) if random.once_in(2) => (21 * subject, "the enrolled bit beyond"),
        (_, Some(object)) => (8 * TABLE_BYTES + 177 * object, "the live bit beyond"),
        _ => return None,
    };
    *bytes.get_mut(bit / 8)? |= 0x80 >> (bit % 8);
    Some(name)
}
