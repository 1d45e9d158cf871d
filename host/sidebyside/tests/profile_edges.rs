//! The edges of every profile, given to both implementations: the last subject, object, class and need in use and the first that is not.

use reference::{reply, Kind, Level, Mode, Monitor, Profile, Request, OBJECTS, SUBJECTS};
use sidebyside::Both;

const CREATE: Kind = Kind::Create { execute: false, parent: None };

/// Everyone in use is enrolled with the highest level, and object 0 is live and has no label.
fn state(profile: Profile) -> Both {
    let mut monitor = Monitor::begin_in(profile, [None; SUBJECTS]);
    let highest = Level { class: profile.highest_class, needs: profile.needs };
    monitor.subjects[..usize::from(profile.subjects)].fill(Some(highest));
    let mut both = Both::new(monitor);
    assert_eq!(both.request(&Request { actor: 0, object: 0, kind: CREATE }.encode()), reply::CHANGED);
    both
}

/// The reply of both to a request, from this state.
fn asked(both: &Both, actor: usize, object: usize, kind: Kind) -> u8 {
    both.clone().request(&Request { actor, object, kind }.encode())
}

#[test]
fn every_number_of_subjects() {
    for subjects in 1..=SUBJECTS {
        let both = state(Profile { subjects: subjects as u8, ..Profile::WIDEST });
        for subject in 0..SUBJECTS {
            let is_in_use = subject < subjects;
            let expected = |reply: u8| if is_in_use { reply } else { reply::MALFORMED };
            assert_eq!(asked(&both, subject, 1, CREATE), expected(reply::CHANGED), "s{subject} of {subjects}");
            let had = if subject == 0 { reply::ALREADY } else { reply::CHANGED };
            let (give, rescind) = (Kind::Give(subject, Mode::Read), Kind::Rescind(subject, Mode::Read));
            assert_eq!(asked(&both, 0, 0, give), expected(had), "s{subject} of {subjects}");
            assert_eq!(asked(&both, 0, 0, rescind), expected(1 - had), "s{subject} of {subjects}");
        }
    }
}

#[test]
fn every_number_of_objects() {
    for objects in 1..=OBJECTS {
        let both = state(Profile { objects: objects as u8, ..Profile::WIDEST });
        for object in 0..OBJECTS {
            let expected = match object {
                0 => reply::LIVE,
                _ if object < objects => reply::CHANGED,
                _ => reply::MALFORMED,
            };
            assert_eq!(asked(&both, 0, object, CREATE), expected, "o{object} of {objects}");
            let released = match object {
                0 => reply::ALREADY,
                _ if object < objects => reply::NOT_LIVE,
                _ => reply::MALFORMED,
            };
            assert_eq!(asked(&both, 0, object, Kind::Release(Mode::Read)), released, "o{object} of {objects}");
        }
    }
}

#[test]
fn every_highest_class_and_every_need() {
    let level = |both: &Both, class: u8, needs: u16| asked(both, 0, 0, Kind::ChangeLevel(Level { class, needs }));
    for highest_class in 0..16 {
        let both = state(Profile { highest_class, ..Profile::WIDEST });
        for class in 0..16 {
            let expected = if class <= highest_class { reply::CHANGED } else { reply::MALFORMED };
            assert_eq!(level(&both, class, 0), expected, "class {class}, the highest is {highest_class}");
        }
    }
    for need in 0..16 {
        let [alone, without] = [1 << need, !(1 << need)].map(|needs| state(Profile { needs, ..Profile::WIDEST }));
        for asked in 0..16 {
            let (set, is_it) = (1 << asked, asked == need);
            let expected = |is_in_use: bool| if is_in_use { reply::CHANGED } else { reply::MALFORMED };
            assert_eq!(level(&alone, 0, set), expected(is_it), "need {asked}, {need} alone is in use");
            assert_eq!(level(&without, 0, set), expected(!is_it), "need {asked}, all but {need} are in use");
            assert_eq!(level(&without, 0, set | 1 << need), reply::MALFORMED, "needs {asked} and {need}");
        }
    }
}
