//! Taking back, from the text of the requirements. The long runs are in `sidebyside`, for both implementations.

use crate::marked::{marked_run, table_w};
use crate::*;

/// Table W's monitor.
fn begun() -> Journaled {
    Journaled::begin(Monitor::from_table(&table_w()).unwrap())
}

fn asked(journaled: &mut Journaled, actor: usize, object: usize, kind: Kind) -> u8 {
    journaled.request(&Request { actor, object, kind }.encode())
}

/// The state before the create, and those after it and after each give or rescind of e to s0, in turn.
fn changed(journaled: &mut Journaled, requests: usize) -> Vec<Monitor> {
    let mut states = vec![journaled.monitor.clone()];
    for at in 0..requests {
        let kind = match at {
            0 => Kind::Create { execute: true, parent: None },
            _ if at % 2 == 1 => Kind::Give(0, Mode::Execute),
            _ => Kind::Rescind(0, Mode::Execute),
        };
        assert_eq!(asked(journaled, 1, 0, kind), reply::CHANGED, "request {at}");
        states.push(journaled.monitor.clone());
    }
    states
}

/// What is taken back and the state after it, until the journal is empty, where nothing changes.
fn emptied(journaled: &mut Journaled) -> Vec<Monitor> {
    let mut states = Vec::new();
    while journaled.take_back() == reply::CHANGED {
        states.push(journaled.monitor.clone());
    }
    let before = journaled.monitor.clone();
    assert_eq!(journaled.take_back(), 17, "it stays empty");
    assert_eq!(journaled.monitor, before);
    states
}

#[test]
fn the_marked_run_taken_back_step_by_step() {
    let mut journaled = begun();
    let mut before = Vec::new();
    for (row, (request, reply)) in marked_run().into_iter().enumerate() {
        let state = journaled.monitor.clone();
        assert_eq!(journaled.request(&request.encode()), reply, "row {}", row + 1);
        if reply == reply::CHANGED {
            before.push(state);
        }
    }
    let granted = before.len();
    before.reverse();
    assert_eq!(emptied(&mut journaled), before);
    assert!(granted > 5 && journaled == begun());
}

#[test]
fn of_33_entries_the_oldest_gave_way() {
    for requests in [0, 1, 31, 32, 33, 64, 65] {
        let mut journaled = begun();
        let mut states = changed(&mut journaled, requests);
        let kept = requests.min(32);
        assert_eq!(journaled.entries(), kept, "{requests} requests");
        // the last state is the present one
        states.pop();
        states.reverse();
        assert_eq!(emptied(&mut journaled), states[..kept], "{requests} requests");
    }
}

#[test]
fn an_empty_journal_is_refused_with_17_and_the_state_is_unchanged() {
    let mut journaled = begun();
    assert_eq!(journaled.take_back(), reply::EMPTY_JOURNAL);
    assert_eq!(journaled, begun());
    assert_eq!(reply::EMPTY_JOURNAL, 17);
}

#[test]
fn a_delete_taken_back_restores_label_rights_and_accesses() {
    let mut journaled = begun();
    let low = Level { class: 0, needs: 0 };
    for kind in [
        Kind::Create { execute: true, parent: None },
        Kind::ChangeLevel(low),
        Kind::Give(0, Mode::Read),
        Kind::Give(2, Mode::Append),
        Kind::Get(Mode::Write),
    ] {
        assert_eq!(asked(&mut journaled, 1, 0, kind), 0, "{kind:?}");
    }
    assert_eq!(asked(&mut journaled, 0, 0, Kind::Get(Mode::Read)), 0);
    let before = journaled.monitor.clone();
    assert_eq!(asked(&mut journaled, 1, 0, Kind::Delete), 0);
    assert_eq!(journaled.monitor.objects[0], None);
    assert_eq!(journaled.take_back(), 0);
    let restored = journaled.monitor.objects[0].as_ref().unwrap();
    assert_eq!((restored.owner, restored.label), (1, Some(low)));
    assert_eq!(restored.rights[..4], [0b1000, 0b1111, 0b0010, 0]);
    assert_eq!(restored.held[..4], [0b1000, 0b0100, 0, 0]);
    assert_eq!(journaled.monitor, before);
}

#[test]
fn a_label_taken_back_is_the_one_before_or_none() {
    let mut journaled = begun();
    let label = |journaled: &Journaled| journaled.monitor.objects[0].as_ref().unwrap().label;
    let (low, high) = (Level { class: 1, needs: 1 }, Level { class: 2, needs: 1 });
    for kind in [Kind::Create { execute: false, parent: None }, Kind::ChangeLevel(low), Kind::ChangeLevel(high)] {
        assert_eq!(asked(&mut journaled, 1, 0, kind), 0, "{kind:?}");
    }
    assert_eq!(asked(&mut journaled, 1, 0, Kind::ChangeLevel(low)), reply::LOWERED, "a request does not lower it");
    assert_eq!((journaled.take_back(), label(&journaled)), (0, Some(low)));
    assert_eq!((journaled.take_back(), label(&journaled)), (0, None));
    assert_eq!((journaled.take_back(), journaled.monitor.objects[0].clone()), (0, None));
    assert_eq!(journaled.take_back(), 17);
}

#[test]
fn reply_1_and_refusals_enter_nothing_and_leave_the_journal() {
    let mut journaled = begun();
    let states = changed(&mut journaled, 3);
    for (actor, kind, reply) in [
        (1, Kind::Rescind(0, Mode::Execute), reply::ALREADY),
        (1, Kind::Get(Mode::Read), reply::NO_LABEL),
        (2, Kind::Delete, reply::NO_RIGHT),
        (1, Kind::Create { execute: true, parent: None }, reply::LIVE),
        (9, Kind::Delete, reply::NOT_ENROLLED),
    ] {
        assert_eq!(asked(&mut journaled, actor, 0, kind), reply, "{kind:?}");
        assert_eq!(journaled.entries(), 3, "{kind:?}");
    }
    assert_eq!(journaled.request(&[0x50]), reply::MALFORMED);
    assert_eq!(emptied(&mut journaled), [states[2].clone(), states[1].clone(), states[0].clone()]);
}

#[test]
fn a_taking_back_enters_nothing_and_cannot_be_taken_back() {
    let mut journaled = begun();
    let states = changed(&mut journaled, 2);
    assert_eq!(journaled.take_back(), 0);
    assert_eq!((journaled.entries(), &journaled.monitor), (1, &states[1]));
    assert_eq!(asked(&mut journaled, 1, 0, Kind::Delete), 0);
    assert_eq!(emptied(&mut journaled), [states[1].clone(), states[0].clone()]);
}

#[test]
fn every_beginning_has_an_empty_journal() {
    let mut journaled = begun();
    changed(&mut journaled, 5);
    let mut image = [0; IMAGE_BYTES];
    assert_eq!(journaled.monitor.write_image(&mut image), 0);
    let mut opened = Journaled::begin(Monitor::from_image(&image).unwrap());
    // the journal does not count in a comparison
    assert_eq!(opened, journaled);
    assert_eq!((journaled.entries(), opened.entries()), (5, 0));
    assert_eq!(opened.take_back(), 17);
    assert_eq!(Journaled::begin(Monitor::empty()).take_back(), 17);
}
