//! Takings-back beside deletes that take children: counted from such a delete on, whatever was in the journal before it, and a leaf
//! taken back to its place.

use load::Random;
use reference::{Kind, Level, Mode, Monitor, Request, SUBJECTS};
use sidebyside::history::{Followed, EMPTY, MOST};
use sidebyside::orders::Met;
use sidebyside::tree::{below, live};

const TOP: Level = Level { class: 15, needs: 0xFFFF };

fn begun() -> Followed {
    Followed::begin(Monitor::begin([Some(TOP); SUBJECTS]))
}

fn granted(followed: &mut Followed, met: &mut Met, actor: usize, object: usize, kind: Kind) {
    assert_eq!(followed.request(&Request { actor, object, kind }.encode(), met), 0, "o{object}, {kind:?}");
}

fn create(parent: Option<usize>) -> Kind {
    Kind::Create { execute: true, parent }
}

/// So many requests with reply 0 on o40; the images before the first of them and after each.
fn changes(followed: &mut Followed, met: &mut Met, count: usize) -> Vec<Vec<u8>> {
    let mut images = vec![followed.present.clone()];
    for _ in 0..count {
        let kind = match live(&followed.second.monitor, 40).map(|it| it.rights[1]) {
            None => create(None),
            Some(0) => Kind::Give(1, Mode::Read),
            Some(_) => Kind::Rescind(1, Mode::Read),
        };
        granted(followed, met, 0, 40, kind);
        images.push(followed.present.clone());
    }
    images
}

#[test]
fn takings_back_are_counted_from_the_delete_on() {
    let mut met = Met::default();
    for (before, behind) in [0, 1, 20, 40].iter().flat_map(|before| (0..=MOST + 3).map(move |behind| (*before, behind)))
    {
        let mut followed = begun();
        changes(&mut followed, &mut met, before);
        for (object, parent) in [(0, None), (1, Some(0)), (2, Some(1))] {
            granted(&mut followed, &mut met, 2, object, create(parent));
        }
        granted(&mut followed, &mut met, 2, 0, Kind::Delete);
        assert_eq!(followed.entries(), 0);
        let images = changes(&mut followed, &mut met, behind);
        // `Followed` compares the state after each taking-back with the history
        for at in 0..behind.min(MOST) {
            assert_eq!(followed.take_back(&mut met), 0, "{at} of {behind}, {before} before");
        }
        // the state after the delete, or that after those whose entries gave way
        assert_eq!(followed.present, images[behind.saturating_sub(MOST)], "{behind} behind, {before} before");
        for _ in 0..2 {
            assert_eq!(followed.take_back(&mut met), EMPTY, "{behind} behind, {before} before");
        }
    }
    met.check(100, &["emptied by a delete", "17", "0"]);
}

#[test]
fn a_refused_delete_of_a_branch_leaves_the_journal() {
    let (mut followed, mut met) = (begun(), Met::default());
    for (actor, object, parent) in [(2, 0, None), (3, 1, Some(0)), (2, 2, Some(1))] {
        granted(&mut followed, &mut met, actor, object, create(parent));
    }
    for (actor, object) in [(3, 0), (2, 1), (3, 2), (1, 0)] {
        let delete = Request { actor, object, kind: Kind::Delete }.encode();
        assert_eq!(followed.request(&delete, &mut met), 6, "s{actor}, o{object}");
        assert_eq!(followed.entries(), 3);
    }
    // and three takings-back lead to the beginning, child by child
    for left in [2, 1, 0] {
        assert_eq!(followed.take_back(&mut met), 0);
        assert_eq!(followed.second.monitor.objects.iter().flatten().count(), left);
    }
}

/// A tree deleted leaf by leaf is taken back whole, each object under its parent again; a tree deleted at once is not.
#[test]
fn leaf_by_leaf_or_at_once() {
    let mut met = Met::default();
    for seed in 0..300 {
        let random = &mut Random::new(seed);
        let mut followed = begun();
        let count = 2 + random.below(MOST - 1);
        for object in 0..count {
            let parent = (object > 0 && !random.once_in(5)).then(|| random.below(object));
            granted(&mut followed, &mut met, object % 3, object, create(parent));
        }
        followed.begin_again();
        let whole = followed.present.clone();
        // a child has a higher number than its parent
        for object in (0..count).rev() {
            assert!(below(&followed.second.monitor, object).is_empty());
            granted(&mut followed, &mut met, object % 3, object, Kind::Delete);
        }
        for _ in 0..count {
            assert_eq!(followed.take_back(&mut met), 0, "seed {seed}");
        }
        assert_eq!(followed.present, whole, "seed {seed}");
        let top = (0..count).find(|&object| !below(&followed.second.monitor, object).is_empty());
        let Some(top) = top else { continue };
        granted(&mut followed, &mut met, top % 3, top, Kind::Delete);
        assert_eq!(followed.take_back(&mut met), EMPTY, "seed {seed}");
        met.note("deleted at once");
    }
    met.check(200, &["deleted at once"]);
    met.check(2000, &["a delete of a child"]);
}
