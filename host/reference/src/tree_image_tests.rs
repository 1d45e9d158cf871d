//! The parents in images, from the text of the requirements: where they stand, and checks 19 and 20.

use crate::tree_tests::{chain, image, object, read, riser, with_parents, HIGH, LOW};
use crate::*;

/// The image with these parent bits in the record of the object: its last seven.
fn with_parent_bits(monitor: &Monitor, slot: usize, bits: u8) -> [u8; IMAGE_BYTES] {
    let mut image = image(monitor);
    for k in 0..7 {
        let at = 8 * 42 + 177 * slot + 170 + k;
        let weight = 0x80 >> (at % 8);
        image[at / 8] &= !weight;
        image[at / 8] |= if bits >> (6 - k) & 1 == 1 { weight } else { 0 };
    }
    image
}

#[test]
fn images_end_each_record_with_the_parent() {
    let mut monitor = riser();
    for bits in 0..=127 {
        let found = Monitor::from_image(&with_parent_bits(&monitor, 4, bits));
        let parent = usize::from(bits).checked_sub(1);
        match parent {
            None | Some(0..=3) => {
                object(&mut monitor, 4).parent = parent;
                assert_eq!(found.as_ref(), Ok(&monitor), "{bits}");
                assert_eq!(image(&monitor), with_parent_bits(&monitor, 4, bits), "{bits}");
            }
            // itself, what is not live, and what is no object
            Some(_) => assert_eq!(found, Err(reply::PARENT), "{bits}"),
        }
    }
    for bits in 1..=127 {
        assert_eq!(Monitor::from_image(&with_parent_bits(&monitor, 63, bits)), Err(reply::STRAY_BITS), "{bits}");
    }
    for length in [1274, 1402, 1457, 1459] {
        let mut other = image(&monitor).to_vec();
        other.resize(length, 0);
        assert_eq!(Monitor::from_image(&other), Err(reply::LENGTH), "{length} bytes");
    }
}

#[test]
fn a_chain_of_parents_that_does_not_end_is_refused_with_19() {
    let monitor = chain();
    assert_eq!(read(&monitor), 0);
    for (from, to) in (0..OBJECTS).flat_map(|from| (from..OBJECTS).map(move |to| (from, to))) {
        let mut closed = monitor.clone();
        object(&mut closed, from).parent = Some(to);
        assert_eq!(read(&closed), reply::PARENT, "o{from} under o{to}");
    }
}

#[test]
fn images_are_checked_for_19_after_18_and_for_20_after_19() {
    // a child without a labelled parent, another one under what is not live, and a subject behind both sides of the wall
    let mut monitor = with_parents(&[None, Some(0), Some(63), None]);
    object(&mut monitor, 1).label = Some(HIGH);
    for (slot, company) in [(0, 1), (3, 2)] {
        let it = object(&mut monitor, slot);
        (it.companies[0], it.rights[2], it.held[2]) = (company, 0b0001, 0b0001);
    }
    assert_eq!(read(&monitor), reply::WALL);
    object(&mut monitor, 3).companies[0] = 1;
    assert_eq!(read(&monitor), reply::PARENT);
    object(&mut monitor, 2).parent = None;
    assert_eq!(read(&monitor), reply::PARENT_LABEL);
    object(&mut monitor, 0).label = Some(LOW);
    assert_eq!(read(&monitor), 0);
}

#[test]
fn a_parent_beyond_the_profile_of_an_image_is_not_live() {
    let profile = Profile { objects: 5, ..Profile::WIDEST };
    let monitor = Monitor { profile, ..riser() };
    assert_eq!(Monitor::from_image_in(profile, &image(&monitor)), Ok(monitor.clone()));
    for bits in 6..=127 {
        let image = with_parent_bits(&monitor, 0, bits);
        assert_eq!(Monitor::from_image_in(profile, &image), Err(reply::PARENT), "{bits}");
    }
    let narrow = Profile { objects: 4, ..profile };
    assert_eq!(Monitor::from_image_in(narrow, &image(&monitor)), Err(reply::STRAY_BITS), "o4 is beyond it");
}
