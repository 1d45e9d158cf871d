//! The ranges of a profile, by a program in C over the header: the bindings for Rust have no profile outside them.

use circmon::{DISTINGUISH_BYTES, UNIT_BYTES};
use reference::{reply, Monitor, Profile, IMAGE_BYTES, TABLE_BYTES};
use sidebyside::orders::Met;
use sidebyside::{compiled_here, fed, image, profiles, rows};
use std::process::Command;

/// The functions, by the numbers that c/profile.c has for them.
const START: u8 = 0;
const OPEN: u8 = 1;
const DISTINGUISH: u8 = 2;
/// What a byte must still have where nothing is written.
const LEFT: u8 = 0xEE;

struct Case {
    function: u8,
    profile: Profile,
    buffers: [Vec<u8>; 2],
}

impl Case {
    fn bytes(&self) -> Vec<u8> {
        let Profile { subjects, objects, highest_class, needs } = self.profile;
        let mut bytes = vec![self.function, subjects, objects, highest_class];
        bytes.extend(needs.to_be_bytes());
        for buffer in &self.buffers {
            bytes.extend((buffer.len() as u16).to_be_bytes());
            bytes.extend(buffer);
        }
        bytes
    }

    /// The number, and every byte of the unit or of the requests.
    fn expected(&self) -> (u8, Vec<u8>) {
        let [one, _] = &self.buffers;
        let begun = match self.function {
            START => Monitor::from_table_in(self.profile, one),
            OPEN => Monitor::from_image_in(self.profile, one),
            _ => return (told(self), vec![LEFT; DISTINGUISH_BYTES]),
        };
        let number = begun.as_ref().err().copied().unwrap_or(0);
        (number, rows::of(&begun.unwrap_or_else(|_| Monitor::empty())).as_flattened().to_vec())
    }
}

/// What telling an image from another one returns where one is refused or they are equal.
fn told(case: &Case) -> u8 {
    if !case.profile.is_in_range() {
        return reply::PROFILE;
    }
    match case.buffers.each_ref().map(|it| Monitor::from_image_in(case.profile, it)) {
        [Err(number), _] => 128 + number,
        [_, Err(number)] => 192 + number,
        [Ok(one), Ok(other)] if one == other => 0,
        _ => panic!("the images of a case are equal or one is refused"),
    }
}

/// Numbers at the borders of the ranges and far from them.
fn profiles_tried() -> Vec<Profile> {
    let mut profiles = Vec::new();
    for subjects in [0, 1, 2, 15, 16, 17, 64, 128, 255] {
        for objects in [0, 1, 2, 16, 63, 64, 65, 128, 255] {
            for highest_class in [0, 1, 15, 16, 17, 128, 255] {
                let needs = [0, 1, 0x8000, 0xFFFF][profiles.len() % 4];
                profiles.push(Profile { subjects, objects, highest_class, needs });
            }
        }
    }
    profiles
}

/// Each function under each profile: with what every profile in its ranges accepts, with another length, and with a stray bit.
fn cases() -> Vec<Case> {
    let empty = [vec![0; TABLE_BYTES], image(&Monitor::empty())];
    let mut cases = Vec::new();
    for (at, profile) in profiles_tried().into_iter().enumerate() {
        for function in [START, OPEN, DISTINGUISH] {
            let good = &empty[usize::from(function != START)];
            let mut stray = good.clone();
            stray[at % good.len()] |= 1;
            for buffer in [good.clone(), good[1..].to_vec(), stray] {
                let other = if at % 2 == 0 { good.clone() } else { Vec::new() };
                cases.push(Case { function, profile, buffers: [buffer, other] });
            }
        }
    }
    cases
}

#[test]
fn a_profile_outside_its_ranges_is_refused_with_16_before_anything_else_is_read() {
    let program = compiled_here("profile", env!("CARGO_TARGET_TMPDIR"), &["-O1"]);
    let (cases, mut met) = (cases(), Met::default());
    let input: Vec<u8> = cases.iter().flat_map(Case::bytes).collect();
    let output = fed(&mut Command::new(program), &input).stdout;
    let mut rest = &output[..];
    for case in &cases {
        let (number, bytes) = case.expected();
        let length = if case.function == DISTINGUISH { DISTINGUISH_BYTES } else { UNIT_BYTES };
        let (found, behind) = rest.split_at(1 + length);
        let what = format!("function {}, {:?}, {} bytes", case.function, case.profile, case.buffers[0].len());
        assert_eq!(found[0], number, "{what}");
        assert!(found[1..] == bytes, "{what}: returns {number}, and a byte is not as it should be");
        met.note(format!("function {}: {number}", case.function));
        // the type of the bindings has the same ranges
        assert_eq!(profiles::proved(case.profile).is_some(), case.profile.is_in_range(), "{what}");
        rest = behind;
    }
    assert!(rest.is_empty() && IMAGE_BYTES < 1 << 16);
    println!("{} cases: {met:#?}", cases.len());
    met.check(500, &["function 0: 16", "function 1: 16", "function 2: 16"]);
    met.check(20, &["function 0: 0", "function 0: 10", "function 0: 11", "function 1: 0", "function 1: 10"]);
    met.check(20, &["function 1: 11", "function 2: 0", "function 2: 138", "function 2: 139", "function 2: 202"]);
}
