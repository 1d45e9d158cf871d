//! The edges of every range and length, the last that is allowed and the first that is not, given to both implementations:
//! subject 15 and 16, object 63 and 64, mode 4 and 5, requests of 5, 6 and 7 bytes, tables of 41, 42 and 43, and buffers of
//! 1,457 and 1,458, for a page of 257 and 258.

use circmon::REQUEST_BYTES;
use reference::{reply, Level, Monitor, IMAGE_BYTES, OBJECTS, SUBJECTS, TABLE_BYTES};
use sidebyside::Both;

const CREATE: u64 = 5;
const GET: u64 = 1;
const GIVE: u64 = 3;

/// What a byte must still have where nothing is written.
const LEFT: u8 = 0xEE;

/// Everyone is enrolled.
fn everyone() -> Both {
    Both::new(Monitor::begin([Some(Level { class: 1, needs: 1 }); SUBJECTS]))
}

/// Six bytes with these fields; class, needs and spare are 0.
fn fields(kind: u64, actor: u64, other: u64, object: u64, mode: u64) -> [u8; REQUEST_BYTES] {
    let word = kind << 44 | actor << 39 | other << 34 | object << 27 | mode << 24;
    word.to_be_bytes()[2..].try_into().unwrap()
}

#[test]
fn subject_15_and_16() {
    let mut both = everyone();
    assert_eq!(both.request(&fields(CREATE, 15, 0, 0, 0)), reply::CHANGED);
    assert_eq!(both.request(&fields(CREATE, 16, 0, 1, 0)), reply::MALFORMED);
    assert_eq!(both.request(&fields(GIVE, 15, 15, 0, 1)), reply::ALREADY);
    assert_eq!(both.request(&fields(GIVE, 15, 14, 0, 1)), reply::CHANGED);
    assert_eq!(both.request(&fields(GIVE, 15, 16, 0, 1)), reply::MALFORMED);
    assert_eq!(both.request(&fields(CREATE, 31, 0, 1, 0)), reply::MALFORMED);
}

#[test]
fn object_63_and_64() {
    let mut both = everyone();
    assert_eq!(both.request(&fields(CREATE, 0, 0, 63, 0)), reply::CHANGED);
    assert_eq!(both.request(&fields(CREATE, 0, 0, 64, 0)), reply::MALFORMED);
    assert_eq!(both.request(&fields(CREATE, 0, 0, 127, 0)), reply::MALFORMED);
    assert!(both.monitor.objects[OBJECTS - 1].is_some());
}

#[test]
fn mode_4_and_5() {
    let mut both = everyone();
    assert_eq!(both.request(&fields(CREATE, 0, 0, 0, 5)), reply::MALFORMED);
    assert_eq!(both.request(&fields(CREATE, 0, 0, 0, 4)), reply::CHANGED);
    assert_eq!(both.request(&fields(GET, 0, 0, 0, 4)), reply::CHANGED);
    for mode in [0, 5, 6, 7] {
        assert_eq!(both.request(&fields(GET, 0, 0, 0, mode)), reply::MALFORMED, "mode {mode}");
    }
}

#[test]
fn requests_of_5_6_and_7_bytes() {
    let mut both = everyone();
    let long = [&fields(CREATE, 0, 0, 0, 0)[..], &[0]].concat();
    assert_eq!(both.request(&long[..5]), reply::MALFORMED);
    assert_eq!(both.request(&long[..7]), reply::MALFORMED);
    assert_eq!(both.request(&long[..6]), reply::CHANGED);
}

#[test]
fn tables_of_41_42_and_43_bytes() {
    let bytes = [&everyone().monitor.table()[..], &[0]].concat();
    for (length, number) in [(41, reply::LENGTH), (42, 0), (43, reply::LENGTH)] {
        assert_eq!(Monitor::from_table(&bytes[..length]).err().unwrap_or(0), number, "{length} bytes");
        let mut buffer = [LEFT; IMAGE_BYTES];
        assert_eq!(circmon::begin(&bytes[..length], &mut buffer), number, "{length} bytes");
        assert_eq!(buffer.iter().all(|&byte| byte == LEFT), number != 0, "{length} bytes: what is left");
    }
    assert_eq!(TABLE_BYTES, 42);
}

#[test]
fn buffers_of_1457_and_1458_bytes() {
    let both = everyone();
    let table = both.monitor.table();
    for (length, number) in [(1402, reply::SHORT_BUFFER), (1457, reply::SHORT_BUFFER), (1458, 0), (1459, 0)] {
        let (mut proved, mut second) = (vec![LEFT; length], vec![LEFT; length]);
        assert_eq!(circmon::begin(&table, &mut proved), number, "{length} bytes");
        assert_eq!(both.monitor.write_image(&mut second), number, "{length} bytes");
        assert_eq!(proved, second, "{length} bytes");
        let kept = if number == 0 { IMAGE_BYTES } else { 0 };
        assert!(proved[kept..].iter().all(|&byte| byte == LEFT), "{length} bytes: what is left");
        let read = if length == 1458 { 0 } else { reply::LENGTH };
        assert_eq!(circmon::read(&proved), read, "{length} bytes");
        assert_eq!(Monitor::from_image(&second).err().unwrap_or(0), read, "{length} bytes");
    }
}

#[test]
fn pages_of_objects_63_and_64_in_257_and_258_bytes() {
    let mut both = everyone();
    assert_eq!(both.request(&fields(CREATE, 0, 0, 63, 0)), reply::CHANGED);
    for (object, length, number) in [
        (63, 257, reply::SHORT_BUFFER),
        (63, 258, 0),
        (63, 259, 0),
        (62, 257, reply::NOT_LIVE),
        (62, 258, reply::NOT_LIVE),
        (64, 257, reply::MALFORMED),
        (64, 258, reply::MALFORMED),
    ] {
        let (mut proved, mut second) = (vec![LEFT; length], vec![LEFT; length]);
        assert_eq!(both.unit.page(object, &mut proved), number, "o{object}, {length} bytes");
        assert_eq!(both.monitor.write_page(object, &mut second), number, "o{object}, {length} bytes");
        assert_eq!(proved, second, "o{object}, {length} bytes");
        let written = if number == 0 { 258 } else { 0 };
        assert!(proved[..written].iter().all(|&byte| byte != LEFT), "o{object}, {length} bytes: what is written");
        assert!(proved[written..].iter().all(|&byte| byte == LEFT), "o{object}, {length} bytes: what is left");
    }
}
