//! The requests that tell two images apart, carried out on both by the proved monitor and by the second implementation.

use circmon::{distinguish, distinguish_in, DISTINGUISH_BYTES, REQUEST_BYTES};
use reference::{Monitor, Request};

const LEFT: u8 = 0xEE;

/// The requests that tell image a from image b; bytes behind them are left.
pub fn told(a: &[u8], b: &[u8], what: &str) -> Vec<Vec<u8>> {
    let mut buffer = [LEFT; DISTINGUISH_BYTES + 7];
    let number = usize::from(distinguish(a, b, &mut buffer));
    assert!(number <= 4, "{what}: {number}");
    let end = number * REQUEST_BYTES;
    assert!(buffer[end..].iter().all(|&byte| byte == LEFT), "{what}: later bytes are left");
    let mut exact = [LEFT; DISTINGUISH_BYTES];
    assert_eq!(usize::from(distinguish(a, b, &mut exact)), number, "{what}: a buffer of 24 bytes");
    assert_eq!(exact, buffer[..DISTINGUISH_BYTES], "{what}: a buffer of 24 bytes");
    buffer[..end].chunks(REQUEST_BYTES).map(<[u8]>::to_vec).collect()
}

/// The replies of the proved monitor, from an image.
fn proved_replies(image: &[u8], requests: &[Vec<u8>]) -> Vec<u8> {
    let mut image = image.to_vec();
    requests.iter().map(|request| circmon::request(&mut image, request)).collect()
}

/// The replies of the second implementation, from an image.
fn second_replies(image: &[u8], requests: &[Vec<u8>], what: &str) -> Vec<u8> {
    let mut monitor = Monitor::from_image(image).unwrap_or_else(|n| panic!("{what}: refused with {n}"));
    requests.iter().map(|request| monitor.request(request)).collect()
}

/// Two different images get different replies to the requests that tell them apart, the same from both implementations.
/// How many requests these are.
pub fn tells(a: &[u8], b: &[u8], what: &str) -> usize {
    assert_ne!(a, b, "{what}: the images differ");
    let requests = told(a, b, what);
    let (here, there) = (proved_replies(a, &requests), proved_replies(b, &requests));
    assert_ne!(here, there, "{what}: {requests:02x?}");
    assert_eq!(here, second_replies(a, &requests, what), "{what}: {requests:02x?}");
    assert_eq!(there, second_replies(b, &requests, what), "{what}: {requests:02x?}");
    requests.len()
}

/// The requests that tell two states apart under their profile, each inside it.
pub fn told_in(a: &Monitor, b: &Monitor, what: &str) -> Vec<Request> {
    let profile = crate::profiles::proved(a.profile).expect("a profile in its ranges");
    let mut buffer = [LEFT; DISTINGUISH_BYTES];
    let count = usize::from(distinguish_in(profile, &crate::image(a), &crate::image(b), &mut buffer));
    assert!(count <= 4, "{what}: {count}");
    let pieces = buffer[..count * REQUEST_BYTES].chunks(REQUEST_BYTES);
    pieces.map(|piece| a.decode(piece).unwrap_or_else(|| panic!("{what}: {piece:02x?} is outside"))).collect()
}

/// What a state replies to a list.
pub fn replies(monitor: &Monitor, requests: &[Request]) -> Vec<u8> {
    let mut monitor = monitor.clone();
    requests.iter().map(|request| monitor.request(&request.encode())).collect()
}
