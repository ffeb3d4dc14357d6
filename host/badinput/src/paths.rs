//! Which bytes are a path: every string of one and of two bytes, and those of three and four bytes that stand at an edge
//! of UTF-8's ranges or of a path's form. The long run has every string of three bytes, and of four bytes all whose last
//! two are at an edge. Each is put to `exists` over an empty table and an empty listing, before a page that may not be
//! touched: it is refused with 3, or the answer is no, as the plain form of a path says.
use overlay::{EMPTY_LISTING, raw};

use crate::{
    guarded::{Guarded, Side},
    plain,
};

/// The first and the last byte of each range in RFC 3629's grammar and those right beside them; the bytes that a path
/// forbids, dot and slash; and a letter.
const EDGES: [u8; 30] = [
    0x00, 0x01, b'.', b'/', b':', b'\\', b'a', 0x7F, 0x80, 0x8F, 0x90, 0x9F, 0xA0, 0xBF, 0xC0, 0xC1, 0xC2, 0xDF, 0xE0,
    0xE1, 0xEC, 0xED, 0xEE, 0xEF, 0xF0, 0xF1, 0xF3, 0xF4, 0xF5, 0xFF,
];

/// The bytes of ASCII that may stand in a component: not byte 0, slash, backslash and colon. The characters of two bytes;
/// and those of three, without what would be overlong and without the surrogates.
const ASCII: u64 = 128 - 4;
const TWO: u64 = 30 * 64;
const THREE: u64 = 16 * 64 * 64 - 32 * 64 - 32 * 64;

/// How many strings of one, two and three bytes are a path. Of one: ASCII but for a dot. Of two: ASCII but for two dots,
/// and the characters of two. Of three: ASCII in one component, or but for dots on both sides of a slash; a character of
/// two before or behind ASCII; and the characters of three.
const PATHS: [u64; 3] =
    [ASCII - 1, ASCII * ASCII - 1 + TWO, ASCII * ASCII * ASCII + (ASCII - 1) * (ASCII - 1) + 2 * TWO * ASCII + THREE];

/// Asks for every string that has at each place a byte of the list for that place. How many were asked for, and how many
/// of them are a path.
fn asked(memory: &mut Guarded, places: &[&[u8]]) -> [u64; 2] {
    let mut counts = [0; 2];
    let mut bytes = vec![0; places.len()];
    for number in 0..places.iter().map(|place| place.len()).product() {
        let mut rest: usize = number;
        for (byte, place) in bytes.iter_mut().zip(places) {
            *byte = place[rest % place.len()];
            rest /= place.len();
        }
        let is_path = plain::formed(&bytes).is_some();
        let answer = raw::exists(EMPTY_LISTING, &[], &[0, 0, 0, 40], memory.hold(&bytes, Side::End));
        assert_eq!(answer, if is_path { 0 } else { 3 }, "{bytes:02X?}");
        counts = [counts[0] + 1, counts[1] + u64::from(is_path)];
    }
    counts
}

/// Asks for the strings, and prints how many there were and how many of them are a path.
pub fn run(long: bool) {
    let every: Vec<u8> = (0..=255).collect();
    let (every, edges) = (&every[..], &EDGES[..]);
    let mut memory = Guarded::new(4);
    let mut print = |places: &[&[u8]]| {
        let [strings, paths] = asked(&mut memory, places);
        println!("  of {}: {strings}, of these a path {paths}", places.len());
        paths
    };
    println!("paths: strings of bytes");
    assert_eq!([print(&[every]), print(&[every; 2])], PATHS[..2], "as many as there are");
    if long {
        assert_eq!(print(&[every; 3]), PATHS[2], "as many as there are");
        print(&[every, every, edges, edges]);
    } else {
        print(&[edges; 3]);
        print(&[edges; 4]);
    }
    println!("each is a path, or refused with 3, as the plain form of a path says");
}
