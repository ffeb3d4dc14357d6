//! How long it takes to see that bytes are a path, by the characters that they have: one path, whose check
//! is most of an `exists` over nothing, and a listing with many names, of which each call checks every one.

use std::hint::black_box;

use differential::listing::{Kind, Tree, bytes};
use overlay::{EMPTY_LISTING, raw};

use crate::{short, timed, walks::node};

/// What the names are made of: one character again and again, but for `Straße`.
const NAMES: [(&str, &str); 5] = [
    ("ASCII", "a"),
    ("`Straße`: one character of two bytes among five of ASCII", "Straße"),
    ("characters of two bytes", "é"),
    ("characters of three bytes", "線"),
    ("characters of four bytes", "🚋"),
];

/// Bytes of a component of the path, and of a name in the listing.
const COMPONENT: usize = 252;
const NAME: usize = 36;

/// The size of the listing, how often a call is timed, and how many paths are asked for at a time.
const LISTING: usize = 256 << 10;
const ROUNDS: usize = 200;
const AT_A_TIME: usize = 100;

/// As many of the unit as fit, and ASCII behind them up to the length.
fn filled(unit: &str, length: usize) -> String {
    let times = length / unit.len();
    unit.repeat(times) + &"a".repeat(length - times * unit.len())
}

/// A row: the microseconds of one call, and the nanoseconds for each of its bytes.
fn row(name: &str, bytes: usize, took: f64) {
    println!("| {name} | {bytes} | {} | {:.2} |", short(took), 1000.0 * took / bytes as f64);
}

/// Asks over an empty table; the answer must be this one.
fn exists(listing: &[u8], path: &[u8], answer: u64) {
    let given = raw::exists(black_box(listing), &[], &[0, 0, 0, 40], black_box(path));
    assert_eq!(given, answer, "an answer of this kind");
}

fn path(name: &str, path: &[u8], answer: u64) {
    let took = timed(ROUNDS, || (0..AT_A_TIME).for_each(|_| exists(EMPTY_LISTING, path, answer)));
    row(name, path.len(), took / AT_A_TIME as f64);
}

fn listing(name: &str, unit: &str) {
    let mut tree = Tree::new();
    let record = 19 + 5 + NAME;
    tree.extend((0..LISTING / record).map(|n| (format!("{n:05}{}", filled(unit, NAME)), node(Kind::File))));
    let listing = bytes(&tree);
    row(name, listing.len(), timed(ROUNDS, || exists(&listing, b"q", 0)));
}

pub fn rows() {
    println!("| path of | bytes | exists, us | ns per byte |");
    println!("|---|---|---|---|");
    for (name, unit) in NAMES {
        let component = filled(unit, COMPONENT);
        path(name, format!("{component}/{component}").as_bytes(), 0);
    }
    path("bytes 80 alone, no UTF-8", &[0x80; 2 * COMPONENT + 1], 3);
    println!();
    println!("| listing with names of | bytes | exists, us | ns per byte |");
    println!("|---|---|---|---|");
    for (name, unit) in NAMES {
        listing(name, unit);
    }
}
