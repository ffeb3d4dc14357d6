//! Directories shown, of whole and of damaged tables and listings, of tables that no call builds, and of any bytes.
//!
//! The answer and every byte of the output must be those of the plain showing (plain.rs); refused, the output is as it
//! was. All else that is lent may not be written.
use std::collections::BTreeMap;

use differential::{
    listing::{self, tree},
    random::Random,
};
use overlay::{MAX_BUFFER, raw};

use crate::{
    guarded::{Guarded, Side},
    kept::{entry, made_entries, others},
    plain,
    states::{self, Input, LONG},
};

/// The numbers that showing can give.
const NUMBERS: [u64; 8] = [0, 1, 2, 3, 4, 5, 7, 13];

/// What one showing is lent beside the output.
#[derive(Clone)]
struct Lent {
    listing: Vec<u8>,
    table: Vec<u8>,
    record: Vec<u64>,
    path: Vec<u8>,
}

impl Lent {
    /// A table of these entries with three bytes behind them, over a listing.
    fn new(listing: Vec<u8>, entries: &[u8]) -> Lent {
        let record = plain::record_of(entries, 40).expect("entries in form").to_vec();
        Lent { listing, table: [entries, &[0; 3]].concat(), record, path: Vec::new() }
    }

    fn of(input: Input) -> Lent {
        let [path, _] = input.paths;
        Lent { listing: input.listing, table: input.table, record: input.record, path }
    }

    fn at(&self, path: &str) -> Lent {
        Lent { path: path.into(), ..self.clone() }
    }
}

/// Paths around those of the bases: in form, at its bounds, and out of form.
fn paths() -> Vec<String> {
    let mut paths: Vec<String> =
        "a a-b a/b a/b/c a/b/c/d a/f a/g a/l a/l/x a0 a0/k a0/k/m l l/x l/x/y q z z/n é é/€ 😀 a/ /a . a//b a:"
            .split(' ')
            .map(str::to_owned)
            .collect();
    paths.extend([
        String::new(),
        LONG.to_owned(),
        format!("{LONG}/{}/n", &LONG[1..]),
        format!("{LONG}/{}", &LONG[1..]),
    ]);
    paths.extend([format!("{LONG}n"), format!("{LONG}/{LONG}/nn")]);
    paths.extend([1, 31, 32, 33].map(|depth| vec!["c"; depth].join("/")));
    paths
}

/// Children with others between them and links, and over them entries of every kind.
fn small() -> Lent {
    let listing = listing::bytes(&tree("a/ a-b a/b/ a/b/c a/f a/l@ a0/ l@ z é"));
    let entries = [
        entry(b"a/b", 4, b"", 0, 0),
        entry(b"a/b/c", 4, b"", 0, 0),
        entry(b"a/f", 1, b"xy", 7, 0),
        entry(b"a/g", 2, b"z", 7, 5),
        entry(b"a0/k", 3, b"", 7, 0),
        entry(b"a0/k/m", 1, b"", 7, 0),
    ];
    Lent::new(listing, &entries.concat())
}

/// A table that no call builds: entries over links and below them, below files, and below nothing.
fn elsewhere() -> Lent {
    let listing = listing::bytes(&tree("a/ a/b/ a/b/c a/f a/l@ l@ z"));
    let entries = [
        entry(b"a", 4, b"", 0, 0),
        entry(b"a/f/x", 1, b"", 0, 0),
        entry(b"a/l", 1, b"", 0, 0),
        entry(b"l", 3, b"", 0, 0),
        entry(b"l/x/y", 3, b"", 0, 0),
        entry(b"q/r", 1, b"", 0, 0),
        entry(b"z", 3, b"", 0, 0),
    ];
    Lent::new(listing, &entries.concat())
}

/// Paths at the bounds of their form.
fn bounds() -> Lent {
    let (longest, deepest) = (format!("{LONG}/{}/n", &LONG[1..]), vec!["c"; 32].join("/"));
    let entries = [
        entry(deepest.as_bytes(), 3, b"", 0, 0),
        entry(longest.as_bytes(), 1, b"", 1, 0),
        entry("é".as_bytes(), 3, b"", 1 << 63, 0),
        entry("é/😀".as_bytes(), 4, b"", 0, 0),
    ];
    let listed = format!("{LONG}/ {LONG}/{}/ é/ é/€ é/😀 😀@", &LONG[1..]);
    Lent::new(listing::bytes(&tree(&listed)), &entries.concat())
}

/// Memory for what is lent, and how many showings gave each number.
struct Shown {
    random: Random,
    listing: Guarded,
    table: Guarded,
    record: Guarded,
    path: Guarded,
    output: Guarded,
    counts: BTreeMap<u64, u64>,
}

impl Shown {
    /// For buffers of at most so many bytes.
    fn new(seed: u64, bytes: usize) -> Shown {
        let new = || Guarded::new(bytes);
        let (record, path) = (Guarded::new(64), Guarded::new(1024));
        let random = Random::new(seed);
        Shown { random, listing: new(), table: new(), record, path, output: new(), counts: BTreeMap::new() }
    }

    fn calls(&self) -> u64 {
        self.counts.values().sum()
    }

    /// Shows the path in an output of this length, and compares the answer and every byte.
    fn show(&mut self, lent: &Lent, room: usize) {
        let sides = [(); 5].map(|()| if self.random.one_in(4) { Side::Start } else { Side::End });
        let old = vec![self.random.number() as u8; room];
        let listing = self.listing.seal(&lent.listing, sides[0]);
        let table = self.table.seal(&lent.table, sides[1]);
        let record = self.record.seal(&lent.record, sides[2]);
        let path = self.path.seal(&lent.path, sides[3]);
        let output = self.output.hold(&old, sides[4]);
        let answer = raw::show(listing, table, record, path, output);

        let (number, length, left) = match plain::show(&lent.listing, &lent.table, &lent.record, &lent.path, room) {
            Ok(mut names) => {
                let length = names.len();
                names.resize(room, 0);
                (0, length, names)
            }
            Err((number, length)) => (number, length, old),
        };
        *self.counts.entry(number).or_default() += 1;
        let start = |bytes: &[u8]| format!("{:02x?}", &bytes[..bytes.len().min(1000)]);
        let told = || {
            let [listing, table, path] = [&lent.listing, &lent.table, &lent.path].map(|bytes| start(bytes));
            format!("{answer:#x} for {room}, {:?}, listing {listing}, table {table}, path {path}", lent.record)
        };
        assert!(answer == number | (length as u64) << 16, "not {number} with {length}: {}", told());
        assert!(*output == left, "the output is {}, not {}: {}", start(output), start(&left), told());
    }

    /// Shows the path in an output of about the length that its names take.
    fn try_path(&mut self, lent: &Lent) {
        let asked = plain::show(&lent.listing, &lent.table, &lent.record, &lent.path, usize::MAX);
        let asked = asked.map_or(3, |names| names.len());
        let room = match self.random.below(6) {
            0 => asked.saturating_sub(1),
            1 => self.random.below(asked + 1),
            2 => asked,
            _ => asked + self.random.below(40),
        };
        self.show(lent, room);
    }

    /// The base itself: every path in every output up to a few bytes more than its names take; records of other lengths.
    fn whole(&mut self, base: &Lent) {
        for path in paths() {
            let lent = base.at(&path);
            let asked = plain::show(&lent.listing, &lent.table, &lent.record, &lent.path, usize::MAX);
            for room in 0..asked.map_or(0, |names| names.len()) + 4 {
                self.show(&lent, room);
            }
            for length in 0..7 {
                let mut other = lent.clone();
                other.record.resize(length, 0);
                self.try_path(&other);
            }
        }
    }

    /// Each byte of one buffer changed in turn, and the buffer cut at each length; all paths get their turns.
    fn changed(&mut self, base: &Lent, buffer: fn(&mut Lent) -> &mut Vec<u8>, all: bool) {
        let paths = paths();
        let mut turns = paths.iter().cycle().map(|path| base.at(path));
        for at in 0..buffer(&mut base.clone()).len() {
            for byte in others(buffer(&mut base.clone())[at], all) {
                let mut lent = turns.next().expect("paths");
                buffer(&mut lent)[at] = byte;
                self.try_path(&lent);
            }
            let mut lent = turns.next().expect("paths");
            buffer(&mut lent).truncate(at);
            self.try_path(&lent);
        }
    }

    /// Each byte of each path changed in turn, but for those far behind in a long one.
    fn changed_paths(&mut self, base: &Lent, all: bool) {
        for path in paths() {
            for at in 0..path.len().min(40) {
                for byte in others(path.as_bytes()[at], all) {
                    let mut lent = base.at(&path);
                    lent.path[at] = byte;
                    self.try_path(&lent);
                }
            }
        }
    }

    /// Each number of the record changed.
    fn changed_record(&mut self, base: &Lent) {
        for (at, number) in base.record.iter().enumerate() {
            for other in [0, 1, number.wrapping_add(1), number.wrapping_sub(1), 1 << 32, u64::MAX] {
                let mut lent = base.at("a");
                lent.record[at] = other;
                self.try_path(&lent);
            }
        }
    }

    /// What calls built, with one thing changed in turn and at random; what they built, and tables made up over the same
    /// listing, shown at paths that may be directories; and any bytes.
    fn made(&mut self) {
        let base = states::built(&mut self.random);
        for input in states::byte_by_byte(&base, &mut self.random) {
            self.try_path(&Lent::of(input));
            let input = states::at_random(&base, &mut self.random);
            self.try_path(&Lent::of(input));
            self.try_directory(Lent::of(base.clone()));
            let entries = made_entries(&mut self.random);
            let record = plain::record_of(&entries, 40).unwrap_or([entries.len() as u64, 1, 300, 40]);
            self.try_directory(Lent { table: entries, record: record.to_vec(), ..Lent::of(base.clone()) });
            self.any_bytes();
        }
    }

    /// Shows one of the paths that may be directories, or a path below one.
    fn try_directory(&mut self, mut lent: Lent) {
        let entries = lent.record.first().and_then(|used| lent.table.get(..*used as usize)).unwrap_or_default();
        let parents = plain::parents(&lent.listing, entries);
        if let Some(at) = self.random.below(parents.len() + 1).checked_sub(1) {
            lent.path = parents[at].clone().into();
        }
        if self.random.one_in(8) {
            lent.path.extend(b"/a");
        }
        self.try_path(&lent);
    }

    /// Bytes and numbers that were not made for anything.
    fn any_bytes(&mut self) {
        let random = &mut self.random;
        let [listing, table, path] = [200, 200, 20].map(|bound| random.below(bound));
        let listing = [&b"RDL\x01\x00"[..random.below(6)], &random.bytes(listing)].concat();
        let (table, path) = (random.bytes(table), random.bytes(path));
        let record = (0..random.below(6)).map(|_| random.number() >> random.below(64)).collect();
        let room = random.below(60);
        self.show(&Lent { listing, table, record, path }, room);
    }

    /// A listing and a table near their bounds, and outputs above them, which have none.
    fn large(&mut self) {
        let count = MAX_BUFFER / 274;
        let names: Vec<String> = (0..count).map(|n| format!("{n:08}{}", &LONG[8..])).collect();
        let listing = listing::bytes(&tree(&names.join(" ")));
        let table: Vec<u8> = (0..count / 2).flat_map(|n| entry(names[2 * n].as_bytes(), 4, b"", 0, 0)).collect();
        let both = Lent::new(listing, &table);
        let left = 257 * (count - count / 2);
        for room in [left - 1, left, MAX_BUFFER + (1 << 20)] {
            self.show(&both, room);
        }
        let one_more = Lent { listing: vec![0; MAX_BUFFER + 1], ..both.clone() };
        self.show(&one_more, 9);
        let mut longest = both.clone();
        for length in [MAX_BUFFER, MAX_BUFFER + 1] {
            longest.table.resize(length, 0);
            self.show(&longest, left);
        }
    }

    /// Adds what another run counted.
    fn add(&mut self, other: &Shown) {
        for (number, count) in &other.counts {
            *self.counts.entry(*number).or_default() += count;
        }
    }
}

/// Shows the paths of three bases with every change to them, and then of at least so many inputs that were made, and
/// prints how many gave each number. Each byte of a base gets every other value only in the long run.
pub fn run(seed: u64, calls: u64, long: bool) {
    let mut shown = Shown::new(seed, 8192);
    for base in [small(), elsewhere(), bounds()] {
        shown.whole(&base);
        shown.changed(&base, |lent| &mut lent.listing, long);
        shown.changed(&base, |lent| &mut lent.table, long);
        shown.changed_paths(&base, long);
        shown.changed_record(&base);
    }
    let enough = shown.calls() + calls;
    while shown.calls() < enough {
        shown.made();
    }
    let mut large = Shown::new(seed, MAX_BUFFER + (1 << 20));
    large.large();
    assert_eq!(large.counts, BTreeMap::from([(0, 3), (1, 1), (2, 1), (13, 1)]), "the large ones");
    shown.add(&large);
    println!("directories: {} shown", shown.calls());
    assert!(shown.counts.keys().eq(&NUMBERS), "the numbers {:?}, not {NUMBERS:?}", shown.counts.keys());
    for (number, count) in &shown.counts {
        println!("  {number:2}: {count}");
    }
    println!("each answer and each byte of the output is the plain showing's");
}
