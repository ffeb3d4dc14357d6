//! Files added to and written inside, of whole and of damaged tables and listings: with other numbers of lent bytes
//! than are needed, with offsets at the edges of what 64 bits hold, and around every limit that decides.
//!
//! The answer and every byte of table, record and work buffer must be those of the plain calls (plain.rs).
use std::collections::BTreeMap;

use differential::{
    listing::{self, Kind, tree},
    random::Random,
};
use overlay::{MAX_BUFFER, raw};

use crate::{
    guarded::{Guarded, Side},
    kept::{entry, others},
    plain::{self, After, Given, Refused},
    states::{self, Input, LONG},
};

/// The numbers that append and writing inside can give.
const NUMBERS: [&[u64]; 2] = [&[0, 1, 2, 3, 4, 5, 8, 11, 13, 17], &[0, 1, 2, 3, 5, 11, 13, 18]];

/// What is asked of the file at a path.
#[derive(Clone, Debug)]
enum Asked {
    Append { bytes: Vec<u8> },
    WriteAt { offset: u64 },
}

/// What one call is lent.
#[derive(Clone, Debug)]
struct Lent {
    listing: Vec<u8>,
    table: Vec<u8>,
    record: Vec<u64>,
    work: usize,
    path: Vec<u8>,
    data: Vec<u8>,
    limit: u64,
    asked: Asked,
}

const MTIME: u64 = 0x7ff8_0000_0000_0001;

impl Lent {
    /// A table of these entries with so many bytes behind them, over a listing.
    fn new(listing: Vec<u8>, entries: &[u8], behind: usize) -> Lent {
        let record = plain::record_of(entries, 40).expect("entries in form").to_vec();
        let table = [entries, &vec![0; behind]].concat();
        let work = table.len();
        let asked = Asked::WriteAt { offset: 0 };
        Lent { listing, table, record, work, path: Vec::new(), data: Vec::new(), limit: u64::MAX, asked }
    }

    fn of(input: Input, random: &mut Random) -> Lent {
        let Input { listing, table, record, work, paths: [path, _], data, bytes, numbers, .. } = input;
        let [_, limit, offset] = numbers;
        let asked = if random.one_in(2) { Asked::Append { bytes } } else { Asked::WriteAt { offset } };
        Lent { listing, table, record, work: work.len(), path, data, limit, asked }
    }

    fn given(&self) -> Given<'_> {
        let Lent { listing, table, record, work, path, data, limit, .. } = self;
        Given { listing, table, record, work: *work, path, data, mtime: MTIME, limit: *limit }
    }

    fn plain(&self) -> Result<After, Refused> {
        match &self.asked {
            Asked::Append { bytes } => plain::append(&self.given(), bytes),
            Asked::WriteAt { offset } => plain::write_at(&self.given(), *offset),
        }
    }

    /// Limits around those that could decide.
    fn limits(&self) -> Vec<u64> {
        let before = self.record.get(2).copied().unwrap_or(0);
        // The charge after it, also where the table is too short.
        let mut free = Lent { limit: u64::MAX, work: self.work.saturating_add(64), ..self.clone() };
        free.table.resize(self.table.len() + 64, 0);
        let after = free.plain().map_or(before, |(_, record)| record[2]);
        let bytes = if let Asked::Append { bytes } = &self.asked { bytes.len() } else { 0 };
        let whole = before.saturating_add((bytes + self.data.len()) as u64);
        let near = [before, after, whole].into_iter().flat_map(|limit| [limit.saturating_sub(1), limit]);
        near.chain([0, u64::MAX - 1, u64::MAX]).collect()
    }
}

/// Paths around those of the bases: in form, at its bounds, and out of form.
fn paths() -> Vec<String> {
    let text = "a a-b a/b a/f a/g a/l a/l/x a0 a0/k d d/n g h l l/x n n/x q z z/n é a/ /a . a//b a:";
    let mut paths: Vec<String> = text.split(' ').map(str::to_owned).collect();
    paths.extend([String::new(), LONG.to_owned(), format!("{LONG}n")]);
    paths
}

/// Listed files of several sizes, one of them too long to be lent, and over them entries of every kind.
fn small() -> Lent {
    let mut tree = tree("a/ a-b a/b a/f a/l@ a0/ l@ z é");
    let sizes = [3, 5, 0, 7, i64::MAX];
    for (node, size) in tree.values_mut().filter(|node| node.kind == Kind::File).zip(sizes) {
        node.size = size;
    }
    let entries = [
        entry(b"a/b", 4, b"", 0, 0),
        entry(b"a/g", 2, b"a-b", 7, 3),
        entry(b"a0/k", 1, b"", 7, 0),
        entry(b"d", 3, b"", 7, 0),
        entry(b"d/n", 1, b"track", 7, 0),
        entry(b"h", 2, b"z", 7, i64::MAX as u64),
        entry(b"n", 1, b"xy", 7, 0),
        entry(b"q", 4, b"", 0, 0),
    ];
    Lent::new(listing::bytes(&tree), &entries.concat(), 6)
}

/// Bodies on both sides of the multiples of 16 that are charged (#107), own ones and listed paths, with room to grow.
fn sixteens() -> Lent {
    let mut tree = tree("0123456789abcdef 0123456789abcdefg z");
    for (node, size) in tree.values_mut().zip([1, 0, 7]) {
        node.size = size;
    }
    let entries = [
        entry(b"a", 1, &[7; 32], 7, 0),
        entry(b"a-b", 2, b"0123456789abcdef", 7, 1),
        entry(b"a0", 2, b"0123456789abcdefg", 7, 0),
        entry(b"d", 3, b"", 7, 0),
        entry(b"d/n", 1, &[7; 15], 7, 0),
        entry(b"g", 1, &[7; 17], 7, 0),
        entry(b"l", 1, b"", 7, 0),
        entry(b"n", 1, &[7; 16], 7, 0),
        entry(b"q", 4, b"", 0, 0),
    ];
    Lent::new(listing::bytes(&tree), &entries.concat(), 20)
}

/// A table that no call builds: entries over links and below them, below files, and below nothing.
fn elsewhere() -> Lent {
    let entries = [
        entry(b"a", 4, b"", 0, 0),
        entry(b"a/l", 1, b"on a link", 0, 0),
        entry(b"l", 3, b"", 0, 0),
        entry(b"l/x", 1, b"", 0, 0),
        entry(b"n/x", 1, b"below nothing", 0, 0),
        entry(b"z", 2, b"not listed", 0, 2),
        entry(b"z/n", 1, b"", 0, 0),
    ];
    Lent::new(listing::bytes(&tree("a/ a/f a/l@ l@ z")), &entries.concat(), 3)
}

/// Memory for what is lent, and how many calls of each sort gave each number.
struct Contents {
    random: Random,
    listing: Guarded,
    table: Guarded,
    record: Guarded,
    work: Guarded,
    path: Guarded,
    data: Guarded,
    bytes: Guarded,
    counts: [BTreeMap<u64, u64>; 2],
}

impl Contents {
    /// For buffers of at most so many bytes.
    fn new(seed: u64, bytes: usize) -> Contents {
        let new = || Guarded::new(bytes);
        let (record, path) = (Guarded::new(64), Guarded::new(1024));
        let (listing, table, work, data, bytes) = (new(), new(), new(), new(), new());
        let counts = Default::default();
        Contents { random: Random::new(seed), listing, table, record, work, path, data, bytes, counts }
    }

    fn calls(&self) -> u64 {
        self.counts.iter().flat_map(BTreeMap::values).sum()
    }

    /// Makes the call, and compares the answer and every byte.
    fn call(&mut self, lent: &Lent) {
        let sides = [(); 7].map(|()| if self.random.one_in(4) { Side::Start } else { Side::End });
        let old = vec![self.random.number() as u8; lent.work];
        let listing = self.listing.seal(&lent.listing, sides[0]);
        let path = self.path.seal(&lent.path, sides[1]);
        let data = self.data.seal(&lent.data, sides[2]);
        let table = self.table.hold(&lent.table, sides[3]);
        let record = self.record.hold(&lent.record, sides[4]);
        let work = self.work.hold(&old, sides[5]);
        let mut held = raw::Lent { table, record, work };
        let (sort, answer) = match &lent.asked {
            Asked::Append { bytes } => {
                let bytes = self.bytes.seal(bytes, sides[6]);
                (0, raw::append_bytes(listing, &mut held, path, data, bytes, MTIME, lent.limit))
            }
            Asked::WriteAt { offset } => {
                (1, raw::write_file_at(listing, &mut held, path, data, *offset, MTIME, lent.limit))
            }
        };
        let (number, length, (table, record), work) = match lent.plain() {
            Ok(after) => (0, lent.data.len(), after, vec![0; lent.work]),
            Err((number, length)) => (number, length, (lent.table.clone(), lent.record.clone()), old),
        };
        *self.counts[sort].entry(number).or_default() += 1;
        let told = || format!("{answer:#x} for {}", format!("{lent:?}").chars().take(6000).collect::<String>());
        assert!(answer == number | (length as u64) << 16, "not {number} with {length}: {}", told());
        assert!(*held.table == table && *held.record == record, "table or record: {}", told());
        assert!(*held.work == work, "the work buffer: {}", told());
    }

    /// Both calls at each path: with numbers of lent bytes around those of every file, and with offsets around the end
    /// and at the edges, each at the limits that could decide.
    fn whole(&mut self, base: &Lent) {
        for path in paths() {
            for data in [&b""[..], b"k", b"three", b"sixteen bytes..."] {
                let lent = Lent { path: path.clone().into(), data: data.to_vec(), ..base.clone() };
                let appends = (0..10).map(|count| Asked::Append { bytes: vec![b'L'; count] });
                let near = (0..18).chain([1 << 24, 1 << 32, 1 << 63]).chain((0..8).map(|below| u64::MAX - below));
                let asked: Vec<Asked> = appends.chain(near.map(|offset| Asked::WriteAt { offset })).collect();
                for asked in asked {
                    self.at_limits(&Lent { asked, ..lent.clone() });
                }
            }
        }
    }

    fn at_limits(&mut self, lent: &Lent) {
        for limit in lent.limits() {
            self.call(&Lent { limit, ..lent.clone() });
        }
    }

    /// A call of either sort with what it may need.
    fn any(&mut self, lent: &Lent) {
        let needed = plain::needed(&lent.given()).filter(|needed| *needed < 100).unwrap_or(0) as usize;
        let random = &mut self.random;
        let length = random.below(8);
        let data = random.bytes(length);
        let count = if random.one_in(4) { random.below(10) } else { needed };
        let asked = if random.one_in(2) {
            Asked::Append { bytes: random.bytes(count) }
        } else {
            Asked::WriteAt { offset: random.below(10) as u64 }
        };
        let lent = Lent { data, asked, ..lent.clone() };
        let limits = lent.limits();
        let limit = if self.random.one_in(4) { *self.random.pick(&limits) } else { u64::MAX };
        self.call(&Lent { limit, ..lent });
    }

    /// Each byte of one buffer changed in turn, and the buffer cut at each length; all paths get their turns.
    fn changed(&mut self, base: &Lent, buffer: fn(&mut Lent) -> &mut Vec<u8>, all: bool) {
        let paths = paths();
        let mut turns = paths.iter().cycle().map(|path| Lent { path: path.clone().into(), ..base.clone() });
        for at in 0..buffer(&mut base.clone()).len() {
            for byte in others(buffer(&mut base.clone())[at], all) {
                let mut lent = turns.next().expect("paths");
                buffer(&mut lent)[at] = byte;
                self.any(&lent);
            }
            let mut lent = turns.next().expect("paths");
            buffer(&mut lent).truncate(at);
            self.any(&lent);
        }
    }

    /// Each byte of each path changed in turn, but for those far behind in a long one; each number of the record, its
    /// length, and the work buffer's.
    fn changed_rest(&mut self, base: &Lent, all: bool) {
        for path in paths() {
            let lent = Lent { path: path.clone().into(), ..base.clone() };
            for at in 0..path.len().min(20) {
                for byte in others(path.as_bytes()[at], all) {
                    let mut lent = lent.clone();
                    lent.path[at] = byte;
                    self.any(&lent);
                }
            }
            for (at, number) in base.record.iter().enumerate() {
                for other in [0, 1, number.wrapping_add(1), number.wrapping_sub(1), 1 << 32, u64::MAX] {
                    let mut lent = lent.clone();
                    lent.record[at] = other;
                    self.any(&lent);
                }
            }
            for length in 0..7 {
                let mut lent = lent.clone();
                lent.record.resize(length, 0);
                self.any(&lent);
            }
            for work in [0, base.work - 1, base.work + 1] {
                self.any(&Lent { work, ..lent.clone() });
            }
            // The table's buffer as long as its entries, and with a few bytes more.
            for behind in 0..8 {
                let mut lent = lent.clone();
                lent.table.resize(base.record[0] as usize + behind, 0);
                self.any(&lent);
            }
        }
    }

    /// What calls built, with one thing changed in turn and at random, and as it is.
    fn made(&mut self) {
        let base = states::built(&mut self.random);
        for input in states::byte_by_byte(&base, &mut self.random) {
            let lent = Lent::of(input, &mut self.random);
            self.call(&lent);
            let input = states::at_random(&base, &mut self.random);
            let lent = Lent::of(input, &mut self.random);
            self.call(&lent);
            self.at_a_file(&base);
        }
    }

    /// A call at a path that has an entry or is listed, of the state as it is.
    fn at_a_file(&mut self, base: &Input) {
        let entries = base.record.first().and_then(|used| base.table.get(..*used as usize)).unwrap_or_default();
        let all = plain::named(&base.listing, entries);
        let path = if all.is_empty() { Vec::new() } else { self.random.pick(&all).clone().into_bytes() };
        let lent = Lent::of(base.clone(), &mut self.random);
        let work = lent.table.len();
        self.any(&Lent { path, work, ..lent });
    }

    /// A table and a file near the bound of 16 MiB.
    fn large(&mut self) {
        let mut tree = tree("f z");
        for (path, size) in [("f", 1 << 22), ("z", 3)] {
            tree.get_mut(path).expect("listed").size = size;
        }
        let entries = [entry(b"n", 1, &vec![7; 1 << 23], 0, 0)].concat();
        let behind = MAX_BUFFER - entries.len();
        let base = Lent::new(listing::bytes(&tree), &entries, behind);
        let fits = (behind - 25) as u64;
        let ask = |path: &str, asked| Lent { path: path.into(), asked, ..base.clone() };
        let whole = Asked::Append { bytes: vec![b'L'; 1 << 22] };
        self.call(&ask("f", whole.clone()));
        let data = vec![1; behind - 25 - (1 << 22)];
        self.call(&Lent { data: data.clone(), ..ask("f", whole.clone()) });
        self.call(&Lent { data: [&data[..], &[1]].concat(), ..ask("f", whole) });
        self.call(&ask("f", Asked::Append { bytes: vec![b'L'; (1 << 22) + 1] }));
        for end in [fits + 25 + (1 << 23), fits + 26 + (1 << 23)] {
            self.call(&ask("n", Asked::WriteAt { offset: end }));
        }
        let data = vec![2; 1 << 22];
        self.call(&Lent { data, ..ask("n", Asked::WriteAt { offset: 1 << 21 }) });
        let longer = [&base.table[..], &[0]].concat();
        self.call(&Lent { work: longer.len(), table: longer, ..ask("n", Asked::WriteAt { offset: 0 }) });
    }
}

/// Makes both calls on three bases with every change to them, and then on at least so many inputs that were made, and
/// prints how many gave each number. Each byte of a base gets every other value only in the long run.
pub fn run(seed: u64, calls: u64, long: bool) {
    let mut contents = Contents::new(seed, 8192);
    for base in [small(), sixteens(), elsewhere()] {
        contents.whole(&base);
        contents.changed(&base, |lent| &mut lent.listing, long);
        contents.changed(&base, |lent| &mut lent.table, long);
        contents.changed_rest(&base, long);
    }
    let enough = contents.calls() + calls;
    while contents.calls() < enough {
        contents.made();
    }
    let mut large = Contents::new(seed, MAX_BUFFER + 4096);
    large.large();
    let wanted = [BTreeMap::from([(0, 2), (13, 1), (17, 1)]), BTreeMap::from([(0, 2), (1, 1), (13, 1)])];
    assert_eq!(large.counts, wanted, "the large ones");
    println!("contents: {} calls", contents.calls() + large.calls());
    for (sort, name) in ["append", "write_at"].into_iter().enumerate() {
        let counts = &contents.counts[sort];
        assert!(counts.keys().eq(NUMBERS[sort]), "the numbers {:?}, not {:?}", counts.keys(), NUMBERS[sort]);
        let each: Vec<String> = counts.iter().map(|(number, count)| format!("{count} with {number}")).collect();
        println!("  {name}: {}", each.join(", "));
    }
    println!("each answer and each byte of table, record and work buffer is that of the plain calls");
}
