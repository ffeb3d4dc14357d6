//! Kept files, whole and damaged, put to their reader, and tables with listings to their writer.
//!
//! Each answer must be that of the plain reader or writer (plain.rs), which has the number, the table, the record, the
//! place and the file. Refused, every buffer is as it was. What was read is a table and a listing by the library's own
//! checks, and written again it is the file.
use std::collections::BTreeMap;

use differential::{
    listing::{self, tree},
    random::Random,
};
use overlay::{KEPT_ENTRY_SIZE, KEPT_OVERHEAD, MAX_BUFFER, Overlay, raw};

use crate::{
    guarded::{Guarded, Side},
    plain,
    states::{self, Input, LONG},
};

/// The numbers that the reader and the writer can give.
const READ: [u64; 5] = [0, 1, 13, 14, 15];
const WRITTEN: [u64; 5] = [0, 1, 2, 13, 16];

/// A listing, and the entries of a table over it.
struct Base {
    listing: Vec<u8>,
    entries: Vec<u8>,
}

impl Base {
    fn file(&self) -> Vec<u8> {
        plain::file(&self.listing, &self.entries)
    }
}

/// An entry's bytes.
pub fn entry(key: &[u8], kind: u16, body: &[u8], mtime: u64, size: u64) -> Vec<u8> {
    let mut bytes = (key.len() as u16).to_le_bytes().to_vec();
    bytes.extend(kind.to_le_bytes());
    bytes.extend((body.len() as u32).to_le_bytes());
    bytes.extend(mtime.to_le_bytes());
    bytes.extend(size.to_le_bytes());
    bytes.extend(key);
    bytes.extend(body);
    bytes
}

/// A directory, a file and a link, and over them entries of every kind that calls made.
fn small() -> Base {
    let listing = listing::bytes(&tree("a/ a/f l@"));
    let mut plan = Overlay::open(500, KEPT_ENTRY_SIZE).expect("opened");
    plan.rename(&listing, "a", "b", u64::MAX).expect("moved");
    plan.write_bytes(&listing, "b/g", b"own", 7.0, u64::MAX).expect("written");
    let entries = plan.table()[..plan.record().used as usize].to_vec();
    Base { listing, entries }
}

/// The shortest file.
fn empty() -> Base {
    Base { listing: overlay::EMPTY_LISTING.to_vec(), entries: Vec::new() }
}

/// Paths at the bounds of their form: a component of 255 bytes, 512 bytes, 32 components, characters of 2 to 4 bytes.
fn bounds() -> Base {
    let (longest, deepest) = (format!("{LONG}/{}/n", &LONG[1..]), vec!["c"; 32].join("/"));
    assert_eq!(longest.len(), 512);
    let entries = [
        entry(deepest.as_bytes(), 1, b"\x00\xff", u64::MAX, 0),
        entry(longest.as_bytes(), 2, "é/€".as_bytes(), 1, i64::MAX as u64),
        entry("é".as_bytes(), 3, b"", 1 << 63, 0),
        entry("😀".as_bytes(), 4, b"", 0, 0),
    ];
    Base { listing: listing::bytes(&tree(&format!("{LONG}/ é/ é/€ 😀@"))), entries: entries.concat() }
}

/// What calls built over a small listing, its table made one of entry size 40, or left as it is.
fn built(random: &mut Random) -> Input {
    let mut input = states::built(random);
    if !random.one_in(4) {
        let [_, count, charge, entry_size] = &mut input.record[..] else { unreachable!("four numbers") };
        *charge = *charge - *count * *entry_size + *count * KEPT_ENTRY_SIZE;
        *entry_size = KEPT_ENTRY_SIZE;
    }
    input
}

/// An entry that is in form, but for one thing at times.
fn made_entry(key: &str, random: &mut Random) -> Vec<u8> {
    let kind = 1 + random.below(4) as u16;
    let length = random.below(36);
    let (mut key, mut body) = (key.as_bytes().to_vec(), Vec::new());
    match kind {
        1 => body = random.bytes(length),
        2 => body = states::path(random).into(),
        _ => {}
    }
    let mut mtime = if kind == 4 { 0 } else { random.number() };
    let mut size = if kind == 2 { random.number() >> 1 } else { 0 };
    match random.below(40) {
        0 => return entry(&key, random.number() as u16 % 6, &body, mtime, size),
        1 => states::scramble(&mut key, random),
        2 => states::scramble(&mut body, random),
        3 => mtime = 1 << random.below(64),
        4 => size = 1 << random.below(64),
        _ => {}
    }
    entry(&key, kind, &body, mtime, size)
}

/// A few such entries, in order but for some.
pub fn made_entries(random: &mut Random) -> Vec<u8> {
    let mut keys: Vec<String> = (0..random.below(5)).map(|_| states::path(random)).collect();
    if !random.one_in(8) {
        keys.sort_unstable();
    }
    if !random.one_in(8) {
        keys.dedup();
    }
    keys.iter().flat_map(|key| made_entry(key, random)).collect()
}

/// Other values for a byte: those beside it, its bits flipped, the ends; or all.
pub fn others(byte: u8, all: bool) -> Vec<u8> {
    let mut others: Vec<u8> = if all { (0..=255).collect() } else { (0..8).map(|bit| byte ^ 1 << bit).collect() };
    others.extend([0, 255, byte.wrapping_add(1), byte.wrapping_sub(1)]);
    others.sort_unstable();
    others.dedup();
    others.retain(|other| *other != byte);
    others
}

/// Memory for what the reader and the writer are lent, and how many calls gave each number.
struct Kept {
    random: Random,
    file: Guarded,
    listing: Guarded,
    table: Guarded,
    record: Guarded,
    place: Guarded,
    output: Guarded,
    readings: BTreeMap<u64, u64>,
    writings: BTreeMap<u64, u64>,
}

impl Kept {
    /// For files, listings, tables and outputs of at most so many bytes.
    fn new(seed: u64, bytes: usize) -> Kept {
        Kept {
            random: Random::new(seed),
            file: Guarded::new(bytes),
            listing: Guarded::new(bytes),
            table: Guarded::new(bytes),
            record: Guarded::new(64),
            place: Guarded::new(64),
            output: Guarded::new(bytes),
            readings: BTreeMap::new(),
            writings: BTreeMap::new(),
        }
    }

    fn calls(&self) -> u64 {
        self.readings.values().chain(self.writings.values()).sum()
    }

    fn sides<const N: usize>(&mut self) -> [Side; N] {
        [(); N].map(|()| if self.random.one_in(4) { Side::Start } else { Side::End })
    }

    /// Reads the file with a table, a record and a place of these lengths.
    fn read(&mut self, file: &[u8], room: usize, record_length: usize, place_length: usize) {
        let sides: [Side; 4] = self.sides();
        let (more, old) = (self.random.below(3), self.random.number());
        let (old_table, old_record, old_place) =
            (vec![old as u8; room], vec![old; record_length], vec![old; place_length]);
        let lent = self.file.seal(file, sides[0]);
        let table = self.table.hold(&old_table, sides[1]);
        let record = self.record.hold(&old_record, sides[2]);
        let place = self.place.hold(&old_place, sides[3]);
        let answer = raw::read_kept(lent, table, record, place);

        let start = &file[..file.len().min(1000)];
        let told = || format!("{answer:#x} for {room}, {record_length}, {place_length} and {start:02x?}");
        let wanted = plain::read(file, room, record_length, place_length);
        let number = wanted.as_ref().map_or_else(|number| *number, |_| 0);
        assert!(answer == number, "not {number}: {}", told());
        *self.readings.entry(number).or_default() += 1;
        let Ok(content) = wanted else {
            assert!(table == old_table && record == old_record && place == old_place, "a change: {}", told());
            return;
        };
        let (entries, behind) = table.split_at(content.entries.len());
        assert!(entries == content.entries && behind.iter().all(|byte| *byte == 0), "another table: {}", told());
        assert!(record == content.record, "another record {record:?}: {}", told());
        assert!(
            place == [content.start, content.listing.len()].map(|n| n as u64),
            "another place {place:?}: {}",
            told()
        );
        assert!(
            raw::check_table(table, record) && raw::check_listing(content.listing),
            "no table or no listing: {}",
            told()
        );
        let (table, record) = (table.to_vec(), record.to_vec());
        let again = self.write(content.listing, &table, &record, file.len() + more);
        assert!(again.is_some_and(|again| again == file), "written again it is another file: {start:02x?}");
    }

    /// Writes to an output of this length. The file that is written, if it is.
    fn write(&mut self, listing: &[u8], table: &[u8], record: &[u64], room: usize) -> Option<Vec<u8>> {
        let sides: [Side; 4] = self.sides();
        let old = vec![self.random.number() as u8; room];
        let lent_listing = self.listing.seal(listing, sides[0]);
        let lent_table = self.table.seal(table, sides[1]);
        let lent_record = self.record.seal(record, sides[2]);
        let output = self.output.hold(&old, sides[3]);
        let answer = raw::write_kept(lent_listing, lent_table, lent_record, output);
        self.table.open();
        self.record.open();

        let starts = [listing, table].map(|bytes| &bytes[..bytes.len().min(1000)]);
        let told = || format!("{answer:#x} for {room}, {record:?} and {starts:02x?}");
        let wanted = plain::write(listing, table, record, room);
        *self.writings.entry(wanted.as_ref().map_or_else(|number| *number, |_| 0)).or_default() += 1;
        match wanted {
            Ok(file) => {
                assert!(answer == (file.len() as u64) << 16, "not {}: {}", file.len(), told());
                let (written, behind) = output.split_at(file.len());
                assert!(written == file && behind.iter().all(|byte| *byte == 0), "another file: {}", told());
                Some(file)
            }
            Err(number) => {
                assert!(answer == number, "not {number}: {}", told());
                assert!(output == old, "a change: {}", told());
                None
            }
        }
    }

    /// Reads a file that asks for about so many bytes of table; at times there are too few, or another length is wrong.
    fn try_file(&mut self, file: &[u8], asked: usize) {
        let room = match self.random.below(8) {
            0 => asked.saturating_sub(1),
            1 => self.random.below(asked + 1),
            2 => asked,
            _ => asked + self.random.below(40),
        };
        let lengths = if self.random.one_in(50) { (self.random.below(7), self.random.below(5)) } else { (4, 2) };
        self.read(file, room, lengths.0, lengths.1);
    }

    /// The file itself, with every length of record and place, and with tables around the entries' length.
    fn whole(&mut self, base: &Base) {
        let (file, used) = (base.file(), base.entries.len());
        for (record, place) in (0..7).flat_map(|record| (0..5).map(move |place| (record, place))) {
            for file in [&file[..], &file[..file.len() - 1], &file[1..], b""] {
                self.read(file, used, record, place);
            }
        }
        for room in used.saturating_sub(40)..used + 40 {
            self.read(&file, room, 4, 2);
        }
    }

    /// Each byte changed in turn.
    fn changed(&mut self, base: &Base, all: bool) {
        let mut file = base.file();
        for at in 0..file.len() {
            let byte = file[at];
            for other in others(byte, all) {
                file[at] = other;
                self.try_file(&file, base.entries.len());
            }
            file[at] = byte;
        }
    }

    /// Cut at each length, and with a byte taken out and put in at each place.
    fn cut(&mut self, base: &Base) {
        let (file, used) = (base.file(), base.entries.len());
        for at in 0..=file.len() {
            let (front, behind) = file.split_at(at);
            self.try_file(front, used);
            self.try_file(&[front, behind.get(1..).unwrap_or(b"")].concat(), used);
            for byte in [0, 1, 255, *front.last().unwrap_or(&0), self.random.number() as u8] {
                self.try_file(&[front, &[byte], behind].concat(), used + 1);
            }
        }
    }

    /// Other lengths of listing and entries, those among them at which a sum of 32 bits passes its end; and the listing
    /// ended at each other place, with lengths that fit.
    fn lengths(&mut self, base: &Base) {
        let (file, used) = (base.file(), base.entries.len());
        let near = [0, 1, 8, 9, 13, base.listing.len(), used, file.len(), 1 << 16, MAX_BUFFER, 1 << 31];
        let around = near.iter().flat_map(|n| (0..4).flat_map(move |by| [n + by, n.wrapping_sub(by)]));
        let numbers: Vec<u32> = around.flat_map(|n| [n as u32, (n as u32).wrapping_neg()]).collect();
        for at in [5, 9 + base.listing.len()] {
            for number in &numbers {
                let mut other = file.clone();
                other[at..at + 4].copy_from_slice(&number.to_le_bytes());
                self.try_file(&other, used);
            }
        }
        let joined = [&base.listing[..], &base.entries].concat();
        for at in 0..=joined.len() {
            let (listing, entries) = joined.split_at(at);
            self.try_file(&plain::file(listing, entries), entries.len());
        }
    }

    /// Every damage to one file.
    fn damaged(&mut self, base: &Base, all: bool) {
        self.whole(base);
        self.changed(base, all);
        self.cut(base);
        self.lengths(base);
    }

    /// A file made up, or with several things changed.
    fn at_random(&mut self, base: &Input) {
        let random = &mut self.random;
        let mut listing = base.listing.clone();
        let mut entries = base.table[..base.record[0] as usize].to_vec();
        let length = random.below(200);
        let file = match random.below(6) {
            0 => [&b"OVT\x01\x00"[..], &random.bytes(length)].concat(),
            1 => {
                let mut file = plain::file(&listing, &entries);
                states::scramble(&mut file, random);
                file
            }
            2 => {
                states::scramble(&mut listing, random);
                plain::file(&listing, &entries)
            }
            3 => {
                states::scramble(&mut entries, random);
                plain::file(&listing, &entries)
            }
            _ => {
                entries = made_entries(random);
                plain::file(&listing, &entries)
            }
        };
        self.try_file(&file, entries.len());
    }

    /// Table, record and listing put to the writer, with an output of about the file's length.
    fn try_table(&mut self, input: &Input) {
        let used = input.record.first().map_or(0, |used| (*used).min(input.table.len() as u64) as usize);
        let length = KEPT_OVERHEAD + input.listing.len() + used;
        let room = match self.random.below(6) {
            0 => length - 1,
            1 => self.random.below(length),
            2 => length,
            _ => length + self.random.below(40),
        };
        self.write(&input.listing, &input.table, &input.record, room);
    }

    /// What calls built: its table, record and listing with one thing changed in turn, and at random; and files.
    fn made(&mut self) {
        let base = built(&mut self.random);
        for input in states::byte_by_byte(&base, &mut self.random) {
            self.try_table(&input);
            let input = states::at_random(&base, &mut self.random);
            self.try_table(&input);
            self.at_random(&base);
        }
    }

    /// Tables at their bound of 16 MiB, and an output above it, which has none.
    fn large(&mut self) {
        let (small, one) = (small(), |length: usize| entry(b"o", 1, &vec![0xee; length - 25], 0, 0));
        let file = small.file();
        for file in [&file[..], &file[..50], b"OVT\x02\x00", b""] {
            self.read(file, MAX_BUFFER, 4, 2);
            self.read(file, MAX_BUFFER + 1, 4, 2);
        }
        for length in [MAX_BUFFER, MAX_BUFFER + 1] {
            let file = plain::file(&small.listing, &one(length));
            for room in [MAX_BUFFER - 1, MAX_BUFFER, MAX_BUFFER + 1] {
                self.read(&file, room, 4, 2);
            }
        }
        let body = (MAX_BUFFER as u64 - 25).next_multiple_of(16);
        let record = [MAX_BUFFER as u64, 1, 256 + 1 + KEPT_ENTRY_SIZE + body, KEPT_ENTRY_SIZE];
        for room in [KEPT_OVERHEAD + small.listing.len() + MAX_BUFFER - 1, MAX_BUFFER + (1 << 20)] {
            self.write(&small.listing, &one(MAX_BUFFER), &record, room);
        }
    }

    /// Adds what another run counted.
    fn add(&mut self, other: &Kept) {
        for (counts, others) in [(&mut self.readings, &other.readings), (&mut self.writings, &other.writings)] {
            for (number, count) in others {
                *counts.entry(*number).or_default() += count;
            }
        }
    }
}

/// Prints how many calls gave each number; each that can be given must have been.
fn print(what: &str, counts: &BTreeMap<u64, u64>, numbers: &[u64]) {
    println!("kept files: {} {what}", counts.values().sum::<u64>());
    assert!(counts.keys().eq(numbers), "{what}: the numbers {:?}, not {numbers:?}", counts.keys());
    for (number, count) in counts {
        println!("  {number:2}: {count}");
    }
}

/// Makes every damage to three files and then at least so many calls on what was made, and prints how many gave each
/// number. The bytes of the third file get every other value only in the long run.
pub fn run(seed: u64, calls: u64, long: bool) {
    let mut kept = Kept::new(seed, 8192);
    kept.damaged(&small(), true);
    kept.damaged(&empty(), true);
    kept.damaged(&bounds(), long);
    let enough = kept.calls() + calls;
    while kept.calls() < enough {
        kept.made();
    }
    let mut large = Kept::new(seed, MAX_BUFFER + (1 << 20));
    large.large();
    kept.add(&large);
    print("files put to the reader", &kept.readings, &READ);
    print("tables put to the writer", &kept.writings, &WRITTEN);
    println!("each answer is the plain reader's or writer's; what was read and written again is the file");
}
