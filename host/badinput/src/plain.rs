//! A plain reader and a plain writer of kept files, a plain showing of directories, a plain append and a plain writing
//! inside, and the form of a script, from the words of change requests #101 to #103 and #107 and the forms of a
//! listing, a table and a script alone. Nothing of the library is called: they are the opinion that its answers are
//! held against.
use std::{
    borrow::Cow,
    collections::{BTreeMap, BTreeSet},
    str,
};

use differential::model::in_form;

const MIB_16: usize = 16 << 20;

/// "Mark `OVT`, a 16-bit version 1"
const HEAD: &[u8] = b"OVT\x01\x00";

/// "E is 40 and isn't written."
const ENTRY_SIZE: u64 = 40;

/// Bytes that are taken from the front; none where too few are left.
struct Rest<'a>(&'a [u8]);

impl<'a> Rest<'a> {
    fn take(&mut self, length: u64) -> Option<&'a [u8]> {
        let (front, rest) = self.0.split_at_checked(usize::try_from(length).ok()?)?;
        self.0 = rest;
        Some(front)
    }

    /// A little-endian number of so many bytes.
    fn number(&mut self, width: u64) -> Option<u64> {
        Some(self.take(width)?.iter().rev().fold(0, |number, byte| number << 8 | u64::from(*byte)))
    }
}

/// A path in form, the root too.
pub fn formed(bytes: &[u8]) -> Option<&str> {
    str::from_utf8(bytes).ok().filter(|path| in_form(path))
}

/// A path in form that is not the root.
fn path(bytes: &[u8]) -> Option<&str> {
    formed(bytes).filter(|path| !path.is_empty())
}

/// Whether the bytes are a listing.
fn is_listing(bytes: &[u8]) -> bool {
    bytes.len() <= MIB_16 && listed(bytes).is_some()
}

/// The kinds of the listed paths, where the records are in form and end with the bytes.
fn listed(bytes: &[u8]) -> Option<BTreeMap<&str, u64>> {
    Some(records(bytes)?.into_iter().map(|(path, (kind, _))| (path, kind)).collect())
}

/// The kinds and sizes of the listed paths, in the same way.
fn records(bytes: &[u8]) -> Option<BTreeMap<&str, (u64, i64)>> {
    let (mut rest, mut records) = (Rest(bytes), BTreeMap::new());
    if (rest.take(3)?, rest.number(2)?) != (b"RDL", 1) {
        return None;
    }
    for _ in 0..rest.number(4)? {
        let (length, kind, mtime, size) = (rest.number(2)?, rest.number(1)?, rest.number(8)?, rest.number(8)? as i64);
        let path = path(rest.take(length)?)?;
        let formed = match kind {
            1 => size == 0,
            2 => size >= 0,
            3 => size == 0 && mtime == 0,
            _ => false,
        };
        let ascends = records.last_key_value().is_none_or(|(last, _)| *last < path);
        let below_directories = path.match_indices('/').all(|(at, _)| records.get(&path[..at]) == Some(&(1, 0)));
        if !(formed && ascends && below_directories) {
            return None;
        }
        records.insert(path, (kind, size));
    }
    rest.0.is_empty().then_some(records)
}

/// "A body's length is now charged rounded up to a multiple of 16; 0 stays 0."
fn charged(body_length: u128) -> u128 {
    body_length.div_ceil(16) * 16
}

/// "A rounded length or sum that would pass 2^64 − 1 counts as 2^64 − 1"
fn cut(sum: u128) -> u64 {
    sum.min(u64::MAX.into()) as u64
}

/// The charge by the rule before #107, of entries in form: no body is rounded.
pub fn unrounded(entries: &[u8], entry_size: u64) -> Option<u64> {
    let charge = |(key, entry): (&str, Held)| 256 + (key.len() + entry.body.len()) as u64 + entry_size;
    Some(bodies(entries)?.into_iter().map(charge).sum())
}

/// The record of a table whose entries are these bytes, where they are entries in form and end with the bytes.
pub fn record_of(entries: &[u8], entry_size: u64) -> Option<[u64; 4]> {
    let (mut rest, mut last, mut count, mut charge) = (Rest(entries), "", 0, 0u128);
    while !rest.0.is_empty() {
        let (key_length, kind, body_length) = (rest.number(2)?, rest.number(2)?, rest.number(4)?);
        let (mtime, size) = (rest.number(8)?, rest.number(8)? as i64);
        let (key, body) = (path(rest.take(key_length)?)?, rest.take(body_length)?);
        let formed = match kind {
            1 => size == 0,
            2 => size >= 0 && path(body).is_some(),
            3 => size == 0 && body.is_empty(),
            4 => size == 0 && body.is_empty() && mtime == 0,
            _ => false,
        };
        if !formed || last >= key {
            return None;
        }
        (last, count) = (key, count + 1);
        charge += u128::from(256 + key_length) + u128::from(entry_size) + charged(body_length.into());
    }
    Some([entries.len() as u64, count, cut(charge), entry_size])
}

/// The entries of a table that agrees with its record.
fn entries<'a>(table: &'a [u8], record: &[u64]) -> Option<&'a [u8]> {
    let &[used, _, _, entry_size] = record else { return None };
    let (entries, behind) = table.split_at_checked(usize::try_from(used).ok()?)?;
    let bounded = table.len() <= MIB_16 && entry_size <= 4096 && behind.iter().all(|byte| *byte == 0);
    (bounded && record_of(entries, entry_size)? == record).then_some(entries)
}

/// The kinds of the keys, of entries in form.
fn held(entries: &[u8]) -> Option<BTreeMap<&str, u64>> {
    Some(bodies(entries)?.into_iter().map(|(key, entry)| (key, entry.kind)).collect())
}

/// An entry without its key.
#[derive(Clone)]
struct Held<'a> {
    kind: u64,
    mtime: u64,
    size: u64,
    body: Cow<'a, [u8]>,
}

/// The entries by their keys, of entries in form.
fn bodies(entries: &[u8]) -> Option<BTreeMap<&str, Held<'_>>> {
    let (mut rest, mut held) = (Rest(entries), BTreeMap::new());
    while !rest.0.is_empty() {
        let (key_length, kind, body_length) = (rest.number(2)?, rest.number(2)?, rest.number(4)?);
        let (mtime, size) = (rest.number(8)?, rest.number(8)?);
        let (key, body) = (path(rest.take(key_length)?)?, rest.take(body_length)?.into());
        held.insert(key, Held { kind, mtime, size, body });
    }
    Some(held)
}

/// What an append and a writing inside are given, but for the lent bytes and the offset.
pub struct Given<'a> {
    pub listing: &'a [u8],
    pub table: &'a [u8],
    pub record: &'a [u64],
    pub work: usize,
    pub path: &'a [u8],
    pub data: &'a [u8],
    pub mtime: u64,
    pub limit: u64,
}

/// A table that a call leaves, up to the last byte of its buffer, and its record.
pub type After = (Vec<u8>, Vec<u64>);

/// The number and the length of a refusal; the path is the first.
pub type Refused = (u64, usize);

/// What is given, read: entries, listed paths and the path.
struct Read<'a> {
    held: BTreeMap<&'a str, Held<'a>>,
    listed: BTreeMap<&'a str, (u64, i64)>,
    path: &'a str,
}

impl<'a> Given<'a> {
    /// Refuses by 1, 2 and 3.
    fn read(&self) -> Result<Read<'a>, Refused> {
        let entries = entries(self.table, self.record).filter(|_| self.work >= self.table.len());
        let held = entries.and_then(bodies).ok_or((1, 0))?;
        let listed = Some(self.listing).filter(|bytes| is_listing(bytes)).and_then(records).ok_or((2, 0))?;
        let path = formed(self.path).ok_or((3, 0))?;
        Ok(Read { held, listed, path })
    }

    /// The table with this content as the path's own file, of so many bytes; refused by 11 and 13.
    fn put(&self, read: &Read, length: u128, content: impl FnOnce() -> Vec<u8>) -> Result<After, Refused> {
        let (key, entry_size) = (read.path.len() as u128, u128::from(self.record[3]));
        let old = read.held.get(read.path).map(|entry| entry.body.len() as u128);
        let (bytes, charge) = (|body| 24 + key + body, |body| 256 + key + entry_size + charged(body));
        if cut(u128::from(self.record[2]) - old.map_or(0, charge) + charge(length)) > self.limit {
            return Err((11, 0));
        }
        if u128::from(self.record[0]) - old.map_or(0, bytes) + bytes(length) > self.table.len() as u128 {
            return Err((13, 0));
        }
        let mut held = read.held.clone();
        held.insert(read.path, Held { kind: 1, mtime: self.mtime, size: 0, body: content().into() });
        let mut table = Vec::new();
        for (key, entry) in held {
            let lengths = [key.len() as u64, entry.kind, entry.body.len() as u64, entry.mtime, entry.size];
            for (number, width) in lengths.into_iter().zip([2, 2, 4, 8, 8]) {
                table.extend(&number.to_le_bytes()[..width]);
            }
            table.extend(key.as_bytes());
            table.extend(entry.body.iter());
        }
        let record = record_of(&table, self.record[3]).expect("entries in form").to_vec();
        table.resize(self.table.len(), 0);
        Ok((table, record))
    }
}

impl Read<'_> {
    /// Refuses as a write does: by a parent, a directory and a link.
    fn writable(&self) -> Result<(), Refused> {
        let length = self.path.len();
        for (at, _) in self.path.match_indices('/') {
            let above = &self.path[..at];
            match (self.held.get(above).map(|entry| entry.kind), self.listed.get(above).map(|(kind, _)| kind)) {
                (Some(3), _) | (None, Some(1)) => {}
                (None, Some(3)) => return Err((4, length)),
                _ => return Err((5, length)),
            }
        }
        let listed = if self.path.is_empty() { Some(1) } else { self.listed.get(self.path).map(|(kind, _)| *kind) };
        match (self.held.get(self.path).map(|entry| entry.kind), listed) {
            (Some(3), _) | (None, Some(1)) => Err((8, length)),
            (None, Some(3)) => Err((4, length)),
            _ => Ok(()),
        }
    }

    /// How many bytes an append needs.
    fn needed(&self) -> u64 {
        match (self.held.get(self.path), self.listed.get(self.path)) {
            (Some(entry), _) if entry.kind == 2 => entry.size,
            (None, Some((2, size))) => *size as u64,
            _ => 0,
        }
    }

    /// The content of the path's own file.
    fn own(&self) -> Option<&[u8]> {
        self.held.get(self.path).filter(|entry| entry.kind == 1).map(|entry| &*entry.body)
    }
}

/// How many bytes an append is to be lent, where its input is in form.
pub fn needed(given: &Given) -> Option<u64> {
    given.read().ok().map(|read| read.needed())
}

/// "For append to a listed file the caller lends its bytes."
pub fn append(given: &Given, lent: &[u8]) -> Result<After, Refused> {
    let read = given.read()?;
    read.writable()?;
    // "Lent bytes whose count isn't the recorded size (0 where no listed file's bytes are needed) are 17 before 11"
    if lent.len() as u64 != read.needed() {
        return Err((17, 0));
    }
    let content = [read.own().unwrap_or(lent), given.data].concat();
    // "The memory checks are those two functions' own": the whole content beside the charge, but for an own file. It is
    // no charge, and is not rounded.
    if read.own().is_none() && given.record[2] + content.len() as u64 > given.limit {
        return Err((11, 0));
    }
    given.put(&read, content.len() as u128, || content)
}

/// "A gap before the offset fills with zeros, in own files only; another path is 5."
pub fn write_at(given: &Given, offset: u64) -> Result<After, Refused> {
    let read = given.read()?;
    let old = read.own().ok_or((5, read.path.len()))?;
    // "an offset whose sum with the data length passes 2^64 − 1 is 18 after 5 and before 11"
    let end = offset.checked_add(given.data.len() as u64).ok_or((18, 0))?;
    let length = u128::from(end).max(old.len() as u128);
    given.put(&read, length, || {
        let byte = |at: usize| match at.checked_sub(offset as usize).and_then(|at| given.data.get(at)) {
            Some(byte) => *byte,
            None => *old.get(at).unwrap_or(&0),
        };
        (0..length as usize).map(byte).collect()
    })
}

/// A step of a script: what it has for its call. The numbers are mtime, limit and offset.
pub struct Step<'a> {
    pub kind: u64,
    pub flags: u64,
    pub parts: [&'a [u8]; 3],
    pub numbers: [u64; 3],
}

/// The steps of a script, where the bytes are one: "TSC1" or "TSC2", a count, and as many steps up to the end.
pub fn script(bytes: &[u8]) -> Option<Vec<Step<'_>>> {
    let (mut rest, mut steps) = (Rest(bytes), Vec::new());
    let wide = match rest.take(4)? {
        b"TSC1" => false,
        b"TSC2" => true,
        _ => return None,
    };
    for _ in 0..rest.number(4)? {
        steps.push(step(&mut rest, wide)?);
    }
    rest.0.is_empty().then_some(steps)
}

/// The next step, where its numbers go together: what its kind has no use for is 0.
fn step<'a>(rest: &mut Rest<'a>, wide: bool) -> Option<Step<'a>> {
    let (kind, flags) = (rest.number(1)?, rest.number(1)?);
    let (first, second, mtime, limit) = (rest.number(2)?, rest.number(4)?, rest.number(8)?, rest.number(8)?);
    let (offset, third) = if wide { (rest.number(8)?, rest.number(4)?) } else { (0, 0) };
    let has_data = [1, 6, 7].contains(&kind);
    let ruled = (1..=if wide { 7 } else { 5 }).contains(&kind)
        && (flags == 0 || kind == 2 && flags < 4)
        && (second == 0 || has_data || kind == 5)
        && (mtime == 0 || has_data || kind == 2)
        && (offset == 0 || kind == 7)
        && (third == 0 || kind == 6);
    let parts = [rest.take(first)?, rest.take(second)?, rest.take(third)?];
    ruled.then_some(Step { kind, flags, parts, numbers: [mtime, limit, offset] })
}

/// What is written for a path in an output of this length, or the refusal's number and length.
pub fn show(listing: &[u8], table: &[u8], record: &[u64], path: &[u8], room: usize) -> Result<Vec<u8>, (u64, usize)> {
    let held = entries(table, record).and_then(held).ok_or((1, 0))?;
    let listed = Some(listing).filter(|bytes| is_listing(bytes)).and_then(listed).ok_or((2, 0))?;
    let path = formed(path).ok_or((3, 0))?;
    // "A file is 7, a missing path 5, for a path without an entry a link at it or on the way 4"
    let link_on_way = path.match_indices('/').any(|(at, _)| listed.get(&path[..at]) == Some(&3));
    let listed_here = if path.is_empty() { Some(&1) } else { listed.get(path) };
    match (held.get(path), listed_here) {
        (Some(3), _) => {}
        (Some(4), _) => return Err((5, path.len())),
        (Some(_), _) => return Err((7, path.len())),
        (None, _) if link_on_way => return Err((4, path.len())),
        (None, Some(1)) => {}
        (None, Some(2)) => return Err((7, path.len())),
        (None, Some(_)) => return Err((4, path.len())),
        (None, None) => return Err((5, path.len())),
    }
    let names = names(&held, &listed, path);
    if names.len() > room { Err((13, 0)) } else { Ok(names) }
}

/// The paths that are listed or have an entry.
pub fn named(listing: &[u8], entries: &[u8]) -> Vec<String> {
    let (listed, held) = (listed(listing).unwrap_or_default(), held(entries).unwrap_or_default());
    let all: BTreeSet<&str> = listed.into_keys().chain(held.into_keys()).collect();
    all.into_iter().map(str::to_owned).collect()
}

/// The paths right above those that are listed or have an entry: what may be a directory.
pub fn parents(listing: &[u8], entries: &[u8]) -> Vec<String> {
    let (listed, held) = (listed(listing).unwrap_or_default(), held(entries).unwrap_or_default());
    let parent = |path: &&str| path.rsplit_once('/').map_or("", |(parent, _)| parent).to_owned();
    let all: BTreeSet<String> = listed.keys().chain(held.keys()).map(parent).collect();
    all.into_iter().collect()
}

/// "every visible child's name, each once, ascending by bytes, each with a 16-bit length before it ... A link that no
/// entry covers is left out."
fn names(held: &BTreeMap<&str, u64>, listed: &BTreeMap<&str, u64>, directory: &str) -> Vec<u8> {
    let from_table = held.iter().filter(|(_, kind)| **kind != 4);
    let from_listing = listed.iter().filter(|(path, kind)| **kind != 3 && !held.contains_key(*path));
    let parts = from_table.chain(from_listing).map(|(path, _)| path.rsplit_once('/').unwrap_or(("", path)));
    let names: BTreeSet<&str> = parts.filter(|(parent, _)| *parent == directory).map(|(_, name)| name).collect();
    names.iter().flat_map(|name| [&(name.len() as u16).to_le_bytes(), name.as_bytes()].concat()).collect()
}

/// The kept file of a listing and entries.
pub fn file(listing: &[u8], entries: &[u8]) -> Vec<u8> {
    let length = |bytes: &[u8]| (bytes.len() as u32).to_le_bytes();
    [HEAD, &length(listing), listing, &length(entries), entries].concat()
}

/// What is written to an output of this length, or the refusal's number.
pub fn write(listing: &[u8], table: &[u8], record: &[u64], room: usize) -> Result<Vec<u8>, u64> {
    let entries = entries(table, record).ok_or(1u64)?;
    if !is_listing(listing) {
        return Err(2);
    }
    // "writing with E other than 40 is 16 after 1 and 2; an output or table buffer too short is 13, last"
    if record[3] != ENTRY_SIZE {
        return Err(16);
    }
    let file = file(listing, entries);
    if file.len() > room { Err(13) } else { Ok(file) }
}

/// What a file holds: the listing and where it starts, the entries and their record.
#[derive(Debug)]
pub struct Content<'a> {
    pub start: usize,
    pub listing: &'a [u8],
    pub entries: &'a [u8],
    pub record: [u64; 4],
}

/// What is read into a table, a record and a place of these lengths, or the refusal's number.
pub fn read(file: &[u8], room: usize, record: usize, place: usize) -> Result<Content<'_>, u64> {
    // "one above 16 MiB is 1, first"
    if room > MIB_16 || record != 4 || place != 2 {
        return Err(1);
    }
    // "A wrong mark or version, or a file too short for them, is 14, any other damage, entries above 16 MiB included,
    // 15 after it"
    let rest = file.strip_prefix(HEAD).ok_or(14u64)?;
    let content = content(rest).ok_or(15u64)?;
    if content.entries.len() > room { Err(13) } else { Ok(content) }
}

/// What stands behind mark and version, where there is no damage.
fn content(behind: &[u8]) -> Option<Content<'_>> {
    let mut rest = Rest(behind);
    let length = rest.number(4)?;
    let start = HEAD.len() + behind.len() - rest.0.len();
    let listing = rest.take(length)?;
    let length = rest.number(4)?;
    let entries = rest.take(length)?;
    let record = record_of(entries, ENTRY_SIZE)?;
    let whole = rest.0.is_empty() && is_listing(listing) && entries.len() <= MIB_16;
    whole.then_some(Content { start, listing, entries, record })
}

#[test]
fn the_request_read_by_hand() {
    let listing = b"RDL\x01\x00\x00\x00\x00\x00";
    let deleted = [&[1, 0, 4][..], &[0; 21], b"d"].concat();
    let whole = file(listing, &deleted);
    assert_eq!(whole.len(), 13 + 9 + 25);
    let content = read(&whole, 25, 4, 2).expect("accepted");
    assert_eq!((content.start, content.listing, content.entries), (9, &listing[..], &deleted[..]));
    assert_eq!(content.record, [25, 1, 297, 40]);
    let number = |file: &[u8], room| read(file, room, 4, 2).err();
    assert_eq!(number(b"", MIB_16 + 1), Some(1));
    assert_eq!(number(b"OVT\x01", 0), Some(14));
    assert_eq!(number(b"OVT\x01\x01", 0), Some(14));
    assert_eq!(number(HEAD, 0), Some(15));
    assert_eq!(number(&[&whole[..], b"\0"].concat(), 0), Some(15));
    assert_eq!(number(&file(b"RDL", &deleted), 0), Some(15));
    assert_eq!(number(&file(listing, &deleted.repeat(2)), 0), Some(15));
    assert_eq!(number(&whole, 24), Some(13));
    assert_eq!(write(listing, &deleted, &[25, 1, 297, 40], whole.len()), Ok(whole.clone()));
    assert_eq!(write(listing, &deleted, &[25, 1, 297, 40], whole.len() - 1), Err(13));
    assert_eq!(write(listing, &deleted, &[25, 1, 298, 41], 0), Err(16));
    assert_eq!(write(b"RDL", &deleted, &[25, 1, 298, 41], 0), Err(2));
    assert_eq!(write(b"RDL", &deleted, &[25, 1, 298, 40], 0), Err(1));
    // Bodies of 0, 1, 16 and 17 bytes; what was written before they were rounded is read with the new sum, which has no
    // part in the file, and a record with the old one is malformed.
    for (length, charge) in [(0, 297), (1, 313), (16, 313), (17, 329)] {
        let own = [&[1, 0, 1, 0, length, 0, 0, 0][..], &[0; 16], b"n", &vec![7; length.into()]].concat();
        let (used, whole) = (25 + u64::from(length), file(listing, &own));
        assert_eq!(read(&whole, own.len(), 4, 2).map(|content| content.record).ok(), Some([used, 1, charge, 40]));
        assert_eq!(write(listing, &own, &[used, 1, charge, 40], whole.len()), Ok(whole.clone()));
        let old = 297 + u64::from(length);
        assert_eq!(unrounded(&own, 40), Some(old));
        let refused = (old != charge).then_some(1);
        assert_eq!(write(listing, &own, &[used, 1, old, 40], whole.len()).err(), refused);
    }
}

#[test]
fn a_directory_shown_by_hand() {
    let record = |path: &str, kind: u8| [&[path.len() as u8, 0, kind][..], &[0; 16], path.as_bytes()].concat();
    let listing =
        [b"RDL\x01\x00\x04\x00\x00\x00", &record("a", 1)[..], &record("a/f", 2), &record("a/l", 3), &record("l", 3)];
    let listing = listing.concat();
    let entry = |key: &str, kind: u8| [&[key.len() as u8, 0, kind][..], &[0; 21], key.as_bytes()].concat();
    let shown = |entries: &[Vec<u8>], path: &str, room| {
        let table = entries.concat();
        let record = record_of(&table, 40).expect("entries in form");
        show(&listing, &table, &record, path.as_bytes(), room)
    };
    assert_eq!(shown(&[], "", 3), Ok(b"\x01\x00a".to_vec()));
    assert_eq!(shown(&[], "", 2), Err((13, 0)));
    assert_eq!(shown(&[entry("a/f", 4), entry("a/g", 1), entry("a/l", 3)], "a", 6), Ok(b"\x01\x00g\x01\x00l".to_vec()));
    assert_eq!(shown(&[entry("a/f", 4)], "a", 0), Ok(Vec::new()));
    for (entries, path, number) in [
        (&[][..], "a/f", 7),
        (&[entry("b", 1)], "b", 7),
        (&[], "b", 5),
        (&[], "a/f/x", 5),
        (&[entry("a", 4)], "a", 5),
        (&[], "l", 4),
        (&[], "a/l/x", 4),
        (&[entry("l", 3)], "l/x", 4),
        (&[entry("l/x", 4)], "l/x", 5),
    ] {
        assert_eq!(shown(entries, path, 9), Err((number, path.len())), "{path}");
    }
    assert_eq!(shown(&[], "a//f", 0), Err((3, 0)));
    assert_eq!(show(b"RDL", b"", &[0, 0, 0, 40], b".", 0), Err((2, 0)));
    assert_eq!(show(b"RDL", b"", &[0, 0, 1, 40], b".", 0), Err((1, 0)));
    assert_eq!(show(&listing, b"", &[0, 0, 0], b"", 9), Err((1, 0)));
}

#[test]
fn contents_changed_by_hand() {
    let record = |path: &str, kind: u8, size: u8| {
        [&[path.len() as u8, 0, kind][..], &[0; 8], &[size, 0, 0, 0, 0, 0, 0, 0], path.as_bytes()].concat()
    };
    let listing = [b"RDL\x01\x00\x03\x00\x00\x00", &record("d", 1, 0)[..], &record("f", 2, 5), &record("l", 3, 0)];
    let listing = listing.concat();
    let entry = |key: &str, kind: u8, size: u8, body: &str| {
        let lengths = [key.len() as u8, 0, kind, 0, body.len() as u8, 0, 0, 0];
        [&lengths[..], &[0; 8], &[size, 0, 0, 0, 0, 0, 0, 0], key.as_bytes(), body.as_bytes()].concat()
    };
    // 24 + 1 + 3, 25, 24 + 1 + 1 and 25 bytes, with 4 more; the charge is 313 + 297 + 313 + 297.
    let table = [entry("n", 1, 0, "abc"), entry("q", 4, 0, ""), entry("r", 2, 5, "f"), entry("s", 3, 0, "")].concat();
    let table = [&table[..], &[0; 4]].concat();
    let numbers = record_of(&table[..104], 40).expect("entries in form");
    assert_eq!(numbers, [104, 4, 1220, 40]);
    let given = |path: &'static str, data: &'static str, limit| Given {
        listing: &listing,
        table: &table,
        record: &numbers,
        work: 108,
        path: path.as_bytes(),
        data: data.as_bytes(),
        mtime: 9,
        limit,
    };
    let appended = |path, data, lent: &str, limit| append(&given(path, data, limit), lent.as_bytes());
    let written = |path, data, offset, limit| write_at(&given(path, data, limit), offset);
    let content = |after: Result<After, Refused>, key: &str| {
        let (table, record) = after.expect("accepted");
        let held = bodies(&table[..record[0] as usize]).expect("entries in form")[key].clone();
        (String::from_utf8(held.body.into_owned()).expect("text"), held.mtime, record[2])
    };
    assert_eq!(content(appended("n", "xy", "", 1220), "n"), ("abcxy".into(), 9, 1220));
    assert_eq!(content(appended("q", "x", "", 1236), "q"), ("x".into(), 9, 1236));
    // The whole content beside the charge is 1225; the charge after it 1220.
    assert_eq!(content(appended("r", "", "12345", 1225), "r"), ("12345".into(), 9, 1220));
    for (path, data, lent, limit, refused) in [
        ("r", "", "12345", 1224, (11, 0)),
        ("q", "x", "", 1235, (11, 0)),
        ("r", "", "1234", 0, (17, 0)),
        ("n", "", "1", 0, (17, 0)),
        ("n", "x", "", 1219, (11, 0)),
        ("n", "12345", "", 1220, (13, 0)),
        ("n", "1234567890123", "", 1220, (13, 0)),
        ("n", "12345678901234", "", 1235, (11, 0)),
        ("n", "12345678901234", "", 1236, (13, 0)),
        ("f", "", "", 0, (17, 0)),
        ("d", "", "1", 0, (8, 1)),
        ("", "", "1", 0, (8, 0)),
        ("l", "", "1", 0, (4, 1)),
        ("l/x", "", "1", 0, (4, 3)),
        ("n/x", "", "1", 0, (5, 3)),
        ("/", "", "1", 0, (3, 0)),
    ] {
        assert_eq!(appended(path, data, lent, limit), Err(refused), "{path} {data} {lent} {limit}");
    }
    assert_eq!(content(written("n", "x", 1, 1220), "n"), ("axc".into(), 9, 1220));
    assert_eq!(content(written("n", "", 5, 1220), "n"), ("abc\0\0".into(), 9, 1220));
    assert_eq!(content(written("n", "xy", 4, 1220), "n"), ("abc\0xy".into(), 9, 1220));
    for (path, data, offset, limit, refused) in [
        ("n", "", 0, 1219, (11, 0)),
        ("n", "x", u64::MAX, 0, (18, 0)),
        ("n", "x", u64::MAX - 1, u64::MAX - 1, (11, 0)),
        ("n", "x", u64::MAX - 1, u64::MAX, (13, 0)),
        ("n", "", u64::MAX, u64::MAX - 1, (11, 0)),
        ("n", "", u64::MAX, u64::MAX, (13, 0)),
        ("n", "x", 7, 1220, (13, 0)),
        ("n", "x", 15, 1220, (13, 0)),
        ("n", "x", 16, 1235, (11, 0)),
        ("n", "x", 16, 1236, (13, 0)),
        ("q", "x", u64::MAX, 0, (5, 1)),
        ("r", "", 0, 0, (5, 1)),
        ("f", "", 0, 0, (5, 1)),
        ("", "", 0, 0, (5, 0)),
        ("/", "", 0, 0, (3, 0)),
    ] {
        assert_eq!(written(path, data, offset, limit), Err(refused), "{path} {data} {offset} {limit}");
    }
    assert_eq!(append(&Given { work: 107, ..given("n", "", 0) }, b"1"), Err((1, 0)));
    assert_eq!(write_at(&Given { listing: b"RDL", ..given(".", "", 0) }, 0), Err((2, 0)));
}

#[test]
fn scripts_by_hand() {
    let is_script = |bytes: &[u8]| script(bytes).is_some();
    let step = |kind: u8, wide: usize| [&[kind, 0, 1, 0][..], &[0; 20], &vec![0; wide], b"a"].concat();
    let of = |mark: &[u8; 4], step: &[u8]| [mark, &[1, 0, 0, 0][..], step].concat();
    for kind in 0..9 {
        assert_eq!(is_script(&of(b"TSC1", &step(kind, 0))), (1..6).contains(&kind), "{kind}");
        assert_eq!(is_script(&of(b"TSC2", &step(kind, 12))), (1..8).contains(&kind), "{kind}");
        assert!(!is_script(&of(b"TSC2", &step(kind, 0))) && !is_script(&of(b"TSC1", &step(kind, 12))));
        for (at, allowed) in [(1, 2..3), (24, 7..8)] {
            let mut changed = step(kind, 12);
            changed[at] = 1;
            assert_eq!(is_script(&of(b"TSC2", &changed)), allowed.contains(&kind), "{kind} {at}");
        }
        let mut lent = [step(kind, 12), b"x".to_vec()].concat();
        lent[32] = 1;
        assert_eq!(is_script(&of(b"TSC2", &lent)), kind == 6, "{kind}");
    }
    assert!(is_script(b"TSC2\0\0\0\0") && !is_script(b"TSC3\0\0\0\0") && !is_script(b"TSC2\0\0\0"));
}
