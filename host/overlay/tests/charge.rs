//! What a table is charged, with bodies rounded up to a multiple of 16 (#107): bodies of several lengths, files that
//! grow, tables that are read and records that are given.
mod paths;

use overlay::raw::{self, Lent};
use overlay::{EMPTY_LISTING, Overlay, Record, Refusal};
use paths::listing;

const FREE: u64 = u64::MAX;

fn opened(capacity: usize) -> Overlay {
    Overlay::open(capacity, 40).unwrap()
}

/// The call is refused with 11 one below the limit, changing nothing, and accepted at it, which is the charge after it.
fn just(plan: &mut Overlay, limit: u64, call: impl Fn(&mut Overlay, u64) -> Result<u64, Refusal>) {
    let before = plan.clone();
    assert_eq!(call(plan, limit - 1), Err(Refusal::Limit), "one below {limit}");
    assert_eq!((plan.table(), plan.record()), (before.table(), before.record()));
    call(plan, limit).unwrap();
    assert_eq!(plan.record().charge, limit);
}

/// Own files `n`: 256 + 1 + 40 and the body. The bytes in the table are not rounded.
#[test]
fn bodies_of_each_length() {
    for (length, charge) in [(0, 297), (1, 313), (15, 313), (16, 313), (17, 329), (32, 329), (33, 345)] {
        let (mut plan, data) = (opened(25 + length), vec![7; length]);
        just(&mut plan, charge, |plan, limit| plan.write_bytes(EMPTY_LISTING, "n", &data, 0.0, limit));
        let record = Record { used: 25 + length as u64, count: 1, charge, entry_size: 40 };
        assert_eq!(plan.record(), record);
        let longer = plan.append_bytes(EMPTY_LISTING, "n", b"x", b"", 0.0, FREE);
        assert_eq!(longer, Err(Refusal::NoRoom), "the table is full with {length} bytes");
    }
}

/// Each body is rounded by itself.
#[test]
fn several_bodies() {
    let mut plan = opened(512);
    for (path, sum) in [("a", 313), ("b", 626), ("c", 939)] {
        just(&mut plan, sum, |plan, limit| plan.write_bytes(EMPTY_LISTING, path, b"x", 0.0, limit));
    }
    plan.unlink(EMPTY_LISTING, "b", FREE).unwrap();
    assert_eq!(plan.record().charge, 2 * 313 + 297);
}

/// Within its sixteen bytes a file grows at the limit that is its charge.
#[test]
fn growth_within_sixteen_bytes() {
    let mut plan = opened(512);
    plan.write_bytes(EMPTY_LISTING, "n", b"1", 0.0, 313).unwrap();
    for data in [&b""[..], b"2345678", b"90abcdef"] {
        just(&mut plan, 313, |plan, limit| plan.append_bytes(EMPTY_LISTING, "n", data, b"", 0.0, limit));
    }
    assert_eq!(plan.record().used, 25 + 16);
    just(&mut plan, 329, |plan, limit| plan.append_bytes(EMPTY_LISTING, "n", b"g", b"", 0.0, limit));

    plan.write_bytes(EMPTY_LISTING, "n", b"", 0.0, 297).unwrap();
    for (offset, charge) in [(0, 313), (15, 313), (16, 329), (3, 329), (31, 329), (32, 345)] {
        just(&mut plan, charge, |plan, limit| plan.write_file_at(EMPTY_LISTING, "n", b"x", offset, 0.0, limit));
    }
    plan.write_bytes(EMPTY_LISTING, "n", b"", 0.0, 297).unwrap();
    for (offset, charge) in [(0, 297), (1, 313), (16, 313), (17, 329)] {
        just(&mut plan, charge, |plan, limit| plan.write_file_at(EMPTY_LISTING, "n", b"", offset, 0.0, limit));
    }
}

/// A reference is charged its listed path, rounded.
#[test]
fn references() {
    let (sixteen, seventeen) = ("0123456789abcdef", "0123456789abcdefg");
    let listing = listing(&[sixteen, seventeen]);
    for (path, charge) in [(sixteen, 256 + 16 + 40 + 297 + 16), (seventeen, 256 + 17 + 40 + 297 + 32)] {
        just(&mut opened(512), charge, |plan, limit| plan.rename(&listing, path, "b", limit).map(|()| 0));
    }
}

/// Document 01's first case; moving it back plans 2 * 3 + 3 + 256 for the key `b/f` beside the charge, and neither
/// these nor the bytes of the table are rounded.
#[test]
fn there_and_back() {
    let (listing, mut plan) = (listing(&["a/", "a/f", "l@", "z"]), opened(107));
    just(&mut plan, 1208, |plan, limit| plan.rename(&listing, "a", "b", limit).map(|()| 0));
    assert_eq!(plan.record(), Record { used: 107, count: 4, charge: 1208, entry_size: 40 });
    assert_eq!(plan.rename(&listing, "b", "a", 1472), Err(Refusal::Limit));
    plan.rename(&listing, "b", "a", 1473).unwrap();
    assert_eq!(plan.record().charge, 1208);
}

/// What is appended to a moved file has to be free beside the charge as it is, and there it is not rounded.
#[test]
fn appended_to_a_moved_file() {
    let listing = [&b"RDL\x01\0\x01\0\0\0\x01\0\x02"[..], &[0; 16], b"z"].concat();
    for (length, limit, charge) in [(0, 610, 594), (1, 611, 610), (16, 626, 610), (17, 627, 626)] {
        let (mut plan, data) = (opened(512), vec![7; length]);
        plan.rename(&listing, "z", "y", 610).unwrap();
        assert_eq!(plan.append_bytes(&listing, "y", &data, b"", 0.0, limit - 1), Err(Refusal::Limit), "{length}");
        assert_eq!(plan.append_bytes(&listing, "y", &data, b"", 0.0, limit), Ok(length as u64));
        assert_eq!(plan.record().charge, charge);
    }
}

/// A charge that would pass 2^64 − 1 counts as 2^64 − 1.
#[test]
fn the_largest_charge() {
    let mut plan = opened(512);
    plan.write_bytes(EMPTY_LISTING, "n", b"", 0.0, FREE).unwrap();
    for offset in [FREE, FREE - 15, FREE - 16, FREE - 302] {
        for (limit, refusal) in [(FREE, Refusal::NoRoom), (FREE - 1, Refusal::Limit)] {
            let answer = plan.write_file_at(EMPTY_LISTING, "n", b"", offset, 0.0, limit);
            assert_eq!(answer, Err(refusal), "at {offset}, limit {limit}");
        }
    }
    // One byte less is 2^64 − 304, a multiple of 16, and the charge with it 2^64 − 7.
    let (offset, charge) = (FREE - 303, FREE - 6);
    for (limit, refusal) in [(FREE, Refusal::NoRoom), (charge, Refusal::NoRoom), (charge - 1, Refusal::Limit)] {
        assert_eq!(plan.write_file_at(EMPTY_LISTING, "n", b"", offset, 0.0, limit), Err(refusal), "limit {limit}");
    }
    let past = plan.write_file_at(EMPTY_LISTING, "n", b"x", FREE, 0.0, FREE);
    assert_eq!(past, Err(Refusal::RangeTooLarge));
    assert_eq!(plan.record().charge, 297);
}

/// A kept file as it was written when bodies were charged without rounding, byte by byte: over the listing of an empty
/// directory `a` and a file `z` of 5 bytes, an own file `a/n` of 2 bytes, a reference `y` to `z`, and `z` deleted.
fn older() -> (Vec<u8>, Vec<u8>, Vec<u8>) {
    let listing = [
        &b"RDL\x01\0\x02\0\0\0"[..],
        b"\x01\0\x01\0\0\0\0\0\0\xf0\x3f\0\0\0\0\0\0\0\0a",
        b"\x01\0\x02\0\0\0\0\0\0\0\x40\x05\0\0\0\0\0\0\0z",
    ]
    .concat();
    let entries = [
        &b"\x03\0\x01\0\x02\0\0\0\0\0\0\0\0\0\xf0\x3f\0\0\0\0\0\0\0\0a/nhi"[..],
        b"\x01\0\x02\0\x01\0\0\0\0\0\0\0\0\0\0\x40\x05\0\0\0\0\0\0\0yz",
        b"\x01\0\x04\0\0\0\0\0\0\0\0\0\0\0\0\0\0\0\0\0\0\0\0\0z",
    ]
    .concat();
    let file = [b"OVT\x01\0\x31\0\0\0", &listing[..], b"\x50\0\0\0", &entries].concat();
    (file, listing, entries)
}

/// It is read with the new sum, 315 + 313 + 297, is the same when it is written again, and calls go on from it.
#[test]
fn an_older_kept_file() {
    let (file, listing, entries) = older();
    assert_eq!((listing.len(), entries.len()), (0x31, 0x50));
    let (mut plan, part) = Overlay::read_kept(&file, 512).unwrap();
    assert_eq!((part, &plan.table()[..80]), (&listing[..], &entries[..]));
    assert_eq!(plan.record(), Record { used: 80, count: 3, charge: 925, entry_size: 40 });
    assert_eq!(plan.keep(part).unwrap(), file);
    just(&mut plan, 925, |plan, limit| plan.append_bytes(part, "a/n", b" there", b"", 0.0, limit));
}

/// A record with the sum of before is malformed: every call on it is refused with 1, and changes nothing.
#[test]
fn a_record_with_the_old_sum() {
    let (_, listing, entries) = older();
    let (old, new) = ([80, 3, 299 + 2 + 297 + 1 + 297, 40], [80, 3, 925, 40]);
    let mut table = entries.clone();
    table.resize(512, 0);
    let (before, mut work, mut record) = (table.clone(), vec![0x77; 512], old);
    assert!(!raw::check_table(&table, &old) && raw::check_table(&table, &new));
    assert_eq!((raw::exists(&listing, &table, &old, b"y"), raw::exists(&listing, &table, &new, b"y")), (1, 1 << 16));
    assert_eq!(raw::write_kept(&listing, &table, &old, &mut [0x77; 512]), 1);

    let mut lent = Lent { table: &mut table, record: &mut record, work: &mut work };
    assert_eq!(raw::write_bytes(&listing, &mut lent, b"n", b"", 0, FREE), 1);
    assert_eq!(raw::unlink(&listing, &mut lent, b"y", FREE), 1);
    assert_eq!((&table, record), (&before, old));
    assert!(work.iter().all(|byte| *byte == 0x77));

    let mut lent = Lent { table: &mut table, record: &mut record, work: &mut work };
    lent.record.copy_from_slice(&new);
    assert_eq!(raw::unlink(&listing, &mut lent, b"y", FREE), 0);
    assert_eq!(record, [79, 3, 925 - 16, 40]);
    assert_eq!(Overlay::from_parts(before, old.into()).unwrap_err(), Refusal::MalformedTable);
}
