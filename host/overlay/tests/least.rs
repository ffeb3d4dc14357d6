//! What would let a rename through: the numbers, each tried with the rename itself, and one less of each; none where
//! nothing would do; a rename that is refused with what it needs; and two numbers that are as they were where the call
//! is refused.
mod paths;

use overlay::{EMPTY_LISTING, Least, MAX_BUFFER, Mkdir, Overlay, OverlayMut, OverlayRef, Record, Refusal, raw};
use paths::listing;
use std::error::Error;

const FREE: u64 = u64::MAX;

/// The paths of document 01's L.
fn l() -> Vec<u8> {
    listing(&["a/", "a/f", "l@", "z"])
}

fn opened(capacity: usize) -> Overlay {
    Overlay::open(capacity, 40).unwrap()
}

/// Over three files in `a`: the directory `b` with three deleted files of the same names, in a buffer of 4,096 bytes.
fn three() -> (Vec<u8>, Overlay) {
    let (listing, mut plan) = (listing(&["a/", "a/f", "a/g", "a/h"]), opened(4096));
    plan.mkdir(&listing, "b", Mkdir::default(), 0.0, FREE).unwrap();
    for path in ["b/f", "b/g", "b/h"] {
        plan.write_bytes(&listing, path, b"w", 0.0, FREE).unwrap();
        plan.unlink(&listing, path, FREE).unwrap();
    }
    assert_eq!(plan.record(), Record { used: 106, count: 4, charge: 1194, entry_size: 40 });
    (listing, plan)
}

/// What the rename answers at this limit, when the same table stands in a buffer of `length` bytes, with a work buffer
/// as long.
fn tried(plan: &Overlay, listing: &[u8], paths: [&str; 2], limit: u64, length: u64) -> Result<(), Refusal> {
    let (mut table, mut record) = (plan.table().to_vec(), plan.record());
    table.resize(length as usize, 0);
    let mut work = vec![0x77; table.len()];
    OverlayMut::new(&mut table, &mut record, &mut work).rename(listing, paths[0], paths[1], limit)
}

/// The two numbers are these; each lets the rename through, one less of it does not, and both together do.
fn needs(plan: &Overlay, listing: &[u8], paths: [&str; 2], limit: u64, length: u64) {
    let (before, all) = (plan.clone(), MAX_BUFFER as u64);
    assert_eq!(plan.least_rename(listing, paths[0], paths[1]), Ok(Some(Least { limit, length })), "{paths:?}");
    assert_eq!((plan.table(), plan.record()), (before.table(), before.record()), "{paths:?}");

    assert_eq!(tried(plan, listing, paths, limit, all), Ok(()), "{paths:?} at {limit}");
    if limit > 0 {
        assert_eq!(tried(plan, listing, paths, limit - 1, all), Err(Refusal::Limit), "{paths:?} at {limit} - 1");
    }
    assert_eq!(tried(plan, listing, paths, FREE, length), Ok(()), "{paths:?} in {length}");
    if length > 0 {
        // A buffer that is shorter than the entries holds no table.
        let used = plan.record().used == length;
        let refusal = if used { Refusal::MalformedTable } else { Refusal::NoRoom };
        assert_eq!(tried(plan, listing, paths, FREE, length - 1), Err(refusal), "{paths:?} in {length} - 1");
    }
    assert_eq!(tried(plan, listing, paths, limit, length), Ok(()), "{paths:?} at {limit} in {length}");
}

/// There are no numbers, and without a limit and in the longest buffer the rename is refused with this.
fn needs_in_vain(plan: &Overlay, listing: &[u8], paths: [&str; 2], number: u8) {
    assert_eq!(plan.least_rename(listing, paths[0], paths[1]), Ok(None), "{paths:?}");
    let refusal = tried(plan, listing, paths, FREE, MAX_BUFFER as u64).unwrap_err();
    assert_eq!(refusal.number(), number, "{paths:?}");
}

#[test]
fn the_numbers() {
    let (listing, plan) = three();
    // The walk decides the first limit, the charge after it the two others.
    needs(&plan, &listing, ["a", "b"], 2751, 221);
    needs(&plan, &listing, ["a", "c"], 3630, 327);
    needs(&plan, &listing, ["b", "c"], 2388, 212);

    let mut plan = opened(512);
    needs(&plan, &l(), ["a", "b"], 1208, 107);
    needs(&plan, &l(), ["z", "y"], 610, 51);
    plan.rename(&l(), "a", "b", FREE).unwrap();
    // What it plans decides.
    needs(&plan, &l(), ["b", "a"], 1473, 107);
    needs(&plan, &l(), ["b", "c"], 1804, 159);
}

/// Onto a long own file: the least limit lies below the charge, and the entries before are longer than those after.
#[test]
fn less_than_now() {
    for (data, charge, length) in [(27, 329, 52), (26, 329, 51), (0, 297, 51), (1000, 1305, 1025)] {
        let mut plan = opened(2000);
        plan.write_bytes(&l(), "b", &vec![7; data], 0.0, FREE).unwrap();
        assert_eq!(plan.record().charge, charge);
        needs(&plan, &l(), ["z", "b"], 610, length);
    }
}

#[test]
fn onto_itself() {
    let mut plan = opened(512);
    needs(&plan, &l(), ["a", "a"], 0, 0);
    needs(&plan, &l(), ["z", "z"], 0, 0);
    plan.rename(&l(), "a", "b", FREE).unwrap();
    for path in ["b", "b/f", "z"] {
        needs(&plan, &l(), [path, path], 0, 107);
    }
    for (path, number) in [("l", 4), ("q", 5), ("a", 5), ("", 4)] {
        needs_in_vain(&plan, &l(), [path, path], number);
    }
}

#[test]
fn nothing_would_do() {
    let (mut plan, linked) = (opened(2000), listing(&["a/", "a/f", "a/l@", "d/", "e", "k/"]));
    for (paths, number) in [
        (["a", "b"], 4),
        (["", "b"], 4),
        (["e", ""], 4),
        (["q", "b"], 5),
        (["e", "q/b"], 5),
        (["d", "e"], 7),
        (["e", "d"], 8),
        (["d", "a"], 9),
        (["d", "d/b"], 10),
    ] {
        needs_in_vain(&plan, &linked, paths, number);
    }
    // The key below `k` has 255 bytes more than `k/`: it fits behind a destination of 256 bytes, and no longer one.
    plan.write_bytes(&linked, format!("k/{}", "x".repeat(255)), b"", 0.0, FREE).unwrap();
    for (length, fits) in [(254, true), (255, false)] {
        let parent = "y".repeat(length);
        plan.mkdir(&linked, &parent, Mkdir::default(), 0.0, FREE).unwrap();
        let destination = format!("{parent}/y");
        if fits {
            assert!(plan.least_rename(&linked, "k", &destination).unwrap().is_some());
            assert_eq!(tried(&plan, &linked, ["k", &destination], FREE, 4096), Ok(()));
        } else {
            needs_in_vain(&plan, &linked, ["k", &destination], 12);
        }
    }
}

/// Entries of 16 MiB and no byte more.
#[test]
fn the_longest_table() {
    let most = MAX_BUFFER - 25;
    for data in [most - 25, most - 24] {
        let mut plan = opened(MAX_BUFFER);
        plan.write_bytes(EMPTY_LISTING, "n", &vec![7; data], 0.0, FREE).unwrap();
        let given = plan.least_rename(EMPTY_LISTING, "n", "m");
        let refused =
            plan.clone().rename_or_least(EMPTY_LISTING, "n", "m", FREE).map_err(|refused| refused.to_string());
        if data == most - 25 {
            let (limit, length) = (data.next_multiple_of(16) as u64 + 2 * 297, MAX_BUFFER as u64);
            assert_eq!((given, refused), (Ok(Some(Least { limit, length })), Ok(())));
        } else {
            let text = "no room in the table or the output (13): no limit and no length would do";
            assert_eq!((given, refused), (Ok(None), Err(text.into())));
        }
    }
}

#[test]
fn a_refused_rename() {
    let (listing, mut plan) = three();
    let before = plan.clone();
    let refused = plan.rename_or_least(&listing, "a", "b", 2750).unwrap_err();
    assert_eq!((refused.refusal, refused.least), (Refusal::Limit, Some(Least { limit: 2751, length: 221 })));
    assert_eq!(refused.to_string(), "limit exceeded (11): needs a limit of at least 2751");
    let refused = plan.rename_or_least(&listing, "b", "q/b", 0).unwrap_err();
    assert_eq!((refused.refusal, refused.least), (Refusal::NotFound { path: 1, len: 3 }, None));
    assert_eq!(refused.to_string(), "not found (5, path 1, length 3)");
    let refused = plan.rename_or_least(&listing, "a/", "b", 0).unwrap_err();
    assert_eq!((refused.to_string(), refused.least), ("path malformed (3, path 0)".into(), None));
    assert_eq!((plan.table(), plan.record()), (before.table(), before.record()));

    let ((mut table, mut record), mut work) = (plan.clone().into_parts(), [0x77; 326]);
    table.truncate(326);
    let mut lent = OverlayMut::new(&mut table, &mut record, &mut work);
    let refused = lent.rename_or_least(&listing, "a", "c", FREE).unwrap_err();
    assert_eq!((refused.refusal, refused.least), (Refusal::NoRoom, Some(Least { limit: 3630, length: 327 })));
    assert_eq!(lent.least_rename(&listing, "a", "c"), Ok(refused.least));
    let refused: Box<dyn Error> = Box::new(refused);
    assert_eq!(refused.to_string(), "no room in the table or the output (13): needs a table of at least 327 bytes");
    assert_eq!(refused.source().unwrap().to_string(), "no room in the table or the output (13)");
    assert!(work.iter().all(|byte| *byte == 0x77), "the work buffer is as it was");

    assert_eq!(plan.rename_or_least(&listing, "a", "b", 2751), Ok(()));
    assert!(plan.is_file(&listing, "b/f").unwrap());
}

/// The walk meets a link, and 11 comes before it.
#[test]
fn a_refused_rename_that_nothing_lets_through() {
    let (mut plan, linked) = (opened(512), listing(&["a/", "a/f", "a/l@"]));
    let refused = plan.rename_or_least(&linked, "a", "b", 520).unwrap_err();
    assert_eq!((refused.refusal, refused.least), (Refusal::Limit, None));
    assert_eq!(refused.to_string(), "limit exceeded (11): no limit and no length would do");
    let refused = plan.rename_or_least(&linked, "a", "b", 521).unwrap_err();
    assert_eq!(refused.to_string(), "link met, or root given (4, path 0, length 1)");
}

#[test]
fn refused() {
    let (listing, plan) = three();
    let record: [u64; 4] = plan.record().into();
    let other = [record[0], record[1], record[2] + 1, record[3]];
    let (table, long) = (plan.table(), vec![0; MAX_BUFFER + 1]);
    let asked = |listing: &[u8], table: &[u8], record: &[u64], paths: [&[u8]; 2], numbers: usize| {
        let mut least = [8, 9, 10];
        let answer = raw::least_rename(listing, table, record, paths[0], paths[1], &mut least[..numbers]);
        (answer, least)
    };
    let good: [&[u8]; 2] = [b"a", b"b"];
    assert_eq!(asked(&listing, table, &record, good, 2), (1 << 16, [2751, 221, 10]));
    assert_eq!(asked(&listing, table, &record, [b"a", b"a/b"], 2), (0, [0, 0, 10]));

    let bad: [&[u8]; 2] = [b"a/", b".."];
    for (given, answer) in [
        // The record, the table and the numbers, before the listing and the paths.
        (asked(&listing, table, &record[..3], good, 2), 1),
        (asked(&listing, table, &other, good, 2), 1),
        (asked(b"RDL", &table[..105], &record, bad, 2), 1),
        (asked(EMPTY_LISTING, &long, &[0, 0, 0, 40], bad, 2), 1),
        (asked(&listing, table, &record, good, 0), 1),
        (asked(&listing, table, &record, good, 1), 1),
        (asked(b"RDL", table, &record, bad, 3), 1),
        // The listing before the paths, the source before the destination.
        (asked(b"RDL", table, &record, bad, 2), 2),
        (asked(&listing, table, &record, bad, 2), 3),
        (asked(&listing, table, &record, [b"a", b".."], 2), 3 | 1 << 8),
    ] {
        assert_eq!(given, (answer, [8, 9, 10]));
    }
    let malformed = OverlayRef::new(&table[..105], plan.record()).least_rename(&listing, "a", "b");
    assert_eq!(malformed, Err(Refusal::MalformedTable));
}
