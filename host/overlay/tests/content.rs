//! Adding to files and writing inside them: each number that the two calls give, in the order of their checks, what an
//! accepted one leaves, and that a refused one changes nothing; in scripts too.
use overlay::{EntryKind, ListedFile, Mkdir, Mtime, NotRun, Overlay, OverlayMut, Record, Refusal, Script};

const FREE: u64 = u64::MAX;

/// `a` directory, `a/f` file of 5 bytes, `l` link, `z` file of no bytes.
fn listing() -> Vec<u8> {
    let mut bytes = b"RDL\x01\x00\x04\x00\x00\x00".to_vec();
    for (path, kind, size) in [("a", 1, 0u64), ("a/f", 2, 5), ("l", 3, 0), ("z", 2, 0)] {
        bytes.extend([path.len() as u8, 0, kind]);
        bytes.extend([0; 8]);
        bytes.extend(size.to_le_bytes());
        bytes.extend(path.as_bytes());
    }
    bytes
}

fn open() -> Overlay {
    Overlay::open(512, 40).expect("a table")
}

/// The content and the mtime of an own file.
fn own(plan: &Overlay, path: &str) -> Option<(Vec<u8>, Mtime)> {
    plan.entries().find(|entry| entry.path == path.as_bytes()).and_then(|entry| match entry.kind {
        EntryKind::Own { mtime, content } => Some((content.to_vec(), mtime)),
        _ => None,
    })
}

/// The call is refused so, and table and record are as they were.
fn refused(plan: &mut Overlay, refusal: Refusal, call: impl FnOnce(&mut Overlay) -> Result<u64, Refusal>) {
    let before = plan.clone();
    assert_eq!(call(plan), Err(refusal));
    assert_eq!((plan.table(), plan.record()), (before.table(), before.record()));
}

#[test]
fn appended_to_each_sort_of_file() {
    let (listing, mut plan) = (listing(), open());
    assert_eq!(plan.append_bytes(&listing, "a/f", b"!", b"track", 1.0, FREE), Ok(1));
    assert_eq!(own(&plan, "a/f"), Some((b"track!".to_vec(), 1.0.into())));
    assert_eq!(plan.append_bytes(&listing, "a/f", b"?", b"", 2.0, FREE), Ok(1));
    assert_eq!(own(&plan, "a/f"), Some((b"track!?".to_vec(), 2.0.into())));
    assert_eq!(plan.append_bytes(&listing, "n", b"", b"", 3.0, FREE), Ok(0));
    assert_eq!(own(&plan, "n"), Some((Vec::new(), 3.0.into())));
    plan.unlink(&listing, "n", FREE).unwrap();
    assert_eq!(plan.append_bytes(&listing, "n", b"xy", b"", 4.0, FREE), Ok(2));
    assert_eq!(own(&plan, "n"), Some((b"xy".to_vec(), 4.0.into())));
    assert_eq!(plan.append_bytes(&listing, "z", b"", b"", 5.0, FREE), Ok(0));
    assert_eq!(own(&plan, "z"), Some((Vec::new(), 5.0.into())));
}

#[test]
fn appended_to_a_reference() {
    let (listing, mut plan) = (listing(), open());
    plan.rename(&listing, "z", "y", FREE).unwrap();
    assert_eq!(plan.record().charge, 610);
    refused(&mut plan, Refusal::Limit, |plan| plan.append_bytes(&listing, "y", b"", b"", 1.0, 609));
    assert_eq!(plan.append_bytes(&listing, "y", b"", b"", 1.0, 610), Ok(0));
    assert_eq!((own(&plan, "y"), plan.record().charge), (Some((Vec::new(), 1.0.into())), 594));
    plan.rename(&listing, "a/f", "g", FREE).unwrap();
    assert_eq!(plan.listed_file(&listing, "g"), Some(ListedFile { path: b"a/f", size: 5 }));
    refused(&mut plan, Refusal::LentCount, |plan| plan.append_bytes(&listing, "g", b"", b"four", 1.0, FREE));
    assert_eq!(plan.append_bytes(&listing, "g", b"!", b"track", 6.0, FREE), Ok(1));
    assert_eq!(own(&plan, "g"), Some((b"track!".to_vec(), 6.0.into())));
}

#[test]
fn what_an_append_needs() {
    let (listing, mut plan) = (listing(), open());
    plan.write_bytes(&listing, "n", b"", 0.0, FREE).unwrap();
    plan.unlink(&listing, "z", FREE).unwrap();
    for path in ["a", "l", "n", "q", "z", ""] {
        assert_eq!(plan.listed_file(&listing, path), None, "{path}");
    }
    assert_eq!(plan.listed_file(&listing, "a/f"), Some(ListedFile { path: b"a/f", size: 5 }));
    assert_eq!(plan.listed_file(&listing[..40], "a/f"), None);
    for path in ["n", "q", "z"] {
        refused(&mut plan, Refusal::LentCount, |plan| plan.append_bytes(&listing, path, b"", b"1", 0.0, 0));
    }
    for lent in [&b""[..], b"four", b"tracks"] {
        refused(&mut plan, Refusal::LentCount, |plan| plan.append_bytes(&listing, "a/f", b"", lent, 0.0, 0));
    }
}

#[test]
fn refused_appends() {
    let (listing, mut plan) = (listing(), open());
    refused(&mut plan, Refusal::MalformedListing, |plan| plan.append_bytes(b"", ".", b"", b"", 0.0, 0));
    refused(&mut plan, Refusal::MalformedPath { path: 0 }, |plan| plan.append_bytes(&listing, ".", b"", b"1", 0.0, 0));
    for (path, refusal) in [
        ("l/n", Refusal::LinkOrRoot { path: 0, len: 3 }),
        ("z/n", Refusal::NotFound { path: 0, len: 3 }),
        ("a", Refusal::IsADirectory { path: 0, len: 1 }),
        ("", Refusal::IsADirectory { path: 0, len: 0 }),
        ("l", Refusal::LinkOrRoot { path: 0, len: 1 }),
    ] {
        refused(&mut plan, refusal, |plan| plan.append_bytes(&listing, path, b"x", b"1", 0.0, 0));
    }
    refused(&mut plan, Refusal::Limit, |plan| plan.append_bytes(&listing, "a/f", b"x", b"track", 0.0, 314));
    assert_eq!(plan.append_bytes(&listing, "a/f", b"x", b"track", 0.0, 315), Ok(1));
    let most = 512 - 27 - 6;
    refused(&mut plan, Refusal::NoRoom, |plan| plan.append_bytes(&listing, "a/f", &vec![1; most + 1], b"", 0.0, FREE));
    assert_eq!(plan.append_bytes(&listing, "a/f", &vec![1; most], b"", 0.0, FREE), Ok(most as u64));
}

#[test]
fn written_inside() {
    let (listing, mut plan) = (listing(), open());
    plan.write_bytes(&listing, "n", b"track 17", 0.0, FREE).unwrap();
    assert_eq!(plan.write_file_at(&listing, "n", b"42", 6, 1.0, FREE), Ok(2));
    assert_eq!(own(&plan, "n"), Some((b"track 42".to_vec(), 1.0.into())));
    assert_eq!(plan.write_file_at(&listing, "n", b"T", 0, 1.0, FREE), Ok(1));
    assert_eq!(own(&plan, "n"), Some((b"Track 42".to_vec(), 1.0.into())));
    assert_eq!(plan.write_file_at(&listing, "n", b"3ab", 7, 2.0, FREE), Ok(3));
    assert_eq!(own(&plan, "n"), Some((b"Track 43ab".to_vec(), 2.0.into())));
    assert_eq!(plan.write_file_at(&listing, "n", b"!", 12, 3.0, FREE), Ok(1));
    assert_eq!(own(&plan, "n"), Some((b"Track 43ab\0\0!".to_vec(), 3.0.into())));
    assert_eq!(plan.write_file_at(&listing, "n", b"", 2, 4.0, FREE), Ok(0));
    assert_eq!(own(&plan, "n"), Some((b"Track 43ab\0\0!".to_vec(), 4.0.into())));
    plan.write_bytes(&listing, "n", b"", 0.0, FREE).unwrap();
    assert_eq!(plan.write_file_at(&listing, "n", b"", 3, 5.0, 313), Ok(0));
    assert_eq!(own(&plan, "n"), Some((vec![0; 3], 5.0.into())));
}

#[test]
fn refused_writings_inside() {
    let (listing, mut plan) = (listing(), open());
    plan.write_bytes(&listing, "n", b"track", 0.0, FREE).unwrap();
    plan.rename(&listing, "z", "y", FREE).unwrap();
    plan.mkdir(&listing, "d", Mkdir::default(), 0.0, FREE).unwrap();
    refused(&mut plan, Refusal::MalformedListing, |plan| plan.write_file_at(b"", ".", b"", 0, 0.0, 0));
    refused(&mut plan, Refusal::MalformedPath { path: 0 }, |plan| {
        plan.write_file_at(&listing, ".", b"x", FREE, 0.0, 0)
    });
    for path in ["", "a", "a/f", "d", "l", "l/n", "n/x", "q", "q/n", "y", "z"] {
        let refusal = Refusal::NotFound { path: 0, len: path.len() as u64 };
        refused(&mut plan, refusal, |plan| plan.write_file_at(&listing, path, b"x", FREE, 0.0, 0));
    }
    refused(&mut plan, Refusal::RangeTooLarge, |plan| plan.write_file_at(&listing, "n", b"x", FREE, 0.0, 0));
    refused(&mut plan, Refusal::Limit, |plan| plan.write_file_at(&listing, "n", b"x", FREE - 1, 0.0, 5000));
    let charge = plan.record().charge;
    refused(&mut plan, Refusal::Limit, |plan| plan.write_file_at(&listing, "n", b"", 0, 0.0, charge - 1));
    refused(&mut plan, Refusal::Limit, |plan| plan.write_file_at(&listing, "n", b"x", 16, 0.0, charge + 15));
    refused(&mut plan, Refusal::NoRoom, |plan| plan.write_file_at(&listing, "n", b"x", 1 << 40, 0.0, FREE));
    assert_eq!(plan.write_file_at(&listing, "n", b"x", 5, 0.0, charge), Ok(1));
    assert_eq!(plan.write_file_at(&listing, "n", b"x", 16, 0.0, charge + 16), Ok(1));
}

/// Where the table does not agree with its record, or the work buffer is too short, both calls are refused with 1.
#[test]
fn malformed_tables() {
    let (mut table, mut work) = ([0; 30], [7; 30]);
    let mut record = Record { charge: 1, ..Record::default() };
    let mut plan = OverlayMut::new(&mut table, &mut record, &mut work);
    assert_eq!(plan.append_bytes(b"", ".", b"", b"", 0.0, 0), Err(Refusal::MalformedTable));
    assert_eq!(plan.write_file_at(b"", ".", b"", 0, 0.0, 0), Err(Refusal::MalformedTable));
    record.charge = 0;
    let mut plan = OverlayMut::new(&mut table, &mut record, &mut work[..29]);
    assert_eq!(plan.append_bytes(b"", ".", b"", b"", 0.0, 0), Err(Refusal::MalformedTable));
    assert_eq!(plan.write_file_at(b"", ".", b"", 0, 0.0, 0), Err(Refusal::MalformedTable));
    assert_eq!((table, work), ([0; 30], [7; 30]));
}

/// A script of calls that are in both marks.
fn script() -> Script {
    let mut script = Script::new();
    script.mkdir("d", Mkdir::default(), 1.0, FREE);
    script.write_bytes("d/n", b"hi", 2.0, FREE);
    script.rename("z", "y", FREE);
    script
}

/// A script gets the mark TSC2 with the first of the new calls; the steps before it stay the same calls.
#[test]
fn scripts_of_both_marks() {
    let (listing, one) = (listing(), script());
    assert_eq!(&one.as_ref()[..8], b"TSC1\x03\0\0\0");
    let mut two = script();
    two.append_bytes("a/f", b"!", b"track", 3.0, FREE);
    assert_eq!(&two.as_ref()[..8], b"TSC2\x04\0\0\0");
    assert_eq!(two.as_ref().len(), one.as_ref().len() + 3 * 12 + 36 + 3 + 1 + 5);
    two.write_file_at("a/f", b"k", 9, 4.0, FREE);
    two.append_bytes("d/n", b"", b"x", 5.0, FREE);
    two.write_file_at("d/n", b"x", FREE, 5.0, FREE);
    two.unlink("d/n", FREE);

    let (plan, rows) = Overlay::run_new(512, 40, &listing, &two).unwrap();
    let answers: Vec<_> = rows.iter().map(|row| row.answer).collect();
    let (count, range) = (Err(Refusal::LentCount), Err(Refusal::RangeTooLarge));
    assert_eq!(answers, [Ok(0), Ok(2), Ok(0), Ok(1), Ok(1), count, range, Ok(0)]);
    assert_eq!(own(&plan, "a/f"), Some((b"track!\0\0\0k".to_vec(), 4.0.into())));

    let mut other = open();
    other.mkdir(&listing, "d", Mkdir::default(), 1.0, FREE).unwrap();
    other.write_bytes(&listing, "d/n", b"hi", 2.0, FREE).unwrap();
    other.rename(&listing, "z", "y", FREE).unwrap();
    other.append_bytes(&listing, "a/f", b"!", b"track", 3.0, FREE).unwrap();
    other.write_file_at(&listing, "a/f", b"k", 9, 4.0, FREE).unwrap();
    other.unlink(&listing, "d/n", FREE).unwrap();
    assert_eq!((plan.table(), plan.record()), (other.table(), other.record()));
}

/// The same steps under the other mark are no script.
#[test]
fn scripts_under_another_mark() {
    let (listing, mut plan) = (listing(), open());
    let mut two = script();
    two.append_bytes("a/f", b"!", b"track", 3.0, FREE);
    for (script, mark) in [(script(), b'2'), (two, b'1')] {
        let mut bytes = script.as_ref().to_vec();
        bytes[3] = mark;
        assert_eq!(plan.run(&listing, &bytes), Err(NotRun::MalformedScript));
    }
    let mut only = Script::new();
    only.write_file_at("a", b"", 0, 0.0, 0);
    assert_eq!(only.as_ref(), [&b"TSC2\x01\0\0\0\x07\0\x01\0"[..], &[0; 32], b"a"].concat());
    let mut narrow = [b"TSC1", &only.as_ref()[4..32], b"a"].concat();
    assert_eq!(plan.run(&listing, &narrow), Err(NotRun::MalformedScript));
    narrow[8] = 4;
    assert_eq!(plan.run(&listing, &narrow).map(|rows| rows.len()), Ok(1));
}

/// The script of the mark TSC2 in docs/FORMATS.md, byte by byte, and what that page says of its run.
#[test]
fn the_example_of_the_formats() {
    let mut script = Script::new();
    script.append_bytes("a/f", b"!", b"hello", 0.0, 1000);
    script.write_file_at("a/f", b"hi", 8, 1.0, 1000);
    script.write_file_at("z", b"hi", 0, 0.0, 1000);
    let (none, limit) = ([0; 8], [0xe8, 3, 0, 0, 0, 0, 0, 0]);
    let bytes = [
        &b"TSC2\x03\0\0\0"[..],
        &[&b"\x06\0\x03\0\x01\0\0\0"[..], &none, &limit, &none, b"\x05\0\0\0a/f!hello"].concat(),
        &[&b"\x07\0\x03\0\x02\0\0\0"[..], b"\0\0\0\0\0\0\xf0\x3f", &limit, b"\x08\0\0\0\0\0\0\0"].concat(),
        b"\0\0\0\0a/fhi",
        &[&b"\x07\0\x01\0\x02\0\0\0"[..], &none, &limit, &none, b"\0\0\0\0zhi"].concat(),
    ];
    assert_eq!(script.as_ref(), bytes.concat());
    assert_eq!(script.as_ref().len(), 133);

    let (plan, rows) = Overlay::run_new(512, 0, &listing(), &script).unwrap();
    assert_eq!(plan.record(), Record { used: 37, count: 1, charge: 275, entry_size: 0 });
    assert_eq!(own(&plan, "a/f"), Some((b"hello!\0\0hi".to_vec(), 1.0.into())));
    let answers: Vec<_> = rows.iter().map(|row| (row.answer, row.charge)).collect();
    assert_eq!(answers, [(Ok(1), 275), (Ok(2), 275), (Err(Refusal::NotFound { path: 0, len: 1 }), 275)]);
}
