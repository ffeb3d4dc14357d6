//! Kept files: what is written is read again, every number comes in its order, and a refused call changes nothing.
use overlay::raw;
use overlay::{FileError, KEPT_OVERHEAD, KeptListing, Mkdir, Overlay, OverlayMut, OverlayRef, Record, Refusal};
use std::{fs, path::PathBuf};

const BOUND: usize = 16 << 20;
const NO_LIMIT: u64 = u64::MAX;

/// A listing of directories, files and links, by path, kind and size, with mtime bits 0.
fn listing(records: &[(&str, u8, u64)]) -> Vec<u8> {
    let mut bytes = b"RDL\x01\x00".to_vec();
    bytes.extend((records.len() as u32).to_le_bytes());
    for (path, kind, size) in records {
        bytes.extend((path.len() as u16).to_le_bytes());
        bytes.push(*kind);
        bytes.extend([0; 8]);
        bytes.extend(size.to_le_bytes());
        bytes.extend(path.bytes());
    }
    bytes
}

/// A directory with a file, and a link.
fn small() -> Vec<u8> {
    listing(&[("a", 1, 0), ("a/f", 2, 5), ("l", 3, 0)])
}

/// Over that listing a table with an own file, a reference, a directory and deleted entries.
fn plan(capacity: usize, entry_size: u64) -> Overlay {
    let mut plan = Overlay::open(capacity, entry_size).unwrap();
    plan.rename(&small(), "a", "b", NO_LIMIT).unwrap();
    plan.write_bytes(&small(), "b/g", b"own", 7.0, NO_LIMIT).unwrap();
    plan
}

/// The kept file by the request's words.
fn file(listing: &[u8], entries: &[u8]) -> Vec<u8> {
    let length = |bytes: &[u8]| (bytes.len() as u32).to_le_bytes();
    [b"OVT\x01\x00".as_slice(), &length(listing), listing, &length(entries), entries].concat()
}

/// A deleted entry and an own file that fills the rest, which has at least 51 bytes.
fn entries(length: usize) -> Vec<u8> {
    let mut bytes = vec![0; length];
    bytes[..4].copy_from_slice(&[1, 0, 4, 0]);
    bytes[24] = b'd';
    bytes[25..29].copy_from_slice(&[1, 0, 1, 0]);
    bytes[29..33].copy_from_slice(&(length as u32 - 50).to_le_bytes());
    bytes[49..].fill(b'o');
    bytes
}

#[test]
fn written_and_read_again() {
    let (listing, plan) = (small(), plan(500, 40));
    let used = plan.record().used as usize;
    let kept = plan.keep(&listing).unwrap();
    assert_eq!(kept, file(&listing, &plan.table()[..used]));
    for room in [used, used + 300] {
        let (mut table, mut work, mut record) = (vec![0xaa; room], vec![0x77; room], Record::default());
        let mut lent = OverlayMut::new(&mut table, &mut record, &mut work);
        let part = lent.read_kept(&kept).unwrap();
        assert_eq!((part, part.as_ptr()), (&listing[..], kept[9..].as_ptr()), "the listing is its part of the file");
        assert_eq!(lent.view().keep(part).unwrap(), kept);
        assert_eq!((record, &table[..used]), (plan.record(), &plan.table()[..used]));
        assert!(table[used..].iter().all(|byte| *byte == 0) && work.iter().all(|byte| *byte == 0x77));
    }
}

#[test]
fn calls_go_on_from_what_was_read() {
    let (listing, mut plan) = (small(), plan(500, 40));
    let kept = plan.keep(&listing).unwrap();
    let (mut read, part) = Overlay::read_kept(&kept, 500).unwrap();
    for (plan, listing) in [(&mut plan, &listing[..]), (&mut read, part)] {
        assert!(plan.is_file(listing, "b/f").unwrap() && !plan.exists(listing, "a").unwrap());
        plan.mkdir(listing, "a", Mkdir::default(), 9.0, NO_LIMIT).unwrap();
        plan.rename(listing, "b/f", "a/f", NO_LIMIT).unwrap();
        assert_eq!(plan.unlink(listing, "l", NO_LIMIT), Err(Refusal::LinkOrRoot { path: 0, len: 1 }));
    }
    assert_eq!((read.table(), read.record()), (plan.table(), plan.record()));
    assert_eq!(read.keep(part), plan.keep(&listing));
}

#[test]
fn the_numbers_of_the_writer() {
    let (listing, good, other) = (small(), plan(500, 40), plan(500, 41));
    let length = KEPT_OVERHEAD + listing.len() + good.record().used as usize;
    let [good_record, other_record] = [&good, &other].map(|plan| <[u64; 4]>::from(plan.record()));
    let mut wrong = other_record;
    wrong[2] += 1;
    let write = |listing: &[u8], record: &[u64], room: usize| {
        let mut output = vec![0x77; room];
        let answer = raw::write_kept(listing, good.table(), record, &mut output);
        assert!(answer == (length as u64) << 16 || output.iter().all(|byte| *byte == 0x77), "{answer}");
        answer
    };
    let short = length - 1;
    for record in [&wrong[..], &other_record[..3], &good_record[..3], &[&good_record[..], &[0]].concat(), &[]] {
        assert_eq!(write(b"RDL", record, short), 1);
        assert_eq!(write(&listing, record, length), 1);
    }
    assert_eq!(write(b"RDL", &other_record, short), 2);
    assert_eq!(write(b"RDL", &good_record, length), 2);
    assert_eq!(write(&listing, &other_record, short), 16);
    assert_eq!(write(&listing, &other_record, length), 16);
    assert_eq!(write(&listing, &good_record, short), 13);
    assert_eq!(write(&listing, &good_record, 0), 13);
    assert_eq!(write(&listing, &good_record, length), (length as u64) << 16);
    let mut output = vec![0x77; length + 100];
    assert_eq!(good.view().keep_into(&listing, &mut output), Ok(length));
    assert_eq!(output[..length], good.keep(&listing).unwrap());
    assert!(output[length..].iter().all(|byte| *byte == 0));
}

/// A reading into a buffer of this length, with a record and a place of these lengths; refused, all is as it was.
fn read(file: &[u8], room: usize, numbers: usize, place: usize) -> u64 {
    let (mut table, mut record, mut place) = (vec![0xaa; room], vec![0xaa; numbers], vec![0xaa; place]);
    let answer = raw::read_kept(file, &mut table, &mut record, &mut place);
    if answer != 0 {
        assert!(table.iter().all(|byte| *byte == 0xaa), "{answer}: the table changed");
        assert!(record.iter().chain(&place).all(|number| *number == 0xaa), "{answer}: record or place changed");
    }
    answer
}

#[test]
fn the_numbers_of_the_reader() {
    let plan = plan(500, 40);
    let used = plan.record().used as usize;
    let good = plan.keep(&small()).unwrap();
    let damaged = &good[..good.len() - 1];
    let other_mark = [b"OVU", &damaged[3..]].concat();
    let [version_2, version_257] = [b"OVT\x02\x00", b"OVT\x01\x01"].map(|head| [head, &good[5..]].concat());
    for file in [&good[..], damaged, &other_mark, &version_2, &version_257, b""] {
        assert_eq!(read(file, BOUND + 1, 4, 2), 1);
        for (numbers, place) in [(0, 2), (3, 2), (5, 2), (4, 0), (4, 1), (4, 3)] {
            assert_eq!(read(file, used - 1, numbers, place), 1);
        }
    }
    for file in [&other_mark[..], &version_2, &version_257, b"", &good[..4]] {
        assert_eq!(read(file, used - 1, 4, 2), 14);
        assert_eq!(read(file, used, 4, 2), 14);
    }
    for length in 5..good.len() {
        assert_eq!(read(&good[..length], used - 1, 4, 2), 15);
        assert_eq!(read(&good[..length], used, 4, 2), 15);
    }
    assert_eq!(read(&[&good[..], b"\0"].concat(), used, 4, 2), 15);
    assert_eq!(read(&good, used - 1, 4, 2), 13);
    assert_eq!(read(&good, used, 4, 2), 0);
    assert_eq!(read(&good, BOUND, 4, 2), 0);
}

/// The listing of an empty tree and no entry make the shortest file, which any table buffer takes.
#[test]
fn the_shortest_file() {
    let kept = Overlay::open(9, 40).unwrap().keep(overlay::EMPTY_LISTING).unwrap();
    assert_eq!(kept, file(overlay::EMPTY_LISTING, b""));
    for room in [0, 1, 100] {
        let (plan, part) = Overlay::read_kept(&kept, room).unwrap();
        assert_eq!((part, plan.table()), (overlay::EMPTY_LISTING, &vec![0; room][..]));
        assert_eq!(plan.record(), Record { entry_size: 40, ..Record::default() });
    }
}

#[test]
fn only_entry_size_40() {
    for entry_size in [0, 39, 41, 4096] {
        assert_eq!(plan(500, entry_size).keep(&small()), Err(Refusal::OtherEntrySize));
    }
    let kept = plan(500, 40).keep(&small()).unwrap();
    assert_eq!(Overlay::read_kept(&kept, 500).unwrap().0.record().entry_size, overlay::KEPT_ENTRY_SIZE);
}

/// Whatever numbers a record has, the length that is asked for is one of what is lent.
#[test]
fn any_record() {
    let record = Record { used: u64::MAX, count: u64::MAX, charge: u64::MAX, entry_size: 40 };
    assert_eq!(OverlayRef::new(&[0; 10], record).keep(&small()), Err(Refusal::MalformedTable));
}

#[test]
fn listing_and_entries_of_16_mib() {
    let name = "n".repeat(255);
    let filler = |count: usize| (0..count).map(|i| format!("{i:08}{}", &name[8..])).collect::<Vec<String>>();
    let sized = |length: usize| {
        // Records of 274 bytes, and a last one of the rest.
        let mut names = filler((length - 9) / 274);
        names.push("z".repeat((length - 9) % 274 - 19));
        listing(&names.iter().map(|name| (name.as_str(), 1, 0)).collect::<Vec<_>>())
    };
    let (largest, larger) = (sized(BOUND), sized(BOUND + 1));
    assert_eq!((largest.len(), larger.len()), (BOUND, BOUND + 1));
    assert!(overlay::check_listing(&largest));
    let longest = file(&largest, &entries(BOUND));
    let (plan, part) = Overlay::read_kept(&longest, BOUND).unwrap();
    assert_eq!((part, plan.table()), (&largest[..], &entries(BOUND)[..]));
    assert_eq!(plan.keep(part).unwrap(), longest);
    assert_eq!(plan.keep(&larger), Err(Refusal::MalformedListing));
    assert_eq!(read(&longest, BOUND - 1, 4, 2), 13);
    assert_eq!(read(&file(&larger, &entries(100)), BOUND, 4, 2), 15);
    assert_eq!(read(&file(&small(), &entries(BOUND + 1)), BOUND, 4, 2), 15);
    assert_eq!(read(&file(&small(), &entries(BOUND + 1)), 10, 4, 2), 15);
}

/// A path of its own in the folder for the tests' files.
fn path(name: &str) -> PathBuf {
    PathBuf::from(env!("CARGO_TARGET_TMPDIR")).join(name)
}

#[test]
fn saved_and_loaded() {
    let (path, plan, listing) = (path("saved.ovt"), plan(500, 40), small());
    plan.save(&listing, &path).unwrap();
    let (read, part) = Overlay::load(&path, 500).unwrap();
    assert_eq!((read.table(), read.record(), &*part), (plan.table(), plan.record(), &listing[..]));
    assert_eq!(part.file(), plan.keep(&listing).unwrap());
    assert_eq!(part.file()[9..].as_ptr(), part.as_ptr(), "the listing is its part of the file");
    let refused = self::plan(500, 41).save(&listing, &path).unwrap_err();
    assert_eq!(refused.to_string(), "entry size not that of a kept file (16)");
    assert_eq!(fs::read(&path).unwrap(), part.file());
}

fn refused(loaded: Result<(Overlay, KeptListing), FileError>) -> Refusal {
    match loaded {
        Err(FileError::Refused(refusal)) => refusal,
        other => panic!("not refused: {other:?}"),
    }
}

#[test]
fn what_cannot_be_loaded() {
    let (path, kept) = (path("damaged.ovt"), plan(500, 40).keep(&small()).unwrap());
    assert!(matches!(Overlay::load(self::path("absent.ovt"), 500), Err(FileError::Io(_))));
    fs::write(&path, &kept).unwrap();
    assert_eq!(refused(Overlay::load(&path, 10)), Refusal::NoRoom);
    assert_eq!(refused(Overlay::load(&path, BOUND + 1)), Refusal::MalformedTable);
    fs::write(&path, &kept[1..]).unwrap();
    assert_eq!(refused(Overlay::load(&path, 500)), Refusal::NotKept);
    // A file of 8 GiB that has no blocks, and one that does not end: no more is read of them than shows the damage.
    fs::write(&path, &kept).unwrap();
    fs::OpenOptions::new().write(true).open(&path).unwrap().set_len(8 << 30).unwrap();
    assert_eq!(refused(Overlay::load(&path, 500)), Refusal::Damaged);
    fs::remove_file(&path).unwrap();
    assert_eq!(refused(Overlay::load("/dev/zero", 500)), Refusal::NotKept);
}
