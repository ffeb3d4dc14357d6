//! The port as one side of a comparison: the calls of the library on plain slices.
//! Every call also checks what the port owes beside its answer: a refused call or a query leaves table, record and work
//! buffer as they were; an accepted one leaves the work buffer all 0, and a table that agrees with its record. A
//! directory that is shown is so in an output just long enough too, and not in one that is a byte shorter. What would
//! let a rename through is asked before it, and its answer held to that.

use std::rc::Rc;

use overlay::{EntryKind, OverlayRef, Record, raw};

use crate::side::{Answer, Call, Entries, Entry, Op, Side, charge, encoded, lent, used};

/// Given instead of the answer where a refused call or a query changed the table or the record.
const CHANGED: u8 = 251;
/// Given instead of the answer where the output is not as it has to be left.
const OUTPUT: u8 = 250;
/// Given instead of the answer to a rename where the least limit and the least length foretell another.
const LEAST: u8 = 249;
/// Given instead of the answer where the work buffer is not as it has to be left.
const WORK: u8 = 252;

/// The least limit and the least length for a rename, where it is accepted with any; or why they are not told.
pub type Least = Result<Option<[u64; 2]>, Answer>;

#[derive(Clone)]
pub struct Port {
    listing: Rc<Vec<u8>>,
    table: Vec<u8>,
    record: [u64; 4],
    work: Vec<u8>,
}

fn answer(packed: u64) -> Answer {
    Answer { number: packed as u8, path: (packed >> 8) as u8, value: packed >> 16 }
}

/// The record of a table with these entries.
fn record(entries: &Entries, entry_size: u64) -> [u64; 4] {
    [used(entries) as u64, entries.len() as u64, charge(entries, entry_size), entry_size]
}

impl Port {
    /// A table opened over a buffer of `room` bytes that held something else.
    pub fn new(listing: &Rc<Vec<u8>>, entry_size: u64, room: usize) -> Self {
        let (mut table, mut record) = (vec![0xaa; room], [9; 4]);
        assert_eq!(raw::open_table(&mut table, &mut record, entry_size), 0, "opening");
        assert_eq!(record, [0, 0, 0, entry_size], "the record after opening");
        assert!(table.iter().all(|byte| *byte == 0), "the table after opening");
        Self { listing: Rc::clone(listing), table, record, work: vec![0; room] }
    }

    /// The bytes that a call is lent: for an append those of the listed file that is visible at the path.
    fn bytes(&self, call: &Call) -> Vec<u8> {
        let Op::Append { more, .. } = call.op else { return Vec::new() };
        let file = OverlayRef::new(&self.table, Record::from(self.record)).listed_file(&self.listing, &call.path);
        let named = |bytes| str::from_utf8(bytes).expect("a listed path in UTF-8");
        lent(file.map(|file| (named(file.path), file.size as i64)), more)
    }

    /// The call alone, without a look at what it left.
    pub fn call_only(&mut self, call: &Call, mtime: u64) -> Answer {
        let bytes = self.bytes(call);
        self.call_with(call, mtime, &bytes)
    }

    /// The same with these bytes lent.
    pub fn call_with(&mut self, call: &Call, mtime: u64, bytes: &[u8]) -> Answer {
        let Self { listing, table, record, work } = self;
        let (path, limit) = (call.path.as_bytes(), call.limit);
        let mut lent = raw::Lent { table, record, work };
        answer(match &call.op {
            Op::Exists => raw::exists(listing, lent.table, lent.record, path),
            Op::IsFile => raw::is_file(listing, lent.table, lent.record, path),
            Op::IsDir => raw::is_dir(listing, lent.table, lent.record, path),
            Op::Write { data } => raw::write_bytes(listing, &mut lent, path, data, mtime, limit),
            Op::Append { data, .. } => raw::append_bytes(listing, &mut lent, path, data, bytes, mtime, limit),
            Op::WriteAt { data, offset } => raw::write_file_at(listing, &mut lent, path, data, *offset, mtime, limit),
            Op::Mkdir { parents, exist_ok } => raw::mkdir(listing, &mut lent, path, *parents, *exist_ok, mtime, limit),
            Op::Unlink => raw::unlink(listing, &mut lent, path, limit),
            Op::Rmdir => raw::rmdir(listing, &mut lent, path, limit),
            Op::Rename { to } => raw::rename(listing, &mut lent, path, to.as_bytes(), limit),
            Op::Show => return Answer::shown(&self.show(&call.path)),
        })
    }

    /// What would let a rename through; none for other calls.
    pub fn least(&self, call: &Call) -> Option<Least> {
        let Op::Rename { to } = &call.op else { return None };
        let (path, to, mut least) = (call.path.as_bytes(), to.as_bytes(), [u64::MAX; 2]);
        let said = answer(raw::least_rename(&self.listing, &self.table, &self.record, path, to, &mut least));
        Some(match (said.number, said.value, least) {
            (0, 1, _) => Ok(Some(least)),
            (0, 0, [0, 0]) => Ok(None),
            (1..=3, _, [u64::MAX, u64::MAX]) => Err(said),
            _ => Err(Answer::refused(LEAST)),
        })
    }

    /// Whether a rename may be answered so after this was said of it. No entries here come near 16 MiB, so where there
    /// is no room there are numbers.
    fn is_foretold(&self, least: Least, limit: u64, answer: Answer) -> bool {
        match least {
            Err(refusal) => answer == refusal,
            Ok(None) => matches!(answer.number, 4..=10 | 12) || answer.number == 11 && limit < u64::MAX,
            Ok(Some([least, _])) if limit < least => answer == Answer::refused(11),
            Ok(Some([_, length])) if (self.table.len() as u64) < length => answer == Answer::refused(13),
            Ok(Some(_)) => answer == Answer::accepted(0),
        }
    }

    /// The answer with an output of so many bytes, and the output after it.
    fn show_in(&self, path: &str, room: usize) -> (Answer, Vec<u8>) {
        let mut output = vec![0x77; room];
        let packed = raw::show(&self.listing, &self.table, &self.record, path.as_bytes(), &mut output);
        (answer(packed), output)
    }

    /// The names of a path's visible children.
    pub fn show(&self, path: &str) -> Result<Vec<String>, Answer> {
        // Names take less than the buffers that they come from.
        let (answer, output) = self.show_in(path, self.listing.len() + self.table.len());
        if answer.number != 0 {
            let unchanged = output.iter().all(|byte| *byte == 0x77);
            return Err(if unchanged { answer } else { Answer::refused(OUTPUT) });
        }
        let (written, behind) = output.split_at(answer.value as usize);
        let enough = self.show_in(path, written.len());
        let short = written.len().checked_sub(1).map(|room| self.show_in(path, room));
        let plan = OverlayRef::new(&self.table, Record::from(self.record));
        let names = plan.show(&self.listing, path).map_err(|_| Answer::refused(OUTPUT))?;
        let as_owed = behind.iter().all(|byte| *byte == 0)
            && enough == (answer, written.to_vec())
            && short.is_none_or(|(answer, output)| answer == Answer::refused(13) && output.iter().all(|b| *b == 0x77))
            && names.as_bytes() == written;
        if !as_owed {
            return Err(Answer::refused(OUTPUT));
        }
        Ok(names.iter().strs().map(|name| name.expect("a name in UTF-8").to_owned()).collect())
    }
}

impl Side for Port {
    fn call(&mut self, call: &Call, mtime: u64) -> Answer {
        self.work.fill(0x77);
        let (before, least) = ((self.table.clone(), self.record), self.least(call));
        let answer = self.call_only(call, mtime);
        if least.is_some_and(|least| !self.is_foretold(least, call.limit, answer)) {
            return Answer::refused(LEAST);
        }
        let quiet = answer.number != 0 || call.op.only_asks();
        if quiet && (before.0 != self.table || before.1 != self.record) {
            return Answer::refused(CHANGED);
        }
        let left = if quiet { 0x77 } else { 0 };
        if self.work.iter().any(|byte| *byte != left) {
            return Answer::refused(WORK);
        }
        answer
    }

    /// The entries; table and record must be what they make.
    fn entries(&self) -> Entries {
        let plain = |entry: overlay::Entry| {
            let value = match entry.kind {
                EntryKind::Own { mtime, content } => Entry::own(mtime.to_bits(), content.to_vec()),
                EntryKind::Reference { mtime, size, listed } => {
                    Entry::reference(mtime.to_bits(), size as i64, listed.to_vec())
                }
                EntryKind::Directory { mtime } => Entry::directory(mtime.to_bits()),
                EntryKind::Deleted => Entry::deleted(),
            };
            (entry.path_str().expect("a key in UTF-8").to_owned(), value)
        };
        let entries: Entries = OverlayRef::new(&self.table, Record::from(self.record)).entries().map(plain).collect();
        let (used, rest) = self.table.split_at(self.record[0] as usize);
        assert_eq!(used, encoded(&entries), "the bytes of the entries");
        assert!(rest.iter().all(|byte| *byte == 0), "bytes behind the entries");
        assert_eq!(self.record, record(&entries, self.record[3]), "the record");
        entries
    }

    fn charge(&self) -> u64 {
        self.record[2]
    }

    fn copy(&self) -> Self {
        self.clone()
    }

    fn load(&mut self, entries: &Entries) {
        let mut table = encoded(entries);
        self.record = record(entries, self.record[3]);
        table.resize(self.table.len(), 0);
        self.table = table;
    }
}
