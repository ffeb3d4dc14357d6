//! Lists of changing calls as bytes, and what running one tells.
use crate::{Mkdir, Mtime, Refusal, unpack};
use std::{error::Error, fmt};

/// The bytes of one row of a report.
pub const ROW_LENGTH: usize = 32;

const HEAD_LENGTH: usize = 8;

/// The bytes of a step before its parts, by the script's mark.
const STEP_HEAD_LENGTH: usize = 24;
const WIDE_STEP_HEAD_LENGTH: usize = 36;

/// The mark of a script in which a step has an offset and a third part too.
const WIDE_MARK: &[u8] = b"TSC2";

/// A list of changing calls, each with its limit, as [`Overlay::run`](crate::Overlay::run) takes it. Its bytes have the
/// mark `TSC1`, and `TSC2` from the first append or writing inside on.
///
/// ```
/// use overlay::{EMPTY_LISTING, Mkdir, Overlay, Refusal, Script};
/// let mut script = Script::new();
/// script.mkdir("depot", Mkdir::default(), 1.0, u64::MAX);
/// script.write_bytes("depot/track-4", b"tram 17", 2.0, u64::MAX);
/// script.rmdir("depot", u64::MAX);
/// let (plan, rows) = Overlay::run_new(4096, 40, EMPTY_LISTING, &script)?;
/// assert_eq!(rows[1].answer, Ok(7));
/// assert_eq!(rows[2].answer, Err(Refusal::NotEmpty { path: 0, len: 5 }));
/// assert_eq!(rows[2].charge, plan.record().charge);
/// assert!(plan.is_file(EMPTY_LISTING, "depot/track-4").unwrap());
/// # Ok::<(), overlay::NotRun>(())
/// ```
#[derive(Clone, Debug, PartialEq, Eq, Hash)]
pub struct Script(Vec<u8>);

impl Default for Script {
    fn default() -> Script {
        Script::new()
    }
}

impl AsRef<[u8]> for Script {
    fn as_ref(&self) -> &[u8] {
        &self.0
    }
}

/// Each call is put behind those that are there.
///
/// # Panics
/// Where a path or a rename's source has more than 65,535 bytes (no call accepts one of more than 512), data, a
/// rename's destination or what is lent more than 4,294,967,295, or where there are as many calls.
impl Script {
    /// The script without calls.
    pub fn new() -> Script {
        Script(b"TSC1\0\0\0\0".to_vec())
    }

    pub fn write_bytes(&mut self, path: impl AsRef<[u8]>, data: &[u8], mtime: impl Into<Mtime>, limit: u64) {
        self.step(1, 0, path.as_ref(), data, mtime.into(), limit);
    }

    pub fn mkdir(&mut self, path: impl AsRef<[u8]>, how: Mkdir, mtime: impl Into<Mtime>, limit: u64) {
        let flags = u8::from(how.parents) | u8::from(how.exist_ok) << 1;
        self.step(2, flags, path.as_ref(), b"", mtime.into(), limit);
    }

    pub fn unlink(&mut self, path: impl AsRef<[u8]>, limit: u64) {
        self.step(3, 0, path.as_ref(), b"", Mtime::default(), limit);
    }

    pub fn rmdir(&mut self, path: impl AsRef<[u8]>, limit: u64) {
        self.step(4, 0, path.as_ref(), b"", Mtime::default(), limit);
    }

    pub fn rename(&mut self, source: impl AsRef<[u8]>, destination: impl AsRef<[u8]>, limit: u64) {
        self.step(5, 0, source.as_ref(), destination.as_ref(), Mtime::default(), limit);
    }

    /// `lent` are the bytes of the listed file that is visible at the path when the call is made, or none.
    pub fn append_bytes(
        &mut self,
        path: impl AsRef<[u8]>,
        data: &[u8],
        lent: &[u8],
        mtime: impl Into<Mtime>,
        limit: u64,
    ) {
        self.widen();
        self.put(6, 0, [path.as_ref(), data, lent], [mtime.into().to_bits(), limit, 0]);
    }

    pub fn write_file_at(
        &mut self,
        path: impl AsRef<[u8]>,
        data: &[u8],
        offset: u64,
        mtime: impl Into<Mtime>,
        limit: u64,
    ) {
        self.widen();
        self.put(7, 0, [path.as_ref(), data, b""], [mtime.into().to_bits(), limit, offset]);
    }

    fn is_wide(&self) -> bool {
        self.0.starts_with(WIDE_MARK)
    }

    /// Gives the script the mark `TSC2`, and each of its steps an offset and the length of a third part, both 0.
    fn widen(&mut self) {
        if self.is_wide() {
            return;
        }
        let mut wide = [WIDE_MARK, &self.0[WIDE_MARK.len()..HEAD_LENGTH]].concat();
        let mut rest = &self.0[HEAD_LENGTH..];
        while let Some((head, behind)) = rest.split_at_checked(STEP_HEAD_LENGTH) {
            let first_length = u16::from_le_bytes([head[2], head[3]]) as usize;
            let second_length = u32::from_le_bytes([head[4], head[5], head[6], head[7]]) as usize;
            let (parts, next) = behind.split_at(first_length + second_length);
            wide.extend(head);
            wide.extend([0; WIDE_STEP_HEAD_LENGTH - STEP_HEAD_LENGTH]);
            wide.extend(parts);
            rest = next;
        }
        self.0 = wide;
    }

    fn step(&mut self, kind: u8, flags: u8, first: &[u8], second: &[u8], mtime: Mtime, limit: u64) {
        self.put(kind, flags, [first, second, b""], [mtime.to_bits(), limit, 0]);
    }

    /// The numbers are mtime bits, limit and offset. In a script that is not wide there is no offset and no third part.
    fn put(&mut self, kind: u8, flags: u8, parts: [&[u8]; 3], numbers: [u64; 3]) {
        let ([first, second, third], [mtime, limit, offset]) = (parts, numbers);
        let first_length = u16::try_from(first.len()).expect("a path of at most 65,535 bytes");
        let second_length = u32::try_from(second.len()).expect("data of at most 4,294,967,295 bytes");
        let third_length = u32::try_from(third.len()).expect("at most 4,294,967,295 lent bytes");
        let count = counted(&self.0).checked_add(1).expect("at most 4,294,967,295 calls");
        self.0[4..HEAD_LENGTH].copy_from_slice(&count.to_le_bytes());
        self.0.extend([kind, flags]);
        self.0.extend(first_length.to_le_bytes());
        self.0.extend(second_length.to_le_bytes());
        self.0.extend(mtime.to_le_bytes());
        self.0.extend(limit.to_le_bytes());
        if self.is_wide() {
            self.0.extend(offset.to_le_bytes());
            self.0.extend(third_length.to_le_bytes());
        }
        self.0.extend([first, second, third].concat());
    }
}

/// How many calls the head of a script counts.
fn counted(script: &[u8]) -> u32 {
    script.get(4..HEAD_LENGTH).map_or(0, |count| u32::from_le_bytes(count.try_into().expect("four bytes")))
}

/// A report that is long enough for the script. Where more calls are counted than the bytes have room for, they are no
/// script, and no report is looked at.
pub(crate) fn report_for(script: &[u8]) -> Vec<u8> {
    let steps = script.len().saturating_sub(HEAD_LENGTH) / STEP_HEAD_LENGTH;
    vec![0; ROW_LENGTH * steps.min(counted(script) as usize)]
}

/// What one call of a script answered.
#[derive(Clone, Copy, Debug, PartialEq, Eq, Hash)]
pub struct Row {
    /// The value, or why it was refused. A refused call does not end the run.
    pub answer: Result<u64, Refusal>,
    /// The charge of the table after it.
    pub charge: u64,
}

/// Why none of a script's calls was made.
#[derive(Clone, Copy, Debug, PartialEq, Eq, Hash)]
pub enum NotRun {
    /// 1: the buffer or the entry size is out of bounds. Only where a table is opened.
    MalformedTable,
    /// 254: the bytes given as script are none.
    MalformedScript,
    /// 255: the report has not a row for each call. No run of this crate lends one so short; with [`raw`](crate::raw)
    /// one can be.
    ShortReport,
}

/// The rows of a run, by its answer and its report.
pub(crate) fn told(answer: u64, report: &[u8]) -> Result<Vec<Row>, NotRun> {
    match answer {
        0 => Ok(report.chunks_exact(ROW_LENGTH).map(row).collect()),
        1 => Err(NotRun::MalformedTable),
        254 => Err(NotRun::MalformedScript),
        255 => Err(NotRun::ShortReport),
        answer => panic!("{answer} is no answer of a run"),
    }
}

fn row(bytes: &[u8]) -> Row {
    let word = |at: usize| u64::from_le_bytes(bytes[at..at + 8].try_into().expect("eight bytes"));
    Row { answer: unpack(word(0) | word(8) << 8 | word(16) << 16), charge: word(24) }
}

impl fmt::Display for NotRun {
    fn fmt(&self, f: &mut fmt::Formatter<'_>) -> fmt::Result {
        f.write_str(match self {
            NotRun::MalformedTable => "table or entry size malformed (1)",
            NotRun::MalformedScript => "script malformed (254)",
            NotRun::ShortReport => "report too short (255)",
        })
    }
}

impl Error for NotRun {}

#[cfg(test)]
mod tests {
    use super::*;
    use crate::{EMPTY_LISTING, Overlay, OverlayMut, Record, raw};

    /// The script of docs/FORMATS.md, over a tree with the empty file `z` alone in the place of its listing L.
    #[test]
    fn the_example_of_the_formats() {
        let listing = [EMPTY_LISTING[..5].as_ref(), &[1, 0, 0, 0, 1, 0, 2], &[0; 16], b"z"].concat();
        let mut script = Script::new();
        script.mkdir("d/e", Mkdir { parents: true, exist_ok: false }, 1.0, 1000);
        script.write_bytes("d/n", b"hi", 0.0, 1000);
        script.unlink("z", 1000);
        script.rename("d/n", "z", 2000);
        assert_eq!(script.as_ref().len(), 117);

        let (plan, rows) = Overlay::run_new(512, 0, &listing, &script).unwrap();
        assert_eq!(plan.record(), Record { used: 106, count: 4, charge: 1048, entry_size: 0 });
        let answers: Vec<_> = rows.iter().map(|row| (row.answer, row.charge)).collect();
        assert_eq!(answers, [(Ok(0), 516), (Ok(2), 791), (Err(Refusal::Limit), 791), (Ok(0), 1048)]);
    }

    #[test]
    fn calls_made_one_by_one_leave_the_same() {
        let mut plan = Overlay::open(256, 40).unwrap();
        plan.mkdir(EMPTY_LISTING, "a", Mkdir::default(), 1.0, 612).unwrap();
        plan.write_bytes(EMPTY_LISTING, "a/f", b"xy", 2.0, 612).unwrap();
        let mut script = Script::default();
        script.mkdir("a", Mkdir::default(), 1.0, 612);
        script.write_bytes("a/f", b"xy", 2.0, 612);
        let mut run = Overlay::open(256, 40).unwrap();
        run.run(EMPTY_LISTING, script).unwrap();
        assert_eq!((run.table(), run.record()), (plan.table(), plan.record()));
    }

    #[test]
    fn what_is_not_run_changes_nothing() {
        let mut script = Script::new();
        script.mkdir("a", Mkdir::default(), 1.0, u64::MAX);
        let (mut plan, _) = Overlay::run_new(100, 0, EMPTY_LISTING, &script).unwrap();
        let before = plan.clone();
        for bytes in [&b""[..], b"TSC1\xff\xff\xff\xff", &[script.as_ref(), b"x"].concat()] {
            assert_eq!(plan.run(EMPTY_LISTING, bytes), Err(NotRun::MalformedScript));
        }
        assert_eq!((plan.table(), plan.record()), (before.table(), before.record()));
        assert_eq!(Overlay::run_new(100, 4097, EMPTY_LISTING, &script).unwrap_err(), NotRun::MalformedTable);
    }

    /// The table is opened before the script is looked at, and its record goes with it.
    #[test]
    fn opened_and_not_run() {
        let (mut table, mut work, mut record) = ([7; 30], [7; 30], Record::default());
        let mut plan = OverlayMut::new(&mut table, &mut record, &mut work);
        assert_eq!(plan.run_new(EMPTY_LISTING, b"", 9), Err(NotRun::MalformedScript));
        assert!(plan.view().check());
        assert_eq!((record, table, work), (Record { entry_size: 9, ..Record::default() }, [0; 30], [7; 30]));
    }

    #[test]
    fn the_numbers_of_a_run() {
        let mut script = Script::new();
        script.unlink("a", 0);
        let (mut table, mut work, mut numbers, mut report) = ([0; 30], [0; 30], [0, 0, 0, 9], [1; 33]);
        let mut lent = raw::Lent { table: &mut table, record: &mut numbers, work: &mut work };
        let script = script.as_ref();
        assert_eq!(raw::run(EMPTY_LISTING, &mut lent, script, &mut report[..31]), 255);
        assert_eq!(raw::run_new(EMPTY_LISTING, &mut lent, script, &mut report[..31], 8), 255);
        assert_eq!((&*lent.record, report), (&[0, 0, 0, 8][..], [1; 33]));
        lent.record = &mut lent.record[..3];
        assert_eq!(raw::run(EMPTY_LISTING, &mut lent, script, &mut report), 1);
        assert_eq!(raw::run_new(EMPTY_LISTING, &mut lent, script, &mut report, 8), 1);
        assert_eq!(told(0, &[5, 0]), Ok(vec![]));
        assert_eq!(NotRun::ShortReport.to_string(), "report too short (255)");
    }
}
