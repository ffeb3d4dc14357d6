//! An overlay file table over a published listing.
//!
//! A table holds what was written, made, deleted and moved; the published tree below it stays as it is. The calls are
//! those of the static library `overlay`, each proved against its definition: whatever bytes are given, a call
//! ends, and a refused call changes nothing. This crate keeps the buffers and gives the answers Rust's form.
//!
//! [`Overlay`] owns its buffers, [`OverlayMut`] borrows them, and [`raw`] has the calls on plain slices.
//! [`Overlay::append_bytes`] adds to a file, a listed one too, and [`Overlay::write_file_at`] writes inside an own one.
//! [`Overlay::show`] shows a directory, and [`Overlay::walk`] goes through the whole visible tree.
//! [`Overlay::least_rename`] tells what would let a rename through, and [`Overlay::rename_or_least`] tells it where the
//! rename is refused. A [`Script`] is a list of calls, to be run as one. [`Overlay::save`] and [`Overlay::load`] keep a
//! table and its listing in a file.
//!
//! ```
//! use overlay::{EMPTY_LISTING, Mkdir, Overlay, Refusal};
//!
//! let mut plan = Overlay::open(4096, 40)?;
//! let parents = Mkdir { parents: true, ..Mkdir::default() };
//! plan.mkdir(EMPTY_LISTING, "depot/east", parents, 1.0, u64::MAX)?;
//! assert_eq!(plan.write_bytes(EMPTY_LISTING, "depot/east/track-4", b"tram 17", 2.0, u64::MAX)?, 7);
//! plan.rename(EMPTY_LISTING, "depot/east", "depot/west", u64::MAX)?;
//!
//! assert!(plan.is_file(EMPTY_LISTING, "depot/west/track-4")?);
//! assert!(!plan.exists(EMPTY_LISTING, "depot/east")?);
//! assert_eq!(plan.rmdir(EMPTY_LISTING, "depot", u64::MAX), Err(Refusal::NotEmpty { path: 0, len: 5 }));
//!
//! for name in &plan.show(EMPTY_LISTING, "depot/west")? {
//!     println!("{}", String::from_utf8_lossy(name));
//! }
//! # Ok::<(), Refusal>(())
//! ```

mod content;
mod entries;
mod kept;
mod least;
pub mod raw;
mod refusal;
mod script;
mod show;

pub use content::ListedFile;
pub use entries::{Entries, Entry, EntryKind};
pub use kept::{FileError, KEPT_ENTRY_SIZE, KEPT_OVERHEAD, KeptListing};
pub use least::{Least, RefusedRename};
pub use refusal::{Refusal, unpack};
pub use script::{NotRun, ROW_LENGTH, Row, Script};
pub use show::{NameList, Names, Node, NodeKind, Walk};

/// The bytes of the longest table, and of the longest listing.
pub const MAX_BUFFER: usize = 16_777_216;

/// The largest entry size.
pub const MAX_ENTRY_SIZE: u64 = 4_096;

/// The listing of an empty tree.
pub const EMPTY_LISTING: &[u8] = b"RDL\x01\x00\x00\x00\x00\x00";

/// The numbers that belong to a table.
#[derive(Clone, Copy, Debug, Default, PartialEq, Eq, Hash)]
pub struct Record {
    /// The bytes of the entries.
    pub used: u64,
    /// The number of entries.
    pub count: u64,
    /// The sum over the entries of 256 + key length + entry size + body length rounded up to a multiple of 16; a body
    /// of no bytes is charged none.
    pub charge: u64,
    /// What was given at opening.
    pub entry_size: u64,
}

impl From<[u64; 4]> for Record {
    fn from([used, count, charge, entry_size]: [u64; 4]) -> Record {
        Record { used, count, charge, entry_size }
    }
}

impl From<Record> for [u64; 4] {
    fn from(record: Record) -> [u64; 4] {
        [record.used, record.count, record.charge, record.entry_size]
    }
}

/// A modification time: 64 bits that are kept as they are, those of an f64.
///
/// ```
/// use overlay::Mtime;
/// assert_eq!(Mtime::from(1.5).to_bits(), 1.5f64.to_bits());
/// assert_eq!(Mtime::from_bits(0x7ff8_0000_0000_0001).to_bits(), 0x7ff8_0000_0000_0001);
/// ```
#[derive(Clone, Copy, Debug, Default, PartialEq, Eq, Hash)]
pub struct Mtime(u64);

impl Mtime {
    pub const fn from_bits(bits: u64) -> Mtime {
        Mtime(bits)
    }

    pub const fn to_bits(self) -> u64 {
        self.0
    }

    pub const fn to_f64(self) -> f64 {
        f64::from_bits(self.0)
    }
}

impl From<f64> for Mtime {
    fn from(time: f64) -> Mtime {
        Mtime(time.to_bits())
    }
}

/// How [`Overlay::mkdir`] makes a directory; the default makes the path alone and refuses one that is there.
#[derive(Clone, Copy, Debug, Default, PartialEq, Eq, Hash)]
pub struct Mkdir {
    /// Make the missing ancestors too.
    pub parents: bool,
    /// Accept a directory that is there.
    pub exist_ok: bool,
}

/// Whether the bytes are a listing.
///
/// ```
/// assert!(overlay::check_listing(overlay::EMPTY_LISTING));
/// assert!(!overlay::check_listing(b"RDL"));
/// ```
pub fn check_listing(listing: &[u8]) -> bool {
    raw::check_listing(listing)
}

/// A table with its record, to be read. It may hold any bytes: where they are no table, each query is refused.
#[derive(Clone, Copy, Debug)]
pub struct OverlayRef<'a> {
    table: &'a [u8],
    record: Record,
}

impl<'a> OverlayRef<'a> {
    pub fn new(table: &'a [u8], record: Record) -> OverlayRef<'a> {
        OverlayRef { table, record }
    }

    /// Whether the bytes are a table that agrees with the record.
    pub fn check(self) -> bool {
        raw::check_table(self.table, &<[u64; 4]>::from(self.record))
    }

    /// The bytes of the table.
    pub fn table(self) -> &'a [u8] {
        self.table
    }

    pub fn record(self) -> Record {
        self.record
    }

    /// The entries, in the order of their paths' bytes.
    pub fn entries(self) -> Entries<'a> {
        Entries::new(self.table, self.record)
    }

    /// Whether anything but a link is visible at the path.
    pub fn exists(self, listing: &[u8], path: impl AsRef<[u8]>) -> Result<bool, Refusal> {
        self.ask(raw::exists, listing, path.as_ref())
    }

    /// Whether a file is visible at the path.
    pub fn is_file(self, listing: &[u8], path: impl AsRef<[u8]>) -> Result<bool, Refusal> {
        self.ask(raw::is_file, listing, path.as_ref())
    }

    /// Whether a directory is visible at the path.
    pub fn is_dir(self, listing: &[u8], path: impl AsRef<[u8]>) -> Result<bool, Refusal> {
        self.ask(raw::is_dir, listing, path.as_ref())
    }

    fn ask(self, query: raw::Query, listing: &[u8], path: &[u8]) -> Result<bool, Refusal> {
        unpack(query(listing, self.table, &<[u64; 4]>::from(self.record), path)).map(|value| value == 1)
    }
}

/// A table, its record and a work buffer, all lent. They may hold any bytes: where the table does not agree with the
/// record, or the work buffer is shorter than the table, each call is refused with [`Refusal::MalformedTable`].
///
/// ```
/// use overlay::{EMPTY_LISTING, OverlayMut, Record, Refusal};
///
/// let (mut table, mut work, mut record) = ([0; 512], [0; 512], Record::default());
/// let mut plan = OverlayMut::new(&mut table, &mut record, &mut work);
/// plan.open(40)?;
/// plan.write_bytes(EMPTY_LISTING, "a", b"xy", 0.0, 313)?;
/// assert_eq!(plan.write_bytes(EMPTY_LISTING, "b", b"", 0.0, 609), Err(Refusal::Limit));
/// assert_eq!(record, Record { used: 27, count: 1, charge: 313, entry_size: 40 });
/// # Ok::<(), Refusal>(())
/// ```
#[derive(Debug)]
pub struct OverlayMut<'a> {
    table: &'a mut [u8],
    record: &'a mut Record,
    work: &'a mut [u8],
}

impl<'a> OverlayMut<'a> {
    pub fn new(table: &'a mut [u8], record: &'a mut Record, work: &'a mut [u8]) -> OverlayMut<'a> {
        OverlayMut { table, record, work }
    }

    /// Makes the table an empty one for entries of this size.
    pub fn open(&mut self, entry_size: u64) -> Result<(), Refusal> {
        let mut record: [u64; 4] = (*self.record).into();
        let answer = raw::open_table(self.table, &mut record, entry_size);
        *self.record = record.into();
        unpack(answer).map(drop)
    }

    /// The table and the record, to be read.
    pub fn view(&self) -> OverlayRef<'_> {
        OverlayRef::new(self.table, *self.record)
    }

    /// The data becomes the content of the path's own file. The answer is the data's length.
    pub fn write_bytes(
        &mut self,
        listing: &[u8],
        path: impl AsRef<[u8]>,
        data: &[u8],
        mtime: impl Into<Mtime>,
        limit: u64,
    ) -> Result<u64, Refusal> {
        let mtime = mtime.into().to_bits();
        self.change(|lent| raw::write_bytes(listing, lent, path.as_ref(), data, mtime, limit))
    }

    /// A directory at the path.
    pub fn mkdir(
        &mut self,
        listing: &[u8],
        path: impl AsRef<[u8]>,
        how: Mkdir,
        mtime: impl Into<Mtime>,
        limit: u64,
    ) -> Result<(), Refusal> {
        let mtime = mtime.into().to_bits();
        self.change(|lent| raw::mkdir(listing, lent, path.as_ref(), how.parents, how.exist_ok, mtime, limit)).map(drop)
    }

    /// The file at the path is deleted.
    pub fn unlink(&mut self, listing: &[u8], path: impl AsRef<[u8]>, limit: u64) -> Result<(), Refusal> {
        self.change(|lent| raw::unlink(listing, lent, path.as_ref(), limit)).map(drop)
    }

    /// The empty directory at the path is deleted.
    pub fn rmdir(&mut self, listing: &[u8], path: impl AsRef<[u8]>, limit: u64) -> Result<(), Refusal> {
        self.change(|lent| raw::rmdir(listing, lent, path.as_ref(), limit)).map(drop)
    }

    /// What is at the source, and below it, moves to the destination, whose file or empty directory goes. A move onto
    /// itself is accepted whatever the limit, and leaves table and record as they are.
    pub fn rename(
        &mut self,
        listing: &[u8],
        source: impl AsRef<[u8]>,
        destination: impl AsRef<[u8]>,
        limit: u64,
    ) -> Result<(), Refusal> {
        self.change(|lent| raw::rename(listing, lent, source.as_ref(), destination.as_ref(), limit)).map(drop)
    }

    /// Makes the calls of a script, in its order, and tells what each answered. Each gets the work buffer as the one
    /// before left it. Bytes that are no script change nothing.
    pub fn run(&mut self, listing: &[u8], script: impl AsRef<[u8]>) -> Result<Vec<Row>, NotRun> {
        let script = script.as_ref();
        let mut report = script::report_for(script);
        let answer = self.answer(|lent| raw::run(listing, lent, script, &mut report));
        script::told(answer, &report)
    }

    /// The same on the table made an empty one for entries of this size. It is that too where the bytes are no script.
    pub fn run_new(&mut self, listing: &[u8], script: impl AsRef<[u8]>, entry_size: u64) -> Result<Vec<Row>, NotRun> {
        let script = script.as_ref();
        let mut report = script::report_for(script);
        let answer = self.answer(|lent| raw::run_new(listing, lent, script, &mut report, entry_size));
        script::told(answer, &report)
    }

    fn change(&mut self, call: impl FnOnce(&mut raw::Lent) -> u64) -> Result<u64, Refusal> {
        unpack(self.answer(call))
    }

    fn answer(&mut self, call: impl FnOnce(&mut raw::Lent) -> u64) -> u64 {
        let mut record: [u64; 4] = (*self.record).into();
        let answer = call(&mut raw::Lent { table: self.table, record: &mut record, work: self.work });
        *self.record = record.into();
        answer
    }
}

/// An overlay that owns its buffers: the table, and a work buffer of the same length. Its bytes are always a table that
/// agrees with its record.
#[derive(Clone, Debug)]
pub struct Overlay {
    table: Vec<u8>,
    record: Record,
    work: Vec<u8>,
}

impl Overlay {
    /// An empty table of `capacity` bytes for entries of this size. It is refused where one of them is too large.
    ///
    /// ```
    /// use overlay::{Overlay, Refusal};
    /// assert_eq!(Overlay::open(4096, 40)?.record().charge, 0);
    /// assert_eq!(Overlay::open(4096, 4097).unwrap_err(), Refusal::MalformedTable);
    /// assert_eq!(Overlay::open(16_777_217, 40).unwrap_err(), Refusal::MalformedTable);
    /// # Ok::<(), Refusal>(())
    /// ```
    pub fn open(capacity: usize, entry_size: u64) -> Result<Overlay, Refusal> {
        let mut overlay = Overlay::unopened(capacity).ok_or(Refusal::MalformedTable)?;
        overlay.lend().open(entry_size)?;
        Ok(overlay)
    }

    /// An empty table as [`open`](Overlay::open) gives it, and the calls of a script made on it, with what each
    /// answered.
    ///
    /// ```
    /// use overlay::{EMPTY_LISTING, NotRun, Overlay, Script};
    /// let mut script = Script::new();
    /// script.write_bytes("a", b"xy", 0.0, u64::MAX);
    /// let (plan, rows) = Overlay::run_new(100, 0, EMPTY_LISTING, &script)?;
    /// assert_eq!((rows[0].answer, rows[0].charge), (Ok(2), 273));
    /// assert_eq!(plan.record().charge, 273);
    /// assert_eq!(Overlay::run_new(100, 0, EMPTY_LISTING, b"TSC").unwrap_err(), NotRun::MalformedScript);
    /// # Ok::<(), NotRun>(())
    /// ```
    pub fn run_new(
        capacity: usize,
        entry_size: u64,
        listing: &[u8],
        script: impl AsRef<[u8]>,
    ) -> Result<(Overlay, Vec<Row>), NotRun> {
        let mut overlay = Overlay::unopened(capacity).ok_or(NotRun::MalformedTable)?;
        let rows = overlay.lend().run_new(listing, script, entry_size)?;
        Ok((overlay, rows))
    }

    /// A table of these bytes, with its record. It is refused where they do not agree.
    ///
    /// ```
    /// use overlay::{EMPTY_LISTING, Overlay, Record, Refusal};
    /// let mut plan = Overlay::open(100, 0)?;
    /// plan.write_bytes(EMPTY_LISTING, "a", b"1", 0.0, u64::MAX)?;
    /// let (table, record) = plan.into_parts();
    /// assert!(Overlay::from_parts(table.clone(), Record { charge: 0, ..record }).is_err());
    /// assert!(Overlay::from_parts(table, record)?.is_file(EMPTY_LISTING, "a")?);
    /// # Ok::<(), Refusal>(())
    /// ```
    pub fn from_parts(table: Vec<u8>, record: Record) -> Result<Overlay, Refusal> {
        if !OverlayRef::new(&table, record).check() {
            return Err(Refusal::MalformedTable);
        }
        let work = vec![0; table.len()];
        Ok(Overlay { table, record, work })
    }

    /// The table's bytes and its record.
    pub fn into_parts(self) -> (Vec<u8>, Record) {
        (self.table, self.record)
    }

    /// The table and the record, to be read.
    pub fn view(&self) -> OverlayRef<'_> {
        OverlayRef::new(&self.table, self.record)
    }

    /// Buffers for a call that makes a table of them. None are made where no call would take them.
    fn unopened(capacity: usize) -> Option<Overlay> {
        let buffer = || vec![0; capacity];
        (capacity <= MAX_BUFFER).then(|| Overlay { table: buffer(), record: Record::default(), work: buffer() })
    }

    fn lend(&mut self) -> OverlayMut<'_> {
        OverlayMut::new(&mut self.table, &mut self.record, &mut self.work)
    }

    /// The bytes of the table.
    pub fn table(&self) -> &[u8] {
        &self.table
    }

    pub fn record(&self) -> Record {
        self.record
    }

    /// The entries, in the order of their paths' bytes.
    ///
    /// ```
    /// use overlay::{EMPTY_LISTING, EntryKind, Mkdir, Overlay, Refusal};
    /// let mut plan = Overlay::open(200, 0)?;
    /// plan.mkdir(EMPTY_LISTING, "a", Mkdir::default(), 1.0, u64::MAX)?;
    /// plan.write_bytes(EMPTY_LISTING, "a/f", b"xy", 2.0, u64::MAX)?;
    /// plan.unlink(EMPTY_LISTING, "a/f", u64::MAX)?;
    /// let entries: Vec<_> = plan.entries().collect();
    /// assert_eq!(entries[0].kind, EntryKind::Directory { mtime: 1.0.into() });
    /// assert_eq!((entries[1].path_str(), entries[1].kind), (Ok("a/f"), EntryKind::Deleted));
    /// # Ok::<(), Refusal>(())
    /// ```
    pub fn entries(&self) -> Entries<'_> {
        self.view().entries()
    }

    /// Whether anything but a link is visible at the path.
    pub fn exists(&self, listing: &[u8], path: impl AsRef<[u8]>) -> Result<bool, Refusal> {
        self.view().exists(listing, path)
    }

    /// Whether a file is visible at the path.
    pub fn is_file(&self, listing: &[u8], path: impl AsRef<[u8]>) -> Result<bool, Refusal> {
        self.view().is_file(listing, path)
    }

    /// Whether a directory is visible at the path.
    pub fn is_dir(&self, listing: &[u8], path: impl AsRef<[u8]>) -> Result<bool, Refusal> {
        self.view().is_dir(listing, path)
    }

    /// The data becomes the content of the path's own file, with this modification time. The answer is the data's length.
    ///
    /// ```
    /// use overlay::{EMPTY_LISTING, Mtime, Overlay, Refusal};
    /// let mut plan = Overlay::open(100, 0)?;
    /// assert_eq!(plan.write_bytes(EMPTY_LISTING, "a", b"xyz", Mtime::from_bits(7), u64::MAX), Ok(3));
    /// assert_eq!(plan.write_bytes(EMPTY_LISTING, "n/a", b"", 0.0, u64::MAX), Err(Refusal::NotFound { path: 0, len: 3 }));
    /// assert_eq!(plan.write_bytes(EMPTY_LISTING, "..", b"", 0.0, u64::MAX), Err(Refusal::MalformedPath { path: 0 }));
    /// # Ok::<(), Refusal>(())
    /// ```
    pub fn write_bytes(
        &mut self,
        listing: &[u8],
        path: impl AsRef<[u8]>,
        data: &[u8],
        mtime: impl Into<Mtime>,
        limit: u64,
    ) -> Result<u64, Refusal> {
        self.lend().write_bytes(listing, path, data, mtime, limit)
    }

    /// A directory at the path.
    ///
    /// ```
    /// use overlay::{EMPTY_LISTING, Mkdir, Overlay, Refusal};
    /// let mut plan = Overlay::open(100, 0)?;
    /// plan.mkdir(EMPTY_LISTING, "a", Mkdir::default(), 0.0, u64::MAX)?;
    /// let again = plan.mkdir(EMPTY_LISTING, "a", Mkdir::default(), 0.0, u64::MAX);
    /// assert_eq!(again, Err(Refusal::Exists { path: 0, len: 1 }));
    /// plan.mkdir(EMPTY_LISTING, "a", Mkdir { exist_ok: true, ..Mkdir::default() }, 0.0, u64::MAX)?;
    /// # Ok::<(), Refusal>(())
    /// ```
    pub fn mkdir(
        &mut self,
        listing: &[u8],
        path: impl AsRef<[u8]>,
        how: Mkdir,
        mtime: impl Into<Mtime>,
        limit: u64,
    ) -> Result<(), Refusal> {
        self.lend().mkdir(listing, path, how, mtime, limit)
    }

    /// The file at the path is deleted.
    pub fn unlink(&mut self, listing: &[u8], path: impl AsRef<[u8]>, limit: u64) -> Result<(), Refusal> {
        self.lend().unlink(listing, path, limit)
    }

    /// The empty directory at the path is deleted.
    pub fn rmdir(&mut self, listing: &[u8], path: impl AsRef<[u8]>, limit: u64) -> Result<(), Refusal> {
        self.lend().rmdir(listing, path, limit)
    }

    /// What is at the source, and below it, moves to the destination, whose file or empty directory goes. A move onto
    /// itself is accepted whatever the limit, and leaves table and record as they are.
    ///
    /// ```
    /// use overlay::{EMPTY_LISTING, Mkdir, Overlay, Refusal};
    /// let mut plan = Overlay::open(400, 0)?;
    /// plan.mkdir(EMPTY_LISTING, "a", Mkdir::default(), 0.0, u64::MAX)?;
    /// plan.rename(EMPTY_LISTING, "a", "b", u64::MAX)?;
    /// assert!(plan.is_dir(EMPTY_LISTING, "b")? && !plan.exists(EMPTY_LISTING, "a")?);
    /// assert_eq!(plan.rename(EMPTY_LISTING, "b", "b/c", u64::MAX), Err(Refusal::BelowSource { len: 1 }));
    /// assert_eq!(plan.rename(EMPTY_LISTING, "b", "", u64::MAX), Err(Refusal::LinkOrRoot { path: 1, len: 0 }));
    ///
    /// let before = plan.clone();
    /// plan.rename(EMPTY_LISTING, "b", "b", 0)?;
    /// assert_eq!((plan.table(), plan.record()), (before.table(), before.record()));
    /// assert_eq!(plan.rename(EMPTY_LISTING, "a", "a", 0), Err(Refusal::NotFound { path: 0, len: 1 }));
    /// # Ok::<(), Refusal>(())
    /// ```
    pub fn rename(
        &mut self,
        listing: &[u8],
        source: impl AsRef<[u8]>,
        destination: impl AsRef<[u8]>,
        limit: u64,
    ) -> Result<(), Refusal> {
        self.lend().rename(listing, source, destination, limit)
    }

    /// Makes the calls of a script, in its order, and tells what each answered. Bytes that are no script change
    /// nothing.
    ///
    /// ```
    /// use overlay::{EMPTY_LISTING, Mkdir, NotRun, Overlay, Refusal, Script};
    /// let mut plan = Overlay::open(100, 0).unwrap();
    /// let mut script = Script::new();
    /// script.mkdir("a", Mkdir::default(), 0.0, u64::MAX);
    /// script.unlink("a", u64::MAX);
    /// let rows = plan.run(EMPTY_LISTING, &script)?;
    /// assert_eq!(rows[1].answer, Err(Refusal::IsADirectory { path: 0, len: 1 }));
    /// assert!(plan.is_dir(EMPTY_LISTING, "a").unwrap());
    /// assert_eq!(plan.run(EMPTY_LISTING, b"TSC1"), Err(NotRun::MalformedScript));
    /// # Ok::<(), NotRun>(())
    /// ```
    pub fn run(&mut self, listing: &[u8], script: impl AsRef<[u8]>) -> Result<Vec<Row>, NotRun> {
        self.lend().run(listing, script)
    }
}
