//! Kept files: a table of entry size 40 with its listing, as the bytes of a file and as a file on disk.
use crate::{MAX_BUFFER, Overlay, OverlayMut, OverlayRef, Refusal, raw, unpack};
use std::{
    error::Error,
    fmt,
    fs::{self, File},
    io::{self, ErrorKind, Read, Write},
    ops::{Deref, Range},
    path::{Path, PathBuf},
    process,
    sync::atomic::{AtomicU64, Ordering},
};

/// What a kept file has beside its listing and its entries, in bytes.
pub const KEPT_OVERHEAD: usize = 13;

/// The entry size of a table that is kept in a file; it is not written there.
pub const KEPT_ENTRY_SIZE: u64 = 40;

/// The bytes of the longest kept file: the listing and the entries have at most 16 MiB each.
const LONGEST: usize = KEPT_OVERHEAD + 2 * MAX_BUFFER;

impl OverlayRef<'_> {
    /// Writes table and listing as a kept file to the start of the output, with zeros behind. The answer is the file's
    /// length. Refused with 1, 2, 16 (another entry size than 40) or 13 (the output is too short), the first that
    /// holds.
    ///
    /// ```
    /// use overlay::{EMPTY_LISTING, KEPT_OVERHEAD, OverlayRef, Record, Refusal};
    /// let plan = OverlayRef::new(&[], Record { entry_size: 40, ..Record::default() });
    /// let mut output = [7; 23];
    /// assert_eq!(plan.keep_into(EMPTY_LISTING, &mut output), Ok(KEPT_OVERHEAD + 9));
    /// assert_eq!(&output, b"OVT\x01\0\x09\0\0\0RDL\x01\0\0\0\0\0\0\0\0\0\0");
    /// assert_eq!(plan.keep_into(EMPTY_LISTING, &mut output[..21]), Err(Refusal::NoRoom));
    /// # Ok::<(), Refusal>(())
    /// ```
    pub fn keep_into(self, listing: &[u8], output: &mut [u8]) -> Result<usize, Refusal> {
        let answer = raw::write_kept(listing, self.table, &<[u64; 4]>::from(self.record), output);
        unpack(answer).map(|length| length as usize)
    }

    /// Table and listing as the bytes of a kept file.
    pub fn keep(self, listing: &[u8]) -> Result<Vec<u8>, Refusal> {
        // A record that counts more bytes than the table has is refused before the output is looked at.
        let used = self.record.used.min(self.table.len() as u64) as usize;
        let mut file = vec![0; KEPT_OVERHEAD + listing.len() + used];
        let length = self.keep_into(listing, &mut file)?;
        file.truncate(length);
        Ok(file)
    }
}

impl OverlayMut<'_> {
    /// Reads a kept file into the table and its record. The answer is the listing, as its part of the file. What the
    /// table held before does not matter, and the work buffer stays as it is. Refused with 1 (a table buffer of more
    /// than 16 MiB), 14, 15 or 13 (the table buffer is shorter than the entries), the first that holds.
    ///
    /// ```
    /// use overlay::{EMPTY_LISTING, Overlay, OverlayMut, Record, Refusal};
    /// let mut plan = Overlay::open(100, 40)?;
    /// plan.write_bytes(EMPTY_LISTING, "a", b"xy", 0.0, u64::MAX)?;
    /// let file = plan.keep(EMPTY_LISTING)?;
    ///
    /// let (mut table, mut work, mut record) = ([7; 200], [7; 200], Record::default());
    /// let mut read = OverlayMut::new(&mut table, &mut record, &mut work);
    /// assert_eq!(read.read_kept(&file[1..]), Err(Refusal::NotKept));
    /// let listing = read.read_kept(&file)?;
    /// assert_eq!(listing, EMPTY_LISTING);
    /// read.unlink(listing, "a", u64::MAX)?;
    /// # Ok::<(), Refusal>(())
    /// ```
    pub fn read_kept<'f>(&mut self, file: &'f [u8]) -> Result<&'f [u8], Refusal> {
        self.read_place(file).map(|place| &file[place])
    }

    /// The same, with the answer where the listing stands in the file.
    fn read_place(&mut self, file: &[u8]) -> Result<Range<usize>, Refusal> {
        let (mut record, mut place) = (<[u64; 4]>::from(*self.record), [0; 2]);
        let answer = raw::read_kept(file, self.table, &mut record, &mut place);
        *self.record = record.into();
        unpack(answer)?;
        let [start, length] = place.map(|number| number as usize);
        Ok(start..start + length)
    }
}

impl Overlay {
    /// Table and listing as the bytes of a kept file. Only a table of entry size 40 can be kept.
    ///
    /// ```
    /// use overlay::{EMPTY_LISTING, Overlay, Refusal};
    /// let file = Overlay::open(4096, 40)?.keep(EMPTY_LISTING)?;
    /// assert_eq!(file.len(), 22);
    /// assert_eq!(Overlay::open(4096, 41)?.keep(EMPTY_LISTING), Err(Refusal::OtherEntrySize));
    /// # Ok::<(), Refusal>(())
    /// ```
    pub fn keep(&self, listing: &[u8]) -> Result<Vec<u8>, Refusal> {
        self.view().keep(listing)
    }

    /// The table of a kept file in a buffer of `capacity` bytes, and the listing, as its part of the file. Calls go on
    /// from there over that listing. The charge is not in the file: it is summed as [`charge`](crate::Record::charge)
    /// says, also where the file was written when bodies were charged without rounding.
    ///
    /// ```
    /// use overlay::{EMPTY_LISTING, Overlay, Refusal};
    /// let mut plan = Overlay::open(100, 40)?;
    /// plan.write_bytes(EMPTY_LISTING, "a", b"xy", 0.0, u64::MAX)?;
    /// let file = plan.keep(EMPTY_LISTING)?;
    ///
    /// let (mut plan, listing) = Overlay::read_kept(&file, 4096)?;
    /// plan.rename(listing, "a", "b", u64::MAX)?;
    /// assert_eq!(Overlay::read_kept(&file, 26).unwrap_err(), Refusal::NoRoom);
    /// assert_eq!(Overlay::read_kept(&file[..40], 26).unwrap_err(), Refusal::Damaged);
    /// assert_eq!(Overlay::read_kept(EMPTY_LISTING, 26).unwrap_err(), Refusal::NotKept);
    /// # Ok::<(), Refusal>(())
    /// ```
    pub fn read_kept(file: &[u8], capacity: usize) -> Result<(Overlay, &[u8]), Refusal> {
        let (overlay, place) = Overlay::read_place(file, capacity)?;
        Ok((overlay, &file[place]))
    }

    fn read_place(file: &[u8], capacity: usize) -> Result<(Overlay, Range<usize>), Refusal> {
        let mut overlay = Overlay::unopened(capacity).ok_or(Refusal::MalformedTable)?;
        let place = overlay.lend().read_place(file)?;
        Ok((overlay, place))
    }

    /// Saves table and listing as a kept file at the path. An earlier file there is replaced, and is not lost where the
    /// saving fails: the new one is written to the same folder first, under a name that begins with `.overlay-`, and
    /// takes the path once it is whole and on the disk. Where something else is at the path, a directory or a link,
    /// that is an error.
    ///
    /// ```
    /// use overlay::{EMPTY_LISTING, FileError, Overlay};
    /// # let path = std::env::temp_dir().join(format!("overlay-example-{}.ovt", std::process::id()));
    /// let mut plan = Overlay::open(4096, 40)?;
    /// plan.write_bytes(EMPTY_LISTING, "track-4", b"tram 17", 2.0, u64::MAX)?;
    ///
    /// plan.save(EMPTY_LISTING, &path)?;
    /// let (mut plan, listing) = Overlay::load(&path, 4096)?;
    ///
    /// assert!(plan.is_file(&listing, "track-4")?);
    /// plan.unlink(&listing, "track-4", u64::MAX)?;
    /// # std::fs::remove_file(&path)?;
    /// # Ok::<(), FileError>(())
    /// ```
    pub fn save(&self, listing: &[u8], path: impl AsRef<Path>) -> Result<(), FileError> {
        let bytes = self.keep(listing)?;
        Ok(replace(path.as_ref(), |file| file.write_all(&bytes))?)
    }

    /// The table of the kept file at the path, in a buffer of `capacity` bytes, and its listing.
    pub fn load(path: impl AsRef<Path>, capacity: usize) -> Result<(Overlay, KeptListing), FileError> {
        let mut file = Vec::new();
        // Of a file that is too long, so many bytes are refused as all of them would be.
        File::open(path)?.take(LONGEST as u64 + 1).read_to_end(&mut file)?;
        let (overlay, place) = Overlay::read_place(&file, capacity)?;
        Ok((overlay, KeptListing { file, place }))
    }
}

/// The listing of a kept file that was loaded. It owns the bytes of the whole file and dereferences to the part of them
/// that is the listing.
#[derive(Clone, Debug)]
pub struct KeptListing {
    file: Vec<u8>,
    place: Range<usize>,
}

impl KeptListing {
    /// The bytes of the whole file.
    pub fn file(&self) -> &[u8] {
        &self.file
    }
}

impl Deref for KeptListing {
    type Target = [u8];

    fn deref(&self) -> &[u8] {
        &self.file[self.place.clone()]
    }
}

impl AsRef<[u8]> for KeptListing {
    fn as_ref(&self) -> &[u8] {
        self
    }
}

/// Why a kept file was not saved or not loaded.
#[derive(Debug)]
pub enum FileError {
    /// The file could not be written or read.
    Io(io::Error),
    /// The call that writes or reads its bytes was refused.
    Refused(Refusal),
}

impl From<io::Error> for FileError {
    fn from(error: io::Error) -> FileError {
        FileError::Io(error)
    }
}

impl From<Refusal> for FileError {
    fn from(refusal: Refusal) -> FileError {
        FileError::Refused(refusal)
    }
}

impl fmt::Display for FileError {
    fn fmt(&self, f: &mut fmt::Formatter<'_>) -> fmt::Result {
        match self {
            FileError::Io(error) => error.fmt(f),
            FileError::Refused(refusal) => refusal.fmt(f),
        }
    }
}

impl Error for FileError {
    fn source(&self) -> Option<&(dyn Error + 'static)> {
        Some(match self {
            FileError::Io(error) => error,
            FileError::Refused(refusal) => refusal,
        })
    }
}

/// Puts a file that `write` fills at the path, in the place of an earlier one. That one is there until the new file is
/// whole and on the disk.
fn replace(path: &Path, write: impl FnOnce(&mut File) -> io::Result<()>) -> io::Result<()> {
    // A renaming would put the file in the place of a link or a device as well.
    if fs::symlink_metadata(path).is_ok_and(|found| !found.is_file()) {
        return Err(io::Error::new(ErrorKind::InvalidInput, "what is at the path is no file"));
    }
    let (temporary, mut file) = created_beside(path)?;
    let done = write(&mut file).and_then(|()| file.sync_all()).and_then(|()| fs::rename(&temporary, path));
    if done.is_err() {
        // The first error is the one that is told.
        let _ = fs::remove_file(&temporary);
    }
    done
}

/// A new file in the folder of the path, under a name that nothing else has.
fn created_beside(path: &Path) -> io::Result<(PathBuf, File)> {
    static NEXT: AtomicU64 = AtomicU64::new(0);
    if path.file_name().is_none() {
        return Err(io::Error::new(ErrorKind::InvalidInput, "the path names no file"));
    }
    loop {
        let number = NEXT.fetch_add(1, Ordering::Relaxed);
        let temporary = path.with_file_name(format!(".overlay-{}-{number}", process::id()));
        match File::create_new(&temporary) {
            Err(error) if error.kind() == ErrorKind::AlreadyExists => {}
            created => return created.map(|file| (temporary, file)),
        }
    }
}

#[cfg(test)]
mod tests {
    use super::*;
    use std::env;

    /// A folder of its own, gone with the value.
    struct Folder(PathBuf);

    impl Folder {
        fn new(name: &str) -> Folder {
            let folder = env::temp_dir().join(format!("overlay-{name}-{}", process::id()));
            fs::create_dir(&folder).unwrap();
            Folder(folder)
        }

        fn names(&self) -> Vec<String> {
            let name = |entry: io::Result<fs::DirEntry>| entry.unwrap().file_name().into_string().unwrap();
            let mut names: Vec<String> = fs::read_dir(&self.0).unwrap().map(name).collect();
            names.sort();
            names
        }
    }

    impl Drop for Folder {
        fn drop(&mut self) {
            let _ = fs::remove_dir_all(&self.0);
        }
    }

    #[test]
    fn a_writing_that_fails_midway_loses_nothing() {
        let folder = Folder::new("midway");
        let path = folder.0.join("night.ovt");
        replace(&path, |file| file.write_all(b"the earlier one")).unwrap();
        let failed = replace(&path, |file| {
            file.write_all(b"half of the ne")?;
            Err(io::Error::other("the disk is full"))
        });
        assert_eq!(failed.unwrap_err().to_string(), "the disk is full");
        assert_eq!(fs::read(&path).unwrap(), b"the earlier one");
        assert_eq!(folder.names(), ["night.ovt"]);
        replace(&path, |file| file.write_all(b"the next")).unwrap();
        assert_eq!(fs::read(&path).unwrap(), b"the next");
        assert_eq!(folder.names(), ["night.ovt"]);
    }

    #[test]
    fn only_a_file_is_replaced() {
        let folder = Folder::new("replaced");
        let (link, directory, absent) = (folder.0.join("link"), folder.0.join("directory"), folder.0.join("no/file"));
        std::os::unix::fs::symlink("directory", &link).unwrap();
        fs::create_dir(&directory).unwrap();
        for path in [&link, &directory, &absent, Path::new("/"), Path::new("..")] {
            assert!(replace(path, |_| Ok(())).is_err(), "{}", path.display());
        }
        assert!(fs::symlink_metadata(&link).unwrap().is_symlink());
        assert_eq!(folder.names(), ["directory", "link"]);
    }

    /// Files that an ended process left are passed over.
    #[test]
    fn names_that_are_taken() {
        let folder = Folder::new("taken");
        let path = folder.0.join("night.ovt");
        let (first, _) = created_beside(&path).unwrap();
        let number: u64 = first.to_str().unwrap().rsplit_once('-').unwrap().1.parse().unwrap();
        for next in number + 1..number + 4 {
            fs::write(path.with_file_name(format!(".overlay-{}-{next}", process::id())), "").unwrap();
        }
        replace(&path, |file| file.write_all(b"kept")).unwrap();
        assert_eq!(fs::read(&path).unwrap(), b"kept");
        assert_eq!(folder.names().len(), 5);
    }
}
