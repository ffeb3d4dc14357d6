//! Adding to a file and writing inside it, and which listed file's bytes adding needs.
use crate::{Entry, EntryKind, Mtime, Overlay, OverlayMut, OverlayRef, Refusal, raw};

/// A listed file by its record: the bytes of the file itself are not in the listing.
#[derive(Clone, Copy, Debug, PartialEq, Eq, Hash)]
pub struct ListedFile<'a> {
    /// The path at which it is listed.
    pub path: &'a [u8],
    /// Its recorded size in bytes.
    pub size: u64,
}

/// The bytes of a listing before its records.
const HEAD_LENGTH: usize = 9;

/// The kind of a listed file.
const FILE: u8 = 2;

/// The first record of a listing's rest: its kind, what it lists, and what stands behind it. None where no record
/// stands there.
fn first(rest: &[u8]) -> Option<(u8, ListedFile<'_>, &[u8])> {
    let (head, rest) = rest.split_at_checked(19)?;
    let (path, rest) = rest.split_at_checked(u16::from_le_bytes([head[0], head[1]]) as usize)?;
    let size = u64::from_le_bytes(head[11..].try_into().expect("eight bytes"));
    Some((head[2], ListedFile { path, size }, rest))
}

/// The file that is listed at the path.
fn listed_at<'a>(listing: &'a [u8], path: &[u8]) -> Option<ListedFile<'a>> {
    let mut rest = listing.get(HEAD_LENGTH..)?;
    while let Some((kind, listed, behind)) = first(rest) {
        if listed.path == path {
            return (kind == FILE).then_some(listed);
        }
        rest = behind;
    }
    None
}

impl<'a> OverlayRef<'a> {
    /// The listed file that is visible at the path, as itself or by a reference: the one whose bytes an append there
    /// needs. None for an own file, a directory, a link, and where nothing is visible; then an append needs no bytes.
    /// Listing and table are not checked here.
    pub fn listed_file(self, listing: &'a [u8], path: impl AsRef<[u8]>) -> Option<ListedFile<'a>> {
        let path = path.as_ref();
        match self.entries().find(|entry| entry.path == path) {
            Some(Entry { kind: EntryKind::Reference { size, listed, .. }, .. }) => {
                Some(ListedFile { path: listed, size })
            }
            Some(_) => None,
            None => listed_at(listing, path),
        }
    }
}

impl OverlayMut<'_> {
    /// The data is put behind the content of the file at the path; see [`Overlay::append_bytes`].
    pub fn append_bytes(
        &mut self,
        listing: &[u8],
        path: impl AsRef<[u8]>,
        data: &[u8],
        lent: &[u8],
        mtime: impl Into<Mtime>,
        limit: u64,
    ) -> Result<u64, Refusal> {
        let mtime = mtime.into().to_bits();
        self.change(|buffers| raw::append_bytes(listing, buffers, path.as_ref(), data, lent, mtime, limit))
    }

    /// The data is written inside the path's own file; see [`Overlay::write_file_at`].
    pub fn write_file_at(
        &mut self,
        listing: &[u8],
        path: impl AsRef<[u8]>,
        data: &[u8],
        offset: u64,
        mtime: impl Into<Mtime>,
        limit: u64,
    ) -> Result<u64, Refusal> {
        let mtime = mtime.into().to_bits();
        self.change(|buffers| raw::write_file_at(listing, buffers, path.as_ref(), data, offset, mtime, limit))
    }
}

impl Overlay {
    /// The listed file whose bytes an append at the path needs; see [`OverlayRef::listed_file`].
    pub fn listed_file<'a>(&'a self, listing: &'a [u8], path: impl AsRef<[u8]>) -> Option<ListedFile<'a>> {
        self.view().listed_file(listing, path)
    }

    /// The data is put behind the content of the file at the path, and the whole becomes the content of the path's own
    /// file, with this modification time, also where there is no data. At an absent or a deleted path a new file is
    /// made. The answer is the data's length.
    ///
    /// `lent` are the bytes of the listed file that is visible at the path, as many as its recorded size;
    /// [`listed_file`](Overlay::listed_file) says which one it is. Where it says none, no bytes are lent.
    ///
    /// Refused with 1, 2, 3; as [`write_bytes`](Overlay::write_bytes) with 4, 5 or 8; with 17 (another number of lent
    /// bytes), 11 or 13, the first that holds. Where no own file is at the path, 11 is also given if the charge before
    /// the call and the whole new content, whose length is not rounded here, together exceed the limit; this decides
    /// only at a reference.
    ///
    /// ```
    /// use overlay::{Overlay, Refusal};
    /// // A file `f` of five bytes is listed, and nothing else.
    /// let record = [&[1, 0, 2][..], &[0; 8], &[5, 0, 0, 0, 0, 0, 0, 0], b"f"].concat();
    /// let listing = [&b"RDL\x01\x00\x01\x00\x00\x00"[..], &record].concat();
    /// let mut plan = Overlay::open(100, 0)?;
    ///
    /// let file = plan.listed_file(&listing, "f").expect("a listed file");
    /// assert_eq!((file.path, file.size), (&b"f"[..], 5));
    /// assert_eq!(plan.append_bytes(&listing, "f", b" 17", b"", 1.0, u64::MAX), Err(Refusal::LentCount));
    /// assert_eq!(plan.append_bytes(&listing, "f", b" 17", b"track", 1.0, u64::MAX), Ok(3));
    ///
    /// // It is an own file now, which needs none.
    /// assert_eq!(plan.listed_file(&listing, "f"), None);
    /// assert_eq!(plan.append_bytes(&listing, "f", b"!", b"", 2.0, u64::MAX), Ok(1));
    /// # let content = overlay::EntryKind::Own { mtime: 2.0.into(), content: b"track 17!" };
    /// # assert_eq!(plan.entries().next().map(|entry| entry.kind), Some(content));
    /// # Ok::<(), Refusal>(())
    /// ```
    pub fn append_bytes(
        &mut self,
        listing: &[u8],
        path: impl AsRef<[u8]>,
        data: &[u8],
        lent: &[u8],
        mtime: impl Into<Mtime>,
        limit: u64,
    ) -> Result<u64, Refusal> {
        self.lend().append_bytes(listing, path, data, lent, mtime, limit)
    }

    /// The data is written inside the path's own file from the offset on, and the file has this modification time from
    /// now on. What stands before the offset and behind the data stays; the file grows where the data ends behind it.
    /// A gap between the file's end and the offset is filled with zeros, also where there is no data. The answer is the
    /// data's length.
    ///
    /// Refused with 1, 2, 3; with 5 (the path has no own file: a listed file, a reference and a directory too), 18
    /// (offset and length together exceed 2^64 − 1), 11 or 13, the first that holds. A charge that would pass 2^64 − 1
    /// counts as 2^64 − 1, so that at that limit 13 is given.
    ///
    /// ```
    /// use overlay::{EMPTY_LISTING, EntryKind, Overlay, Refusal};
    /// let mut plan = Overlay::open(100, 0)?;
    /// plan.write_bytes(EMPTY_LISTING, "f", b"track 17", 0.0, u64::MAX)?;
    /// assert_eq!(plan.write_file_at(EMPTY_LISTING, "f", b"k", 4, 0.0, u64::MAX), Ok(1));
    /// assert_eq!(plan.write_file_at(EMPTY_LISTING, "f", b"!", 10, 1.0, u64::MAX), Ok(1));
    /// let kind = plan.entries().next().map(|entry| entry.kind);
    /// assert_eq!(kind, Some(EntryKind::Own { mtime: 1.0.into(), content: b"track 17\0\0!" }));
    /// let absent = plan.write_file_at(EMPTY_LISTING, "g", b"", 0, 0.0, u64::MAX);
    /// assert_eq!(absent, Err(Refusal::NotFound { path: 0, len: 1 }));
    /// let far = plan.write_file_at(EMPTY_LISTING, "f", b"!", u64::MAX, 0.0, u64::MAX);
    /// assert_eq!(far, Err(Refusal::RangeTooLarge));
    /// # Ok::<(), Refusal>(())
    /// ```
    pub fn write_file_at(
        &mut self,
        listing: &[u8],
        path: impl AsRef<[u8]>,
        data: &[u8],
        offset: u64,
        mtime: impl Into<Mtime>,
        limit: u64,
    ) -> Result<u64, Refusal> {
        self.lend().write_file_at(listing, path, data, offset, mtime, limit)
    }
}
