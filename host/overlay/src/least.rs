//! What would let a rename through: the least limit, and the least length of the table buffer.
use crate::{Overlay, OverlayMut, OverlayRef, Refusal, raw, unpack};
use std::{error::Error, fmt};

/// What a rename needs to be accepted: each number is the least, with every smaller one the rename is refused. Both
/// together, with a work buffer as long as the table, are enough.
#[derive(Clone, Copy, Debug, PartialEq, Eq, Hash)]
pub struct Least {
    /// The least limit with which it is accepted when table and work buffer have 16 MiB.
    pub limit: u64,
    /// The least length of the table buffer with which it is accepted at limit 2^64 − 1 and a work buffer as long.
    pub length: u64,
}

impl fmt::Display for Least {
    fn fmt(&self, f: &mut fmt::Formatter<'_>) -> fmt::Result {
        write!(f, "needs a limit of at least {} and a table of at least {} bytes", self.limit, self.length)
    }
}

/// Why a rename was refused, and what would let it through. It has changed nothing.
#[derive(Clone, Copy, Debug, PartialEq, Eq, Hash)]
pub struct RefusedRename {
    pub refusal: Refusal,
    /// What would let it through, where it was refused with 11 or 13. None where no limit and no length would do, and
    /// with every other number.
    pub least: Option<Least>,
}

impl fmt::Display for RefusedRename {
    fn fmt(&self, f: &mut fmt::Formatter<'_>) -> fmt::Result {
        self.refusal.fmt(f)?;
        match (self.refusal, self.least) {
            (Refusal::Limit, Some(least)) => write!(f, ": needs a limit of at least {}", least.limit),
            (Refusal::NoRoom, Some(least)) => write!(f, ": needs a table of at least {} bytes", least.length),
            (Refusal::Limit | Refusal::NoRoom, None) => f.write_str(": no limit and no length would do"),
            _ => Ok(()),
        }
    }
}

impl Error for RefusedRename {
    fn source(&self) -> Option<&(dyn Error + 'static)> {
        Some(&self.refusal)
    }
}

impl OverlayRef<'_> {
    /// What would let a rename of source to destination through; see [`Overlay::least_rename`].
    pub fn least_rename(
        self,
        listing: &[u8],
        source: impl AsRef<[u8]>,
        destination: impl AsRef<[u8]>,
    ) -> Result<Option<Least>, Refusal> {
        let (record, mut least) = (<[u64; 4]>::from(self.record), [0; 2]);
        let answer = raw::least_rename(listing, self.table, &record, source.as_ref(), destination.as_ref(), &mut least);
        let [limit, length] = least;
        unpack(answer).map(|value| (value == 1).then_some(Least { limit, length }))
    }
}

impl OverlayMut<'_> {
    /// What would let a rename of source to destination through; see [`Overlay::least_rename`].
    pub fn least_rename(
        &self,
        listing: &[u8],
        source: impl AsRef<[u8]>,
        destination: impl AsRef<[u8]>,
    ) -> Result<Option<Least>, Refusal> {
        self.view().least_rename(listing, source, destination)
    }

    /// The rename, and where it is refused with 11 or 13 what would let it through; see [`Overlay::rename_or_least`].
    pub fn rename_or_least(
        &mut self,
        listing: &[u8],
        source: impl AsRef<[u8]>,
        destination: impl AsRef<[u8]>,
        limit: u64,
    ) -> Result<(), RefusedRename> {
        let (source, destination) = (source.as_ref(), destination.as_ref());
        self.rename(listing, source, destination, limit).map_err(|refusal| {
            let least = match refusal {
                // After these two it is not refused itself: table, listing and paths are well formed.
                Refusal::Limit | Refusal::NoRoom => self.least_rename(listing, source, destination).ok().flatten(),
                _ => None,
            };
            RefusedRename { refusal, least }
        })
    }
}

impl Overlay {
    /// What would let a rename of source to destination through: the least limit and the least length of the table
    /// buffer with which it is accepted, whether or not it would be refused as it is. For a move onto itself the limit
    /// is 0, and the length that of the entries. None where no limit and no length would do: 4 to 10 or 12 stands
    /// against it, a link that is met below the source too, or the entries after it would have more than 16 MiB.
    ///
    /// Refused with 1, 2 or 3, the first that holds. It changes nothing.
    ///
    /// It takes a fixed number of passes over listing and table, and no work buffer.
    ///
    /// ```
    /// use overlay::{EMPTY_LISTING, Least, Mkdir, Overlay, Refusal};
    /// let mut plan = Overlay::open(60, 0)?;
    /// plan.mkdir(EMPTY_LISTING, "a", Mkdir::default(), 0.0, u64::MAX)?;
    /// plan.write_bytes(EMPTY_LISTING, "a/f", b"xy", 0.0, u64::MAX)?;
    ///
    /// let least = plan.least_rename(EMPTY_LISTING, "a", "b")?.expect("something lets it through");
    /// assert_eq!(least, Least { limit: 1048, length: 106 });
    /// assert_eq!(least.to_string(), "needs a limit of at least 1048 and a table of at least 106 bytes");
    /// assert_eq!(plan.rename(EMPTY_LISTING, "a", "b", least.limit), Err(Refusal::NoRoom));
    ///
    /// // The same table in a buffer of that length.
    /// let (mut table, record) = plan.into_parts();
    /// table.resize(least.length as usize, 0);
    /// let mut plan = Overlay::from_parts(table, record)?;
    /// assert_eq!(plan.rename(EMPTY_LISTING, "a", "b", least.limit - 1), Err(Refusal::Limit));
    /// plan.rename(EMPTY_LISTING, "a", "b", least.limit)?;
    ///
    /// assert_eq!(plan.least_rename(EMPTY_LISTING, "b", "b/c"), Ok(None));
    /// assert_eq!(plan.least_rename(EMPTY_LISTING, "b", ".."), Err(Refusal::MalformedPath { path: 1 }));
    /// # Ok::<(), Refusal>(())
    /// ```
    pub fn least_rename(
        &self,
        listing: &[u8],
        source: impl AsRef<[u8]>,
        destination: impl AsRef<[u8]>,
    ) -> Result<Option<Least>, Refusal> {
        self.view().least_rename(listing, source, destination)
    }

    /// The same as [`rename`](Overlay::rename), and where it is refused with 11 or 13 also what would let it through,
    /// by [`least_rename`](Overlay::least_rename).
    ///
    /// Where it is refused so, it takes the passes of the two calls, else those of the rename alone.
    ///
    /// ```
    /// use overlay::{EMPTY_LISTING, Overlay, Refusal};
    /// let mut plan = Overlay::open(60, 0)?;
    /// plan.write_bytes(EMPTY_LISTING, "a", b"tram 17", 0.0, u64::MAX)?;
    ///
    /// let refused = plan.rename_or_least(EMPTY_LISTING, "a", "b", 300).unwrap_err();
    /// assert_eq!(refused.refusal, Refusal::Limit);
    /// assert_eq!(refused.to_string(), "limit exceeded (11): needs a limit of at least 530");
    /// let limit = refused.least.expect("something lets it through").limit;
    /// assert_eq!(plan.rename_or_least(EMPTY_LISTING, "a", "b", limit), Ok(()));
    ///
    /// let refused = plan.rename_or_least(EMPTY_LISTING, "b", "c", limit + 257).unwrap_err();
    /// assert_eq!(refused.to_string(), "no room in the table or the output (13): needs a table of at least 82 bytes");
    /// let refused = plan.rename_or_least(EMPTY_LISTING, "a", "c", limit).unwrap_err();
    /// assert_eq!(refused.to_string(), "not found (5, path 0, length 1)");
    /// # Ok::<(), Refusal>(())
    /// ```
    pub fn rename_or_least(
        &mut self,
        listing: &[u8],
        source: impl AsRef<[u8]>,
        destination: impl AsRef<[u8]>,
        limit: u64,
    ) -> Result<(), RefusedRename> {
        self.lend().rename_or_least(listing, source, destination, limit)
    }
}
