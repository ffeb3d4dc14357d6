//! A directory shown: the names of its visible children; and, shown directory by directory, the whole visible tree.
use crate::{Overlay, OverlayRef, Refusal, raw, unpack};
use std::{
    iter::FusedIterator,
    mem,
    str::{self, Utf8Error},
};

/// The room in bytes that names are given at first.
const FIRST_ROOM: usize = 4096;

impl<'a> OverlayRef<'a> {
    /// Writes the names of the path's visible children to the start of the output, each once, ascending by bytes, each
    /// with its length in 16 bits before it, and zeros behind them. A link that no entry covers is left out. The answer
    /// goes through the names.
    ///
    /// Refused with 1, 2, 3; for a path with an entry 7 (a file) or 5 (deleted), for one without an entry 4 (a link is
    /// listed at it or at an ancestor), 7 or 5; or 13 (the output is too short), the first that holds. Refused, the
    /// output is as it was, so that it is safe to ask again with a longer one.
    ///
    /// It takes a fixed number of passes over listing, table and output.
    ///
    /// ```
    /// use overlay::{EMPTY_LISTING, Mkdir, Overlay, Refusal};
    /// let mut plan = Overlay::open(200, 0)?;
    /// plan.mkdir(EMPTY_LISTING, "a", Mkdir::default(), 0.0, u64::MAX)?;
    /// plan.write_bytes(EMPTY_LISTING, "a/yz", b"", 0.0, u64::MAX)?;
    /// let mut output = [7; 6];
    /// let mut names = plan.view().show_into(EMPTY_LISTING, "a", &mut output)?;
    /// assert_eq!((names.len(), names.next(), names.next()), (1, Some(&b"yz"[..]), None));
    /// assert_eq!(output, [2, 0, b'y', b'z', 0, 0]);
    /// assert_eq!(plan.view().show_into(EMPTY_LISTING, "a", &mut output[..3]).unwrap_err(), Refusal::NoRoom);
    /// # Ok::<(), Refusal>(())
    /// ```
    pub fn show_into<'o>(
        self,
        listing: &[u8],
        path: impl AsRef<[u8]>,
        output: &'o mut [u8],
    ) -> Result<Names<'o>, Refusal> {
        let answer = raw::show(listing, self.table, &<[u64; 4]>::from(self.record), path.as_ref(), output);
        let written = unpack(answer)? as usize;
        let output: &'o [u8] = output;
        Ok(Names::new(output.get(..written).unwrap_or(output)))
    }

    /// The names of the path's visible children, in a buffer of their own. It is refused as
    /// [`show_into`](OverlayRef::show_into) is, but for 13: a buffer that is too short is doubled, and the directory
    /// shown again.
    pub fn show(self, listing: &[u8], path: impl AsRef<[u8]>) -> Result<NameList, Refusal> {
        let path = path.as_ref();
        // Each name stands in the listing or in the table behind more than its length, so it takes less room here.
        let most = listing.len() + self.table.len();
        let mut bytes = vec![0; most.min(FIRST_ROOM)];
        loop {
            match self.show_into(listing, path, &mut bytes).map(|names| names.as_bytes().len()) {
                Ok(written) => {
                    bytes.truncate(written);
                    return Ok(NameList { bytes });
                }
                Err(Refusal::NoRoom) if bytes.len() < most => bytes.resize(most.min(2 * bytes.len()), 0),
                Err(refusal) => return Err(refusal),
            }
        }
    }

    /// All that is visible but links; see [`Walk`].
    pub fn walk(self, listing: &'a [u8]) -> Walk<'a> {
        self.walk_from(listing, "")
    }

    /// All that is visible below the directory but links; see [`Walk`].
    pub fn walk_from(self, listing: &'a [u8], path: impl AsRef<[u8]>) -> Walk<'a> {
        Walk { overlay: self, listing, path: path.as_ref().to_vec(), enters: true, above: Vec::new() }
    }
}

impl Overlay {
    /// Writes the names of the path's visible children to the start of the output; see [`OverlayRef::show_into`].
    pub fn show_into<'o>(
        &self,
        listing: &[u8],
        path: impl AsRef<[u8]>,
        output: &'o mut [u8],
    ) -> Result<Names<'o>, Refusal> {
        self.view().show_into(listing, path, output)
    }

    /// The names of the path's visible children, each once, ascending by bytes. A link that no entry covers is left
    /// out. Refused with 1, 2 or 3; for a path with an entry 7 (a file) or 5 (deleted), for one without an entry 4 (a
    /// link is listed at it or at an ancestor), 7 or 5.
    ///
    /// It takes a fixed number of passes over listing and table for each length of the buffer that is tried: 4 KiB
    /// first, then twice as much.
    ///
    /// ```
    /// use overlay::{EMPTY_LISTING, Mkdir, Overlay, Refusal};
    /// let mut plan = Overlay::open(400, 0)?;
    /// plan.mkdir(EMPTY_LISTING, "depot", Mkdir::default(), 0.0, u64::MAX)?;
    /// plan.write_bytes(EMPTY_LISTING, "depot/track-4", b"tram 17", 0.0, u64::MAX)?;
    /// plan.write_bytes(EMPTY_LISTING, "depot/track-10", b"", 0.0, u64::MAX)?;
    /// let tracks = plan.show(EMPTY_LISTING, "depot")?;
    /// assert_eq!(tracks.iter().collect::<Vec<_>>(), [&b"track-10"[..], b"track-4"]);
    /// assert_eq!(tracks.iter().strs().next(), Some(Ok("track-10")));
    /// assert_eq!(plan.show(EMPTY_LISTING, "depot/track-4"), Err(Refusal::NotADirectory { path: 0, len: 13 }));
    /// # Ok::<(), Refusal>(())
    /// ```
    pub fn show(&self, listing: &[u8], path: impl AsRef<[u8]>) -> Result<NameList, Refusal> {
        self.view().show(listing, path)
    }

    /// All that is visible but links; see [`Walk`].
    pub fn walk<'a>(&'a self, listing: &'a [u8]) -> Walk<'a> {
        self.view().walk(listing)
    }

    /// All that is visible below the directory but links; see [`Walk`].
    pub fn walk_from<'a>(&'a self, listing: &'a [u8], path: impl AsRef<[u8]>) -> Walk<'a> {
        self.view().walk_from(listing, path)
    }
}

/// The first name and what stands behind it; none where the bytes hold no name.
fn first(bytes: &[u8]) -> Option<(&[u8], &[u8])> {
    let (length, rest) = bytes.split_first_chunk()?;
    rest.split_at_checked(u16::from_le_bytes(*length) as usize)
}

/// The names of a shown directory, ascending by bytes.
#[derive(Clone, Debug)]
pub struct Names<'a> {
    rest: &'a [u8],
    left: usize,
}

impl<'a> Names<'a> {
    /// It ends at the first name that does not stand in the bytes; where they were written by a call there is none.
    fn new(bytes: &'a [u8]) -> Names<'a> {
        let (mut rest, mut left) = (bytes, 0);
        while let Some((_, behind)) = first(rest) {
            (rest, left) = (behind, left + 1);
        }
        Names { rest: bytes, left }
    }

    /// The bytes of the names that are left, each with its length in 16 bits before it.
    pub fn as_bytes(&self) -> &'a [u8] {
        self.rest
    }

    /// The names as text. Over a listing and a table that a call took, every name is UTF-8.
    pub fn strs(self) -> impl Iterator<Item = Result<&'a str, Utf8Error>> {
        self.map(str::from_utf8)
    }
}

impl<'a> Iterator for Names<'a> {
    type Item = &'a [u8];

    fn next(&mut self) -> Option<&'a [u8]> {
        let left = self.left.checked_sub(1)?;
        let (name, rest) = first(self.rest)?;
        *self = Names { rest, left };
        Some(name)
    }

    fn size_hint(&self) -> (usize, Option<usize>) {
        (self.left, Some(self.left))
    }
}

impl ExactSizeIterator for Names<'_> {}

impl FusedIterator for Names<'_> {}

/// The names of a shown directory, ascending by bytes, in a buffer of their own.
#[derive(Clone, Debug, Default, PartialEq, Eq, Hash)]
pub struct NameList {
    bytes: Vec<u8>,
}

impl NameList {
    pub fn iter(&self) -> Names<'_> {
        Names::new(&self.bytes)
    }

    /// How many names there are; they are counted.
    pub fn len(&self) -> usize {
        self.iter().len()
    }

    pub fn is_empty(&self) -> bool {
        self.bytes.is_empty()
    }

    /// The bytes as they were written: each name with its length in 16 bits before it.
    pub fn as_bytes(&self) -> &[u8] {
        &self.bytes
    }
}

impl<'a> IntoIterator for &'a NameList {
    type Item = &'a [u8];
    type IntoIter = Names<'a>;

    fn into_iter(self) -> Names<'a> {
        self.iter()
    }
}

/// What a [`Walk`] comes to.
#[derive(Clone, Debug, PartialEq, Eq, Hash)]
pub struct Node {
    /// The path from the root.
    pub path: Vec<u8>,
    /// How many names the path has behind the directory from which the walk goes: 1 for that directory's children.
    pub depth: usize,
    pub kind: NodeKind,
}

/// What is visible at a path that is shown.
#[derive(Clone, Copy, Debug, PartialEq, Eq, Hash)]
pub enum NodeKind {
    Directory,
    File,
}

impl Node {
    /// The last name of the path.
    pub fn name(&self) -> &[u8] {
        self.path.rsplit(|byte| *byte == b'/').next().unwrap_or_default()
    }

    /// The name as text. Over a listing and a table that a call took, every name is UTF-8.
    pub fn name_str(&self) -> Result<&str, Utf8Error> {
        str::from_utf8(self.name())
    }

    /// The path as text.
    pub fn path_str(&self) -> Result<&str, Utf8Error> {
        str::from_utf8(&self.path)
    }
}

/// All that is visible below a directory, in tree order: a directory, then all below it; the children of each ascend by
/// the bytes of their names. The directory itself is not among them, and links are left out as in showing.
///
/// Each item is a [`Node`], or the refusal of the call that asked for it, which ends the walk. Only the directory from
/// which the walk goes can be refused: a child that is shown as a directory can be shown itself, and nothing changes
/// between the calls.
///
/// Each directory costs one [`show`](OverlayRef::show), and each node one [`is_dir`](OverlayRef::is_dir), which tells
/// its kind; both read listing and table a fixed number of times. What is held at a time is the names of the directories
/// on the way from the start.
///
/// ```
/// use overlay::{EMPTY_LISTING, Mkdir, NodeKind, Overlay, Refusal};
/// let mut plan = Overlay::open(400, 0)?;
/// plan.mkdir(EMPTY_LISTING, "a/b", Mkdir { parents: true, ..Mkdir::default() }, 0.0, u64::MAX)?;
/// plan.write_bytes(EMPTY_LISTING, "a-b", b"", 0.0, u64::MAX)?;
/// let nodes = plan.walk(EMPTY_LISTING).collect::<Result<Vec<_>, Refusal>>()?;
/// let paths: Vec<_> = nodes.iter().map(|node| node.path_str().unwrap()).collect();
/// assert_eq!(paths, ["a", "a/b", "a-b"]);
/// assert_eq!((nodes[1].name(), nodes[1].depth, nodes[1].kind), (&b"b"[..], 2, NodeKind::Directory));
/// assert_eq!(plan.walk_from(EMPTY_LISTING, "a").count(), 1);
/// assert_eq!(plan.walk_from(EMPTY_LISTING, "n").next(), Some(Err(Refusal::NotFound { path: 0, len: 1 })));
/// # Ok::<(), Refusal>(())
/// ```
#[derive(Clone, Debug)]
pub struct Walk<'a> {
    overlay: OverlayRef<'a>,
    listing: &'a [u8],
    /// Where the walk is.
    path: Vec<u8>,
    /// Whether that is a directory whose children come next.
    enters: bool,
    /// The directories on the way, from the start.
    above: Vec<Directory>,
}

/// A directory whose children the walk goes through.
#[derive(Clone, Debug)]
struct Directory {
    path_length: usize,
    names: NameList,
    /// Where in the bytes of the names those stand that are left.
    at: usize,
}

impl Directory {
    fn next(&mut self) -> Option<&[u8]> {
        let (name, rest) = first(self.names.bytes.get(self.at..)?)?;
        self.at = self.names.bytes.len() - rest.len();
        Some(name)
    }
}

impl Walk<'_> {
    fn advance(&mut self) -> Result<Option<Node>, Refusal> {
        if mem::take(&mut self.enters) {
            let names = self.overlay.show(self.listing, &self.path)?;
            self.above.push(Directory { path_length: self.path.len(), names, at: 0 });
        }
        while let Some(directory) = self.above.last_mut() {
            self.path.truncate(directory.path_length);
            let Some(name) = directory.next() else {
                self.above.pop();
                continue;
            };
            if !self.path.is_empty() {
                self.path.push(b'/');
            }
            self.path.extend(name);
            self.enters = self.overlay.is_dir(self.listing, &self.path)?;
            let kind = if self.enters { NodeKind::Directory } else { NodeKind::File };
            return Ok(Some(Node { path: self.path.clone(), depth: self.above.len(), kind }));
        }
        Ok(None)
    }
}

impl Iterator for Walk<'_> {
    type Item = Result<Node, Refusal>;

    fn next(&mut self) -> Option<Result<Node, Refusal>> {
        let node = self.advance();
        if node.is_err() {
            self.above.clear();
        }
        node.transpose()
    }
}

impl FusedIterator for Walk<'_> {}

#[cfg(test)]
mod tests {
    use super::*;

    /// Bytes that no call writes: the names end where one does not stand there.
    #[test]
    fn bytes_that_are_no_names() {
        for (bytes, names) in [
            (&b""[..], &[][..]),
            (b"\x01", &[]),
            (b"\x01\x00", &[]),
            (b"\x00\x00", &[&b""[..]]),
            (b"\x01\x00a\x02\x00b", &[b"a"]),
            (b"\x01\x00a\xff\xff", &[b"a"]),
        ] {
            let given = Names::new(bytes);
            assert_eq!(given.len(), names.len());
            assert_eq!(given.collect::<Vec<_>>(), names);
        }
        let mut directory = Directory { path_length: 0, names: NameList { bytes: b"\x01\x00a\x01".to_vec() }, at: 0 };
        assert_eq!((directory.next().map(<[u8]>::to_vec), directory.next()), (Some(b"a".to_vec()), None));
    }
}
