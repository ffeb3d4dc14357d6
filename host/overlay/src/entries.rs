//! The entries in a table's bytes.
use crate::{Mtime, Record};

/// An entry of a table.
#[derive(Clone, Copy, Debug, PartialEq)]
pub struct Entry<'a> {
    /// The path that it stands for.
    pub path: &'a [u8],
    pub kind: EntryKind<'a>,
}

/// What an entry says of its path.
#[derive(Clone, Copy, Debug, PartialEq)]
pub enum EntryKind<'a> {
    /// A file whose content stands in the table.
    Own { mtime: Mtime, content: &'a [u8] },
    /// A file whose content is that of a listed path.
    Reference { mtime: Mtime, size: u64, listed: &'a [u8] },
    /// A directory.
    Directory { mtime: Mtime },
    /// Nothing: what the listing has there is deleted.
    Deleted,
}

impl<'a> Entry<'a> {
    /// The path as text. In a table that [`check_table`](crate::raw::check_table) takes, every path is UTF-8.
    pub fn path_str(&self) -> Result<&'a str, std::str::Utf8Error> {
        std::str::from_utf8(self.path)
    }
}

/// The entries of a table, in the order of their keys' bytes. It ends at the first entry that does not stand in the
/// bytes; in a table that agrees with its record there is none.
#[derive(Clone, Debug)]
pub struct Entries<'a> {
    rest: &'a [u8],
    left: u64,
}

impl<'a> Entries<'a> {
    pub(crate) fn new(table: &'a [u8], record: Record) -> Entries<'a> {
        Entries { rest: table, left: record.count }
    }
}

impl<'a> Iterator for Entries<'a> {
    type Item = Entry<'a>;

    fn next(&mut self) -> Option<Entry<'a>> {
        let left = self.left.checked_sub(1)?;
        let (head, rest) = self.rest.split_at_checked(24)?;
        let key_length = u16::from_le_bytes([head[0], head[1]]) as usize;
        let body_length = u32::from_le_bytes([head[4], head[5], head[6], head[7]]) as usize;
        let word = |at: usize| u64::from_le_bytes(head[at..at + 8].try_into().expect("eight bytes"));
        let (path, rest) = rest.split_at_checked(key_length)?;
        let (body, rest) = rest.split_at_checked(body_length)?;
        let (mtime, size) = (Mtime::from_bits(word(8)), word(16));
        let kind = match u16::from_le_bytes([head[2], head[3]]) {
            1 => EntryKind::Own { mtime, content: body },
            2 => EntryKind::Reference { mtime, size, listed: body },
            3 => EntryKind::Directory { mtime },
            4 => EntryKind::Deleted,
            _ => return None,
        };
        *self = Entries { rest, left };
        Some(Entry { path, kind })
    }
}
