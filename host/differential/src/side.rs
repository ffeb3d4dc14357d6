//! Calls, answers and entries in plain form, and what a side of a comparison must be able to do.

use std::{collections::BTreeMap, fmt};

use cap_std::fs::content;

#[derive(Debug, Clone, PartialEq, Eq)]
pub enum Op {
    Exists,
    IsFile,
    IsDir,
    Write {
        data: Vec<u8>,
    },
    /// It is lent the bytes of the listed file that it needs, and so many more, or fewer.
    Append {
        data: Vec<u8>,
        more: i8,
    },
    WriteAt {
        data: Vec<u8>,
        offset: u64,
    },
    Mkdir {
        parents: bool,
        exist_ok: bool,
    },
    Unlink,
    Rmdir,
    Rename {
        to: String,
    },
    Show,
}

impl Op {
    pub fn name(&self) -> &'static str {
        match self {
            Op::Exists => "exists",
            Op::IsFile => "is_file",
            Op::IsDir => "is_dir",
            Op::Write { .. } => "write",
            Op::Append { .. } => "append",
            Op::WriteAt { .. } => "write_at",
            Op::Mkdir { .. } => "mkdir",
            Op::Unlink => "unlink",
            Op::Rmdir => "rmdir",
            Op::Rename { .. } => "rename",
            Op::Show => "show",
        }
    }

    /// Whether it is one of change request #103's: it changes a part of a content.
    pub fn is_partial(&self) -> bool {
        matches!(self, Op::Append { .. } | Op::WriteAt { .. })
    }

    /// Whether it leaves table and record as they were, whatever it answers.
    pub fn only_asks(&self) -> bool {
        matches!(self, Op::Exists | Op::IsFile | Op::IsDir | Op::Show)
    }
}

#[derive(Debug, Clone, PartialEq, Eq)]
pub struct Call {
    pub op: Op,
    pub path: String,
    pub limit: u64,
}

impl Call {
    pub fn new(op: Op, path: &str) -> Self {
        Self { op, path: path.to_owned(), limit: u64::MAX }
    }

    pub fn at(&self, limit: u64) -> Self {
        Self { limit, ..self.clone() }
    }

    /// Whether it moves a path onto itself.
    pub fn is_onto_itself(&self) -> bool {
        matches!(&self.op, Op::Rename { to } if *to == self.path)
    }

    /// Whether its mtime is an argument of the port.
    pub fn takes_mtime(&self) -> bool {
        matches!(self.op, Op::Write { .. } | Op::Mkdir { .. }) || self.op.is_partial()
    }
}

impl fmt::Display for Call {
    fn fmt(&self, out: &mut fmt::Formatter<'_>) -> fmt::Result {
        write!(out, "{} `{}`", self.op.name(), self.path.escape_debug())?;
        match &self.op {
            Op::Write { data } => write!(out, " {} bytes", data.len())?,
            Op::Append { data, more: 0 } => write!(out, " {} bytes", data.len())?,
            Op::Append { data, more } => write!(out, " {} bytes, {more:+} lent", data.len())?,
            Op::WriteAt { data, offset } => write!(out, " {} bytes at {offset}", data.len())?,
            Op::Mkdir { parents, exist_ok } => {
                write!(out, "{}{}", if *parents { " parents" } else { "" }, if *exist_ok { " exist_ok" } else { "" })?;
            }
            Op::Rename { to } => write!(out, " `{}`", to.escape_debug())?,
            _ => {}
        }
        if self.limit != u64::MAX {
            write!(out, " at limit {}", self.limit)?;
        }
        Ok(())
    }
}

/// Document 01's number (0 accepted), the path it names, and the length or value.
#[derive(Debug, Clone, Copy, PartialEq, Eq)]
pub struct Answer {
    pub number: u8,
    pub path: u8,
    pub value: u64,
}

impl Answer {
    pub fn accepted(value: u64) -> Self {
        Self { number: 0, path: 0, value }
    }

    pub fn refused(number: u8) -> Self {
        Self { number, path: 0, value: 0 }
    }

    pub fn named(number: u8, path: u8, name: &str) -> Self {
        Self { number, path, value: name.len() as u64 }
    }

    /// The answer of a directory shown with these names: how many bytes they are, each with a length of two before it.
    pub fn shown(names: &Result<Vec<String>, Answer>) -> Self {
        match names {
            Ok(names) => Self::accepted(names.iter().map(|name| 2 + name.len() as u64).sum()),
            Err(refusal) => *refusal,
        }
    }
}

impl fmt::Display for Answer {
    fn fmt(&self, out: &mut fmt::Formatter<'_>) -> fmt::Result {
        write!(out, "{} ({}, {})", self.number, self.path, self.value)
    }
}

/// An entry as document 01 has it: kind 1 own file, 2 reference, 3 directory, 4 deleted.
#[derive(Debug, Clone, PartialEq, Eq)]
pub struct Entry {
    pub kind: u16,
    pub mtime: u64,
    pub size: i64,
    pub body: Vec<u8>,
}

impl Entry {
    pub fn own(mtime: u64, body: Vec<u8>) -> Self {
        Self { kind: 1, mtime, size: 0, body }
    }
    pub fn reference(mtime: u64, size: i64, body: Vec<u8>) -> Self {
        Self { kind: 2, mtime, size, body }
    }
    pub fn directory(mtime: u64) -> Self {
        Self { kind: 3, mtime, size: 0, body: Vec::new() }
    }
    pub fn deleted() -> Self {
        Self { kind: 4, mtime: 0, size: 0, body: Vec::new() }
    }
}

pub type Entries = BTreeMap<String, Entry>;

/// What a body is charged. #107 changed it for the port and the model; the original has kept document 01's rule. So
/// both are here, and each side is held to the sum over the same entries by its own.
#[derive(Debug, Clone, Copy, PartialEq, Eq)]
pub enum Rule {
    /// #107: "A body's length is now charged rounded up to a multiple of 16; 0 stays 0."
    Rounded,
    /// The original's: the length.
    Length,
}

impl Rule {
    /// What a body of this length is charged; what would pass 2^64 - 1 counts as that, here and in the sum.
    pub fn body(self, length: u64) -> u64 {
        match self {
            Rule::Rounded => length.div_ceil(16).saturating_mul(16),
            Rule::Length => length,
        }
    }

    /// The charge worked out afresh.
    pub fn charge(self, entries: &Entries, entry_size: u64) -> u64 {
        let of = |(key, entry): (&String, &Entry)| {
            let bare = 256 + key.len() as u64 + entry_size;
            bare.saturating_add(self.body(entry.body.len() as u64))
        };
        entries.iter().map(of).fold(0, u64::saturating_add)
    }
}

/// The charge of the port and the model worked out afresh.
pub fn charge(entries: &Entries, entry_size: u64) -> u64 {
    Rule::Rounded.charge(entries, entry_size)
}

/// The bytes that the entries take in a table buffer.
pub fn used(entries: &Entries) -> usize {
    entries.iter().map(|(key, entry)| 24 + key.len() + entry.body.len()).sum()
}

/// The bytes of the entries, as they stand in a table from its start.
pub fn encoded(entries: &Entries) -> Vec<u8> {
    let mut table = Vec::with_capacity(used(entries));
    for (key, entry) in entries {
        table.extend((key.len() as u16).to_le_bytes());
        table.extend(entry.kind.to_le_bytes());
        table.extend((entry.body.len() as u32).to_le_bytes());
        table.extend(entry.mtime.to_le_bytes());
        table.extend(entry.size.to_le_bytes());
        table.extend(key.as_bytes());
        table.extend(&entry.body);
    }
    table
}

/// The bytes that an append is lent: those of the file of the host that is listed at this path with this size, and so
/// many more, or fewer. A file that is too long for its content to be made lends none of its own.
pub fn lent(file: Option<(&str, i64)>, more: i8) -> Vec<u8> {
    let mut bytes = file.and_then(|(path, size)| content(path, size)).unwrap_or_default();
    let length = bytes.len().saturating_add_signed(more.into());
    bytes.resize(length, 0x55);
    bytes
}

/// One of the programs compared, with the table that its calls have built so far.
pub trait Side {
    /// Does one call. The mtime is for a side that takes it as an argument.
    fn call(&mut self, call: &Call, mtime: u64) -> Answer;
    /// Every entry, deleted ones too.
    fn entries(&self) -> Entries;
    /// The charge that this side keeps.
    fn charge(&self) -> u64;
    /// The same state apart from this one.
    fn copy(&self) -> Self;
    /// Has these entries from now on, whether calls could have built them or not.
    fn load(&mut self, entries: &Entries);
}
