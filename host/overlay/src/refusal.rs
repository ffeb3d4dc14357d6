//! Why a call is refused, and how an answer is unpacked.
use std::{error::Error, fmt};

/// Why a call was refused. A refused call has changed nothing.
///
/// `path` is 0 for the only path or the source, and 1 for the destination. `len` is that path's length, or in a mkdir
/// with parents that of the ancestor at which a file was met.
#[derive(Clone, Copy, Debug, PartialEq, Eq, Hash)]
pub enum Refusal {
    /// 1: table, record, entry size or work buffer malformed or too short; in reading a file, a table buffer of more
    /// than 16 MiB.
    MalformedTable,
    /// 2: the bytes given as listing are none.
    MalformedListing,
    /// 3: the bytes given as path are none.
    MalformedPath { path: u8 },
    /// 4: a link is met, or the root is given.
    LinkOrRoot { path: u8, len: u64 },
    /// 5: the path or one of its parents is not there.
    NotFound { path: u8, len: u64 },
    /// 6: something is at the path already.
    Exists { path: u8, len: u64 },
    /// 7: a file where a directory is asked for.
    NotADirectory { path: u8, len: u64 },
    /// 8: a directory where a file is asked for.
    IsADirectory { path: u8, len: u64 },
    /// 9: the directory has a child that is visible; a link counts.
    NotEmpty { path: u8, len: u64 },
    /// 10: the destination of a rename lies below its source.
    BelowSource { len: u64 },
    /// 11: the charge, what a rename plans, or an append's whole content beside the charge exceeds the limit.
    Limit,
    /// 12: a moved key has more than 512 bytes or 32 components.
    KeyTooLong,
    /// 13: the entries after the call are longer than the table buffer, or a kept file or names than the output.
    NoRoom,
    /// 14: not the mark and the version of a kept file, or too short for them.
    NotKept,
    /// 15: a kept file with any other damage.
    Damaged,
    /// 16: a table of another entry size than [`KEPT_ENTRY_SIZE`](crate::KEPT_ENTRY_SIZE) is not written to a file.
    OtherEntrySize,
    /// 17: the bytes lent to an append are not as many as the listed file's recorded size, or not 0 where none are
    /// needed.
    LentCount,
    /// 18: the offset of a writing inside and the data's length together exceed 2^64 − 1.
    RangeTooLarge,
}

impl Refusal {
    /// The number of this refusal, from 1 to 18.
    pub fn number(self) -> u8 {
        self.parts().0
    }

    /// The path that it names: 0 for the only path or the source, 1 for the destination.
    pub fn path(self) -> u8 {
        self.parts().1
    }

    /// The length that it names, or 0.
    pub fn length(self) -> u64 {
        self.parts().2
    }

    fn parts(self) -> (u8, u8, u64) {
        use Refusal::*;
        match self {
            MalformedTable => (1, 0, 0),
            MalformedListing => (2, 0, 0),
            MalformedPath { path } => (3, path, 0),
            LinkOrRoot { path, len } => (4, path, len),
            NotFound { path, len } => (5, path, len),
            Exists { path, len } => (6, path, len),
            NotADirectory { path, len } => (7, path, len),
            IsADirectory { path, len } => (8, path, len),
            NotEmpty { path, len } => (9, path, len),
            BelowSource { len } => (10, 0, len),
            Limit => (11, 0, 0),
            KeyTooLong => (12, 0, 0),
            NoRoom => (13, 0, 0),
            NotKept => (14, 0, 0),
            Damaged => (15, 0, 0),
            OtherEntrySize => (16, 0, 0),
            LentCount => (17, 0, 0),
            RangeTooLarge => (18, 0, 0),
        }
    }
}

/// The value of an accepted answer, or the refusal.
///
/// ```
/// use overlay::{Refusal, unpack};
/// assert_eq!(unpack(3 << 16), Ok(3));
/// assert_eq!(unpack(5 | 1 << 8 | 7 << 16), Err(Refusal::NotFound { path: 1, len: 7 }));
/// ```
///
/// # Panics
/// Where the number is none of an answer's; no call answers so.
pub fn unpack(answer: u64) -> Result<u64, Refusal> {
    use Refusal::*;
    let (path, len) = ((answer >> 8) as u8, answer >> 16);
    Err(match answer as u8 {
        0 => return Ok(len),
        1 => MalformedTable,
        2 => MalformedListing,
        3 => MalformedPath { path },
        4 => LinkOrRoot { path, len },
        5 => NotFound { path, len },
        6 => Exists { path, len },
        7 => NotADirectory { path, len },
        8 => IsADirectory { path, len },
        9 => NotEmpty { path, len },
        10 => BelowSource { len },
        11 => Limit,
        12 => KeyTooLong,
        13 => NoRoom,
        14 => NotKept,
        15 => Damaged,
        16 => OtherEntrySize,
        17 => LentCount,
        18 => RangeTooLarge,
        number => panic!("{number} is no number of an answer"),
    })
}

impl fmt::Display for Refusal {
    fn fmt(&self, f: &mut fmt::Formatter<'_>) -> fmt::Result {
        use Refusal::*;
        let what = match self {
            MalformedTable => "table, record, entry size or work buffer malformed or too short",
            MalformedListing => "listing malformed",
            MalformedPath { .. } => "path malformed",
            LinkOrRoot { .. } => "link met, or root given",
            NotFound { .. } => "not found",
            Exists { .. } => "exists",
            NotADirectory { .. } => "not a directory",
            IsADirectory { .. } => "is a directory",
            NotEmpty { .. } => "not empty",
            BelowSource { .. } => "destination below source",
            Limit => "limit exceeded",
            KeyTooLong => "a moved key is too long",
            NoRoom => "no room in the table or the output",
            NotKept => "no kept file of a known version",
            Damaged => "kept file damaged",
            OtherEntrySize => "entry size not that of a kept file",
            LentCount => "lent bytes not as many as the listed file has",
            RangeTooLarge => "offset and data length together too large",
        };
        let (number, path, len) = self.parts();
        match number {
            3 => write!(f, "{what} ({number}, path {path})"),
            4..=10 => write!(f, "{what} ({number}, path {path}, length {len})"),
            _ => write!(f, "{what} ({number})"),
        }
    }
}

impl Error for Refusal {}

#[test]
fn every_answer_is_unpacked() {
    assert_eq!(unpack(0), Ok(0));
    assert_eq!(unpack(u64::MAX << 16), Ok(u64::MAX >> 16));
    for number in 1..=18 {
        let refusal = unpack(number | 1 << 8 | 300 << 16).unwrap_err();
        let (path, length) = match number {
            1 | 2 | 11.. => (0, 0),
            3 => (1, 0),
            10 => (0, 300),
            _ => (1, 300),
        };
        assert_eq!((refusal.number() as u64, refusal.path(), refusal.length()), (number, path, length));
    }
    let refusal: Box<dyn Error> = Box::new(Refusal::NotFound { path: 1, len: 7 });
    assert_eq!(refusal.to_string(), "not found (5, path 1, length 7)");
    assert_eq!(Refusal::MalformedPath { path: 0 }.to_string(), "path malformed (3, path 0)");
    assert_eq!(Refusal::NoRoom.to_string(), "no room in the table or the output (13)");
    assert_eq!(Refusal::Damaged.to_string(), "kept file damaged (15)");
    assert_eq!(Refusal::LentCount.to_string(), "lent bytes not as many as the listed file has (17)");
}

#[test]
#[should_panic(expected = "19 is no number of an answer")]
fn no_other_number() {
    let _ = unpack(19);
}
