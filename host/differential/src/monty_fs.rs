//! The module tree in which the originals stand: the four files of pydantic/monty, unchanged, and two stand-ins for
//! modules of the same crate that are not here. The formatter skips the originals, and what only calls left out need
//! may stay unused.

#[path = "../original/common.rs"]
#[allow(dead_code, clippy::drop_non_drop)]
#[rustfmt::skip]
mod common;
#[path = "../original/overlay.rs"]
#[allow(dead_code)]
#[rustfmt::skip]
mod overlay;
#[path = "../original/overlay_state.rs"]
#[allow(dead_code)]
#[rustfmt::skip]
mod overlay_state;
#[path = "../original/path_security.rs"]
#[allow(dead_code)]
#[rustfmt::skip]
mod path_security;

mod original;

use error::MountError;
pub use original::{Original, entry_size};

/// Stands for `error.rs`. Assumes of an error only its kind and the path in its text, as the originals give them.
#[allow(dead_code)]
mod error {
    use std::io::{Error, ErrorKind};

    use monty_types::UnicodeErrorData;

    pub enum MountError {
        NoMountPoint(String),
        PathEscape { virtual_path: String },
        EmbeddedNullByte(&'static str),
        Io(Error, String),
        MemoryUsageLimitExceeded(u64),
        WriteLimitExceeded(u64),
        InvalidArgument(String),
        InvalidUtf8 { start: usize, end: usize, first_byte: u8, reason: &'static str, data: UnicodeErrorData },
    }

    impl MountError {
        pub fn io_err(kind: ErrorKind, text: &str, path: &str) -> Self {
            Self::Io(Error::new(kind, text), path.to_owned())
        }

        pub fn not_found(path: &str) -> Self {
            Self::io_err(ErrorKind::NotFound, "No such file or directory", path)
        }
    }
}

/// Stands for `dispatch.rs`: the requests, with the fields that `execute` takes apart. Assumes nothing of handles.
#[allow(dead_code)]
mod dispatch {
    use monty_types::{FileMode, MontyObject};

    pub enum FsRequest {
        Exists { path: String },
        IsFile { path: String },
        IsDir { path: String },
        IsSymlink { path: String },
        ReadText { path: String },
        ReadBytes { path: String },
        WriteText { path: String, data: String },
        WriteBytes { path: String, data: Vec<u8> },
        AppendText { path: String, data: String },
        AppendBytes { path: String, data: Vec<u8> },
        WriteBytesAt { path: String, offset: u64, data: Vec<u8> },
        Mkdir { path: String, parents: bool, exist_ok: bool },
        Unlink { path: String },
        Rmdir { path: String },
        Iterdir { path: String },
        Stat { path: String },
        Rename { src: String, dst: String },
        Resolve { path: String },
        Absolute { path: String },
        CreateExclusive { path: String, mode: FileMode, permissions: u32 },
        Open { path: String, mode: FileMode },
    }

    pub fn file_handle_result(_path: &str, _mode: FileMode) -> MontyObject {
        MontyObject::Other
    }
}
