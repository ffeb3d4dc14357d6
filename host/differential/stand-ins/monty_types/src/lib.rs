//! Stands for the crate `monty_types`: answers, file modes and the path form of the Python side.
//! Assumes that an answer is no more than what is read off here (nothing, yes or no, a number, a list of paths), and that
//! `normalize_virtual_path` drops empty and `.` components, resolves `..`, and leaves any other absolute path as it is.
//! What only the calls left out need (texts, stat results, decoding errors) is there to compile and holds nothing.

use std::borrow::Cow;

/// What a call answers. `Other` is any answer that no compared call gives.
#[derive(Debug, Clone, PartialEq, Eq)]
pub enum MontyObject {
    None,
    Bool(bool),
    Int(i64),
    Path(String),
    List(Vec<MontyObject>),
    Other,
}

impl MontyObject {
    pub fn none() -> Self {
        Self::None
    }
    pub fn bool(value: bool) -> Self {
        Self::Bool(value)
    }
    pub fn int(value: i64) -> Self {
        Self::Int(value)
    }
    pub fn string(_: String) -> Self {
        Self::Other
    }
    pub fn bytes(_: Vec<u8>) -> Self {
        Self::Other
    }
    pub fn path(path: String) -> Self {
        Self::Path(path)
    }
    pub fn list(items: Vec<MontyObject>) -> Self {
        Self::List(items)
    }
}

pub fn file_stat(_mode: i64, _size: i64, _mtime: f64) -> MontyObject {
    MontyObject::Other
}

pub fn dir_stat(_mode: i64, _mtime: f64) -> MontyObject {
    MontyObject::Other
}

/// How a file is opened; the flag says whether as bytes.
#[derive(Debug, Clone, Copy)]
pub enum FileMode {
    Read(bool),
    ReadUpdate(bool),
    Write(bool),
    WriteUpdate(bool),
    Append(bool),
    AppendUpdate(bool),
}

pub mod scan {
    #[derive(Debug, Clone, Copy, PartialEq, Eq)]
    pub struct EntryInfo {
        pub is_dir: bool,
        pub is_file: bool,
        pub is_symlink: bool,
    }
}

pub struct UnicodeErrorData;

impl UnicodeErrorData {
    pub fn decode(_encoding: &str, _bytes: &[u8], _start: usize, _end: usize, _reason: &str) -> Self {
        Self
    }
}

pub fn utf8_error_reason(_first: u8, _length: Option<usize>) -> &'static str {
    "invalid"
}

/// The absolute path without empty, `.` and `..` components.
pub fn normalize_virtual_path(path: &str) -> Cow<'_, str> {
    let mut parts: Vec<&str> = Vec::new();
    for part in path.split('/') {
        match part {
            "" | "." => {}
            ".." => {
                parts.pop();
            }
            name => parts.push(name),
        }
    }
    let normal = format!("/{}", parts.join("/"));
    if normal == path { Cow::Borrowed(path) } else { Cow::Owned(normal) }
}
