//! The original as one side of a comparison: `execute` of overlay.rs and `write_file_at` of overlay_state.rs over a
//! listing, their answers as document 01's numbers. Assumes paths in document 01's form, a mount's name in the same
//! form, and no limit on bytes written.

use std::{io::ErrorKind, mem};

use cap_std::fs::{Dir, Links, Manner};
use monty_types::MontyObject;

use super::{
    common::{MountContext, current_timestamp},
    dispatch::FsRequest,
    error::MountError,
    overlay::execute,
    overlay_state::{OverlayEntry, OverlayFile, OverlayFileRef, OverlayState},
};
use crate::side::{Answer, Call, Entries, Entry, Op, Side};

/// The size of an entry's struct, which the original charges for every entry.
pub fn entry_size() -> u64 {
    mem::size_of::<OverlayEntry>() as u64
}

pub struct Original {
    dir: Dir,
    mount: &'static str,
    state: OverlayState,
}

impl Original {
    pub fn new(listing: &[u8], mount: &'static str, manner: Manner) -> Self {
        Self { dir: Dir::of_listing(listing, manner), mount, state: OverlayState::new() }
    }

    /// One call of `execute`; `again` spells the destination with a component `.` that normalizing drops.
    fn execute(&mut self, call: &Call, again: bool) -> Result<MontyObject, MountError> {
        let path = format!("{}/{}", self.mount, call.path);
        let request = match &call.op {
            Op::Exists => FsRequest::Exists { path },
            Op::IsFile => FsRequest::IsFile { path },
            Op::IsDir => FsRequest::IsDir { path },
            Op::Write { data } => FsRequest::WriteBytes { path, data: data.clone() },
            Op::Append { data, .. } => FsRequest::AppendBytes { path, data: data.clone() },
            Op::WriteAt { data, offset } => return self.write_file_at(call, data, *offset, &path),
            Op::Mkdir { parents, exist_ok } => FsRequest::Mkdir { path, parents: *parents, exist_ok: *exist_ok },
            Op::Unlink => FsRequest::Unlink { path },
            Op::Rmdir => FsRequest::Rmdir { path },
            Op::Show => FsRequest::Iterdir { path },
            Op::Rename { to } => {
                let dot = if again { "./" } else { "" };
                FsRequest::Rename { src: path, dst: format!("{}/{dot}{to}", self.mount) }
            }
        };
        let mut context = MountContext {
            mount_virtual: self.mount,
            mount_dir: &self.dir,
            write_bytes_used: &mut 0,
            write_bytes_limit: None,
            memory_usage_limit: call.limit,
        };
        execute(request, &mut context, &mut self.state)
    }

    /// `write_file_at` itself: `execute` has only `write_bytes_at` above it, which refuses an offset past the end.
    fn write_file_at(&mut self, call: &Call, data: &[u8], offset: u64, path: &str) -> Result<MontyObject, MountError> {
        let offset = usize::try_from(offset).expect("64 bits");
        match self.state.write_file_at(&call.path, offset, data, current_timestamp(), call.limit)? {
            true => Ok(MontyObject::Int(data.len() as i64)),
            false => Err(MountError::not_found(path)),
        }
    }

    /// The names that `iterdir` gives, in its order, over a host with links of this sort.
    pub fn show(&mut self, path: &str, links: Links) -> Result<Vec<String>, Answer> {
        let call = Call::new(Op::Show, path);
        let other = self.dir.with_links(links);
        let dir = mem::replace(&mut self.dir, other);
        let given = self.execute(&call, false);
        self.dir = dir;
        let above = format!("{}/{path}", self.mount);
        let name = |child: MontyObject| match child {
            MontyObject::Path(child) => child.strip_prefix(&above).map(|name| name.trim_start_matches('/').to_owned()),
            _ => None,
        };
        match given {
            Ok(MontyObject::List(children)) => {
                children.into_iter().map(name).collect::<Option<_>>().ok_or(Answer::refused(253))
            }
            Ok(_) => Err(Answer::refused(253)),
            Err(error) => Err(self.refusal(&call, &error)),
        }
    }

    /// The number of a refusal with its path (0 or 1) and that path's length, read off the path in the error's text.
    fn refusal(&mut self, call: &Call, error: &MountError) -> Answer {
        let (number, text) = match error {
            MountError::PathEscape { virtual_path } => (4, virtual_path),
            MountError::MemoryUsageLimitExceeded(limit) => {
                assert_eq!(*limit, call.limit, "the limit in the error");
                return Answer::refused(11);
            }
            MountError::InvalidArgument(text) if text == "write range is too large" => return Answer::refused(18),
            MountError::Io(error, path) => (io_number(error.kind()), path),
            _ => (255, &String::new()),
        };
        let prefix = self.mount.len() + 1;
        let length = text.len().saturating_sub(prefix) as u64;
        let path = match &call.op {
            Op::Rename { to } if *to == call.path => self.which_of_equal(call, number, text),
            Op::Rename { to } => u8::from(text.get(prefix..) == Some(to)),
            _ => 0,
        };
        Answer { number, path, value: length }
    }

    /// Which path a refused rename of a path to itself names: asked again with the destination spelled otherwise.
    fn which_of_equal(&mut self, call: &Call, number: u8, text: &str) -> u8 {
        match self.execute(call, true) {
            Err(MountError::PathEscape { virtual_path }) if number == 4 => u8::from(virtual_path != text),
            Err(MountError::Io(error, path)) if io_number(error.kind()) == number => u8::from(path != text),
            _ => 255,
        }
    }
}

/// The number of a host error's kind; 254 for a kind that has none.
fn io_number(kind: ErrorKind) -> u8 {
    match kind {
        ErrorKind::NotFound => 5,
        ErrorKind::AlreadyExists => 6,
        ErrorKind::NotADirectory => 7,
        ErrorKind::IsADirectory => 8,
        ErrorKind::DirectoryNotEmpty => 9,
        ErrorKind::InvalidInput => 10,
        _ => 254,
    }
}

impl Side for Original {
    fn call(&mut self, call: &Call, _mtime: u64) -> Answer {
        if call.op == Op::Show {
            return Answer::shown(&self.show(&call.path, Links::Dead));
        }
        match self.execute(call, false) {
            Ok(MontyObject::None) => Answer::accepted(0),
            Ok(MontyObject::Bool(yes)) => Answer::accepted(u64::from(yes)),
            Ok(MontyObject::Int(length)) => Answer::accepted(length.unsigned_abs()),
            Ok(_) => Answer::refused(253),
            Err(error) => self.refusal(call, &error),
        }
    }

    fn entries(&self) -> Entries {
        let entry = |entry: &OverlayEntry| match entry {
            OverlayEntry::File(file) => Entry::own(file.mtime.to_bits(), file.content.clone()),
            OverlayEntry::RealFileRef(file) => {
                Entry::reference(file.mtime.to_bits(), file.size, file.relative.clone().into_bytes())
            }
            OverlayEntry::Directory { mtime } => Entry::directory(mtime.to_bits()),
            OverlayEntry::Deleted => Entry::deleted(),
        };
        self.state.prefix_iter("").map(|(key, value)| (key.to_owned(), entry(value))).collect()
    }

    fn charge(&self) -> u64 {
        self.state.memory_usage()
    }

    fn copy(&self) -> Self {
        let mut copy = Self { dir: self.dir.clone(), mount: self.mount, state: OverlayState::new() };
        copy.load(&self.entries());
        copy
    }

    fn load(&mut self, entries: &Entries) {
        self.state = OverlayState::new();
        for (key, entry) in entries {
            let mtime = f64::from_bits(entry.mtime);
            let loaded = match entry.kind {
                1 => OverlayEntry::File(OverlayFile { content: entry.body.clone(), mtime }),
                2 => OverlayEntry::RealFileRef(OverlayFileRef {
                    relative: String::from_utf8(entry.body.clone()).expect("a listed path"),
                    mtime,
                    size: entry.size,
                }),
                3 => OverlayEntry::Directory { mtime },
                _ => OverlayEntry::Deleted,
            };
            self.state.insert_unchecked(key.clone(), loaded);
        }
    }
}
