//! A real directory that holds a tree, and the kernel's calls on it.

use std::{
    collections::BTreeMap,
    env,
    fs::{self, File},
    io,
    os::unix::fs::symlink,
    path::{Path, PathBuf},
    process,
    time::{Duration, UNIX_EPOCH},
};

use differential::{
    listing::{Kind, Tree},
    side::{Call, Entries, Op},
};

/// What is seen at a path. A file has its content and its modification time in nanoseconds.
#[derive(Debug, Clone, PartialEq, Eq)]
pub enum Shown {
    Directory,
    File(Vec<u8>, u128),
    Link,
}

pub type Visible = BTreeMap<String, Shown>;

/// What a listed file holds on disk: its own path, so that a moved one can be told from any other.
fn listed_content(path: &[u8]) -> Vec<u8> {
    [b"listed: ".as_slice(), path].concat()
}

fn nanoseconds(mtime: u64) -> u128 {
    Duration::from_secs_f64(f64::from_bits(mtime)).as_nanos()
}

/// The visible tree of a table over a listing.
pub fn shown(listing: &Tree, entries: &Entries) -> Visible {
    let mut visible = Visible::new();
    for (path, node) in listing.iter().filter(|(path, _)| !entries.contains_key(*path)) {
        let here = match node.kind {
            Kind::Directory => Shown::Directory,
            Kind::File => Shown::File(listed_content(path.as_bytes()), nanoseconds(node.mtime)),
            Kind::Link => Shown::Link,
        };
        visible.insert(path.clone(), here);
    }
    for (path, entry) in entries.iter().filter(|(_, entry)| entry.kind != 4) {
        let here = match entry.kind {
            1 => Shown::File(entry.body.clone(), nanoseconds(entry.mtime)),
            2 => Shown::File(listed_content(&entry.body), nanoseconds(entry.mtime)),
            _ => Shown::Directory,
        };
        visible.insert(path.clone(), here);
    }
    visible
}

/// Where the directories are made.
pub fn folder() -> PathBuf {
    let memory = Path::new("/dev/shm");
    if memory.is_dir() { memory.to_owned() } else { env::temp_dir() }
}

pub struct Field {
    root: PathBuf,
}

impl Field {
    pub fn new(listing: &Tree) -> Self {
        let field = Self { root: folder().join(format!("overlay-field-{}", process::id())) };
        field.remake(&shown(listing, &Entries::new()));
        field
    }

    fn at(&self, path: &str) -> PathBuf {
        if path.is_empty() { self.root.clone() } else { self.root.join(path) }
    }

    /// Makes the directory hold this tree and nothing else.
    pub fn remake(&self, tree: &Visible) {
        let _ = fs::remove_dir_all(&self.root);
        fs::create_dir(&self.root).expect("a folder of its own");
        for (path, here) in tree {
            let path = self.at(path);
            match here {
                Shown::Directory => fs::create_dir(path),
                Shown::File(content, time) => put(&path, content, *time),
                Shown::Link => symlink("/nowhere/at/all", path),
            }
            .expect("the tree on disk");
        }
    }

    /// The tree on disk.
    pub fn read(&self) -> Visible {
        let mut tree = Visible::new();
        let mut waiting = vec![String::new()];
        while let Some(directory) = waiting.pop() {
            for entry in fs::read_dir(self.at(&directory)).expect("a directory") {
                let name = entry.expect("an entry").file_name().into_string().expect("a name in UTF-8");
                let path = if directory.is_empty() { name } else { format!("{directory}/{name}") };
                let on_disk = self.at(&path);
                let about = fs::symlink_metadata(&on_disk).expect("just listed");
                let here = if about.is_dir() {
                    waiting.push(path.clone());
                    Shown::Directory
                } else if about.is_symlink() {
                    Shown::Link
                } else {
                    let time = about.modified().expect("a time").duration_since(UNIX_EPOCH).expect("after 1970");
                    Shown::File(fs::read(&on_disk).expect("a file"), time.as_nanos())
                };
                tree.insert(path, here);
            }
        }
        tree
    }

    /// The names in a directory as the kernel lists it, ascending, links left out; refused, its errno.
    pub fn names(&self, path: &str) -> Result<Vec<String>, i32> {
        let listed = fs::read_dir(self.at(path)).map_err(|error| error.raw_os_error().unwrap_or(-1))?;
        let kept = listed
            .map(|entry| entry.expect("an entry"))
            .filter(|entry| !entry.file_type().expect("a type").is_symlink());
        let mut names: Vec<String> =
            kept.map(|entry| entry.file_name().into_string().expect("a name in UTF-8")).collect();
        names.sort_unstable();
        Ok(names)
    }

    /// The call done by the kernel; refused, its errno.
    pub fn call(&self, call: &Call, mtime: u64) -> Result<(), i32> {
        let path = self.at(&call.path);
        let done = match &call.op {
            Op::Write { data } => put(&path, data, nanoseconds(mtime)),
            Op::Mkdir { parents, exist_ok } => self.mkdir(&call.path, *parents, *exist_ok),
            Op::Unlink => fs::remove_file(path),
            Op::Rmdir => fs::remove_dir(path),
            Op::Rename { to } => fs::rename(path, self.at(to)),
            // Not among the calls that are tried here.
            Op::Exists | Op::IsFile | Op::IsDir | Op::Show | Op::Append { .. } | Op::WriteAt { .. } => Ok(()),
        };
        done.map_err(|error| error.raw_os_error().unwrap_or(-1))
    }

    /// mkdir(); with parents, one for each missing ancestor first; with exist_ok, a directory that is there will do.
    fn mkdir(&self, path: &str, parents: bool, exist_ok: bool) -> io::Result<()> {
        for (at, _) in path.match_indices('/').filter(|_| parents) {
            let above = self.at(&path[..at]);
            if !fs::symlink_metadata(&above).is_ok_and(|about| about.is_dir()) {
                match fs::create_dir(&above) {
                    // A file or a link there is no ancestor: the next mkdir() says why.
                    Err(error) if error.kind() != io::ErrorKind::AlreadyExists => return Err(error),
                    _ => {}
                }
            }
        }
        let path = self.at(path);
        match fs::create_dir(&path) {
            Err(_) if exist_ok && fs::symlink_metadata(&path).is_ok_and(|about| about.is_dir()) => Ok(()),
            done => done,
        }
    }
}

impl Drop for Field {
    fn drop(&mut self) {
        let _ = fs::remove_dir_all(&self.root);
    }
}

/// Creates or empties the file, writes the content, and sets the modification time.
fn put(path: &Path, content: &[u8], time: u128) -> io::Result<()> {
    fs::write(path, content)?;
    let since = Duration::from_nanos(u64::try_from(time).expect("a time of this age"));
    File::options().write(true).open(path)?.set_modified(UNIX_EPOCH + since)
}
