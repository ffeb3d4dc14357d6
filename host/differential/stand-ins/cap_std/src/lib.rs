//! Stands for the crate `cap_std`: a `Dir` over a listing held in memory instead of a directory of the host.
//! Assumes a well-formed listing (document 01) whose mtimes are times that a host can give: at least 0 and whole
//! nanoseconds, so that the originals' way from a time to an f64 gives the listed bits back.
//! Nothing changes during a call, no lookup fails but for a path that is not there, and a directory's entries come
//! ascending. A link has no target: following one stops the program, so a run that ends has followed none. Only where a
//! directory's links are to be told apart (`Links`) may the metadata of what a link leads to be asked.
//! A file may be opened and read, which adding to a listed file does; its content is made from its path and its size
//! (`content`). None is ever written.

pub mod time {
    pub struct SystemTime(pub(crate) std::time::SystemTime);

    impl SystemTime {
        pub fn into_std(self) -> std::time::SystemTime {
            self.0
        }
    }
}

pub mod fs {
    use std::{
        collections::BTreeMap,
        ffi::OsString,
        io::{self, Cursor, ErrorKind, Read, Seek, SeekFrom, Write},
        path::Path,
        rc::Rc,
        time::{Duration, UNIX_EPOCH},
    };

    use super::time::SystemTime;

    /// Where hosts may part: what document 01 fixes (`Manner::default`), and what another host does.
    #[derive(Debug, Clone, Copy, Default)]
    pub struct Manner {
        /// A directory's entries come descending instead of ascending.
        pub descending: bool,
        /// A lookup below a file fails with "not a directory" instead of "not found".
        pub below_file_fails: bool,
        pub links: Links,
    }

    /// What the metadata of a link's target is.
    #[derive(Debug, Clone, Copy, Default)]
    pub enum Links {
        /// Asking for it stops the program.
        #[default]
        Unasked,
        /// There is none: the link leads nowhere.
        Dead,
        /// That of a file.
        Live,
    }

    #[derive(Debug, Clone, Copy, PartialEq, Eq)]
    enum Kind {
        Directory,
        File,
        Link,
    }

    #[derive(Debug)]
    struct Node {
        kind: Kind,
        mtime: f64,
        size: i64,
        children: BTreeMap<String, Rc<Node>>,
    }

    impl Node {
        fn new(kind: Kind, mtime: f64, size: i64) -> Self {
            Self { kind, mtime, size, children: BTreeMap::new() }
        }
    }

    /// The bytes of the longest file whose content can be made.
    const LONGEST: i64 = 1 << 24;

    /// The content of a listed file, made so that files and their bytes differ; none where it would be too long.
    pub fn content(path: &str, size: i64) -> Option<Vec<u8>> {
        let start = path.bytes().fold(7_u8, |sum, byte| sum.wrapping_mul(31).wrapping_add(byte));
        (size <= LONGEST).then(|| (0..size).map(|at| start.wrapping_add(at as u8).wrapping_mul(167)).collect())
    }

    /// A directory of the listed tree.
    #[derive(Debug, Clone)]
    pub struct Dir {
        node: Rc<Node>,
        manner: Manner,
    }

    fn number<const N: usize>(bytes: &[u8], at: usize) -> [u8; N] {
        bytes[at..at + N].try_into().expect("a listing's field")
    }

    impl Dir {
        /// The root of the tree that `listing` lists.
        pub fn of_listing(listing: &[u8], manner: Manner) -> Self {
            let mut root = Node::new(Kind::Directory, 0.0, 0);
            let mut at = 9;
            while at < listing.len() {
                let length = usize::from(u16::from_le_bytes(number(listing, at)));
                let kind = [Kind::Directory, Kind::File, Kind::Link][usize::from(listing[at + 2]) - 1];
                let mtime = f64::from_bits(u64::from_le_bytes(number(listing, at + 3)));
                let size = i64::from_le_bytes(number(listing, at + 11));
                let path = std::str::from_utf8(&listing[at + 19..at + 19 + length]).expect("a listed path");
                let (parents, name) = path.rsplit_once('/').unwrap_or(("", path));
                let mut here = &mut root;
                for part in parents.split('/').filter(|part| !part.is_empty()) {
                    // Not shared yet while the tree is made.
                    here = Rc::get_mut(here.children.get_mut(part).expect("a listed parent")).expect("not shared");
                }
                here.children.insert(name.to_owned(), Rc::new(Node::new(kind, mtime, size)));
                at += 19 + length;
            }
            Self { node: Rc::new(root), manner }
        }

        /// The same tree with links of this sort.
        pub fn with_links(&self, links: Links) -> Self {
            Self { node: Rc::clone(&self.node), manner: Manner { links, ..self.manner } }
        }

        /// What is at `path` from here, a link as itself if it is the last component.
        fn look(&self, path: &Path) -> io::Result<&Rc<Node>> {
            let mut here = &self.node;
            for part in path.to_str().expect("a path in UTF-8").split('/').filter(|part| *part != ".") {
                match here.kind {
                    Kind::Directory => {}
                    Kind::File if self.manner.below_file_fails => return Err(ErrorKind::NotADirectory.into()),
                    Kind::File => return Err(ErrorKind::NotFound.into()),
                    Kind::Link => panic!("a link was followed on the way to {}", path.display()),
                }
                here = here.children.get(part).ok_or(ErrorKind::NotFound)?;
            }
            Ok(here)
        }

        /// What is at `path` from here, where a link would be followed.
        fn follow(&self, path: &Path) -> io::Result<&Rc<Node>> {
            let node = self.look(path)?;
            assert!(node.kind != Kind::Link, "the link {} was followed", path.display());
            Ok(node)
        }

        pub fn symlink_metadata(&self, path: impl AsRef<Path>) -> io::Result<Metadata> {
            self.look(path.as_ref()).map(|node| Metadata::of(node))
        }

        pub fn metadata(&self, path: impl AsRef<Path>) -> io::Result<Metadata> {
            let node = self.look(path.as_ref())?;
            match (node.kind, self.manner.links) {
                (Kind::Link, Links::Dead) => Err(ErrorKind::NotFound.into()),
                (Kind::Link, Links::Live) => Ok(Metadata { kind: Kind::File, mtime: 0.0, size: 0 }),
                _ => self.follow(path.as_ref()).map(|node| Metadata::of(node)),
            }
        }

        pub fn exists(&self, path: impl AsRef<Path>) -> bool {
            self.follow(path.as_ref()).is_ok()
        }

        pub fn open_dir(&self, path: impl AsRef<Path>) -> io::Result<Self> {
            let node = self.follow(path.as_ref())?;
            if node.kind == Kind::Directory {
                Ok(Self { node: Rc::clone(node), manner: self.manner })
            } else {
                Err(ErrorKind::NotADirectory.into())
            }
        }

        pub fn read_dir(&self, path: impl AsRef<Path>) -> io::Result<ReadDir> {
            let here = self.open_dir(path)?;
            Ok(ReadDir { node: here.node, manner: self.manner, last: None })
        }

        /// Opens a file to be read.
        pub fn open_with(&self, path: impl AsRef<Path>, _: &OpenOptions) -> io::Result<File> {
            let node = self.follow(path.as_ref())?;
            let path = path.as_ref().to_str().expect("a path in UTF-8");
            let content = content(path, node.size).filter(|_| node.kind == Kind::File).ok_or(ErrorKind::Unsupported)?;
            Ok(File { content: Cursor::new(content), metadata: Metadata::of(node) })
        }

        pub fn create_dir(&self, _: impl AsRef<Path>) -> io::Result<()> {
            Err(ErrorKind::Unsupported.into())
        }

        pub fn create_dir_all(&self, _: impl AsRef<Path>) -> io::Result<()> {
            Err(ErrorKind::Unsupported.into())
        }

        pub fn remove_file(&self, _: impl AsRef<Path>) -> io::Result<()> {
            Err(ErrorKind::Unsupported.into())
        }

        pub fn remove_dir(&self, _: impl AsRef<Path>) -> io::Result<()> {
            Err(ErrorKind::Unsupported.into())
        }
    }

    /// A directory's entries, one after another.
    pub struct ReadDir {
        node: Rc<Node>,
        manner: Manner,
        last: Option<String>,
    }

    impl Iterator for ReadDir {
        type Item = io::Result<DirEntry>;

        fn next(&mut self) -> Option<Self::Item> {
            use std::ops::Bound::{Excluded, Unbounded};
            let children = &self.node.children;
            let next = match (&self.last, self.manner.descending) {
                (None, false) => children.iter().next(),
                (None, true) => children.iter().next_back(),
                (Some(last), false) => children.range::<str, _>((Excluded(last.as_str()), Unbounded)).next(),
                (Some(last), true) => children.range::<str, _>((Unbounded, Excluded(last.as_str()))).next_back(),
            };
            let (name, node) = next?;
            let entry = DirEntry { name: name.clone(), kind: node.kind };
            self.last = Some(name.clone());
            Some(Ok(entry))
        }
    }

    pub struct DirEntry {
        name: String,
        kind: Kind,
    }

    impl DirEntry {
        pub fn file_name(&self) -> OsString {
            self.name.clone().into()
        }

        pub fn file_type(&self) -> io::Result<FileType> {
            Ok(FileType(self.kind))
        }
    }

    pub struct FileType(Kind);

    impl FileType {
        pub fn is_dir(&self) -> bool {
            self.0 == Kind::Directory
        }
        pub fn is_file(&self) -> bool {
            self.0 == Kind::File
        }
        pub fn is_symlink(&self) -> bool {
            self.0 == Kind::Link
        }
    }

    #[derive(Debug, Clone, Copy)]
    pub struct Metadata {
        kind: Kind,
        mtime: f64,
        size: i64,
    }

    impl Metadata {
        fn of(node: &Node) -> Self {
            Self { kind: node.kind, mtime: node.mtime, size: node.size }
        }
        pub fn is_dir(&self) -> bool {
            self.kind == Kind::Directory
        }
        pub fn is_file(&self) -> bool {
            self.kind == Kind::File
        }
        pub fn is_symlink(&self) -> bool {
            self.kind == Kind::Link
        }
        #[expect(clippy::len_without_is_empty)]
        pub fn len(&self) -> u64 {
            self.size.unsigned_abs()
        }

        /// The time whose seconds as an f64 are the listed bits.
        pub fn modified(&self) -> io::Result<SystemTime> {
            let whole = self.mtime.trunc();
            let nanoseconds = ((self.mtime - whole) * 1e9).round();
            let since = Duration::new(whole as u64, nanoseconds as u32);
            assert!(
                since.as_secs_f64().to_bits() == self.mtime.to_bits(),
                "the listed mtime {} is no time that a host gives",
                self.mtime
            );
            Ok(SystemTime(UNIX_EPOCH + since))
        }
    }

    /// An open file, to be read.
    pub struct File {
        content: Cursor<Vec<u8>>,
        metadata: Metadata,
    }

    impl File {
        pub fn metadata(&self) -> io::Result<Metadata> {
            Ok(self.metadata)
        }
    }

    impl Read for File {
        fn read(&mut self, into: &mut [u8]) -> io::Result<usize> {
            self.content.read(into)
        }
    }

    impl Write for File {
        fn write(&mut self, _: &[u8]) -> io::Result<usize> {
            Err(ErrorKind::Unsupported.into())
        }
        fn flush(&mut self) -> io::Result<()> {
            Err(ErrorKind::Unsupported.into())
        }
    }

    impl Seek for File {
        fn seek(&mut self, _: SeekFrom) -> io::Result<u64> {
            Err(ErrorKind::Unsupported.into())
        }
    }

    /// How a file would be opened; kept nowhere.
    #[derive(Default)]
    pub struct OpenOptions;

    impl OpenOptions {
        pub fn new() -> Self {
            Self
        }
        pub fn read(&mut self, _: bool) -> &mut Self {
            self
        }
        pub fn write(&mut self, _: bool) -> &mut Self {
            self
        }
        pub fn create(&mut self, _: bool) -> &mut Self {
            self
        }
        pub fn create_new(&mut self, _: bool) -> &mut Self {
            self
        }
        pub fn truncate(&mut self, _: bool) -> &mut Self {
            self
        }
        pub fn append(&mut self, _: bool) -> &mut Self {
            self
        }
    }

    pub trait OpenOptionsExt {
        fn mode(&mut self, mode: u32) -> &mut Self;
        fn custom_flags(&mut self, flags: i32) -> &mut Self;
    }

    impl OpenOptionsExt for OpenOptions {
        fn mode(&mut self, _: u32) -> &mut Self {
            self
        }
        fn custom_flags(&mut self, _: i32) -> &mut Self {
            self
        }
    }
}
