//! Listings: written as text in tests (`a/` directory, `a` file, `a@` link), as a tree, and as document 01's bytes.

use std::collections::BTreeMap;

#[derive(Debug, Clone, Copy, PartialEq, Eq, PartialOrd, Ord)]
pub enum Kind {
    Directory = 1,
    File = 2,
    Link = 3,
}

#[derive(Debug, Clone, PartialEq, Eq)]
pub struct Node {
    pub kind: Kind,
    pub mtime: u64,
    pub size: i64,
}

pub type Tree = BTreeMap<String, Node>;

/// The tree of a text of paths with a space between. Its nth path has mtime n and a quarter and, if a file, size 5 n.
pub fn tree(text: &str) -> Tree {
    let node = |(n, word): (usize, &str)| {
        let (path, kind) = match (word.strip_suffix('/'), word.strip_suffix('@')) {
            (Some(path), _) => (path, Kind::Directory),
            (_, Some(path)) => (path, Kind::Link),
            _ => (word, Kind::File),
        };
        let mtime = if kind == Kind::Link { 0 } else { (n as f64 + 0.25).to_bits() };
        let size = if kind == Kind::File { 5 * n as i64 } else { 0 };
        (path.to_owned(), Node { kind, mtime, size })
    };
    text.split(' ').filter(|word| !word.is_empty()).enumerate().map(node).collect()
}

/// Document 01's listing L.
pub fn listing_l() -> Tree {
    let mut tree = tree("a/ a/f l@ z");
    for (path, mtime, size) in [("a", 1.0_f64, 0), ("a/f", 2.0, 5), ("z", 0.0, 0)] {
        let node = tree.get_mut(path).expect("listed");
        (node.mtime, node.size) = (mtime.to_bits(), size);
    }
    tree
}

/// The text of a tree.
pub fn text(tree: &Tree) -> String {
    let word = |(path, node): (&String, &Node)| {
        let mark = match node.kind {
            Kind::Directory => "/",
            Kind::File => "",
            Kind::Link => "@",
        };
        format!("{}{mark}", path.escape_debug())
    };
    tree.iter().map(word).collect::<Vec<_>>().join(" ")
}

/// The listing's bytes.
pub fn bytes(tree: &Tree) -> Vec<u8> {
    let mut out = b"RDL\x01\x00".to_vec();
    out.extend((tree.len() as u32).to_le_bytes());
    for (path, node) in tree {
        out.extend((path.len() as u16).to_le_bytes());
        out.push(node.kind as u8);
        out.extend(node.mtime.to_le_bytes());
        out.extend(node.size.to_le_bytes());
        out.extend(path.as_bytes());
    }
    out
}
