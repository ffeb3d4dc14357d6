//! Which calls are put: every call over a few paths, random ones from fixed seeds, and random listings.

use crate::{
    listing::{Kind, Node, Tree},
    random::Random,
    side::{Call, Op},
};

/// Every changing call over the paths: mkdir with each pair of flags, rename with each pair of paths.
pub fn every_call(paths: &[&str]) -> Vec<Call> {
    let mut calls = Vec::new();
    for path in paths {
        calls.push(Call::new(Op::Write { data: b"xy".to_vec() }, path));
        for flags in 0..4 {
            calls.push(Call::new(Op::Mkdir { parents: flags & 1 == 1, exist_ok: flags & 2 == 2 }, path));
        }
        calls.push(Call::new(Op::Unlink, path));
        calls.push(Call::new(Op::Rmdir, path));
        for to in paths {
            calls.push(Call::new(Op::Rename { to: (*to).to_owned() }, path));
        }
    }
    calls
}

/// The three queries at a path.
pub fn queries(path: &str) -> [Call; 3] {
    [Op::Exists, Op::IsFile, Op::IsDir].map(|op| Call::new(op, path))
}

/// Paths worth asking over a tree: the root, every listed path, new names beside and below each, and names that only
/// begin like a listed one.
pub fn pool(tree: &Tree) -> Vec<String> {
    let mut paths: Vec<String> = ["", "b", "n", "n/m", "n/m/k"].map(str::to_owned).to_vec();
    for path in tree.keys() {
        paths.push(path.clone());
        paths.push(format!("{path}/n"));
        paths.push(format!("{path}-b"));
        paths.push(format!("{path}0"));
    }
    for path in tree.keys().filter_map(|path| path.split_once('/')) {
        paths.push(format!("b/{}", path.1));
        paths.push(format!("n/{}", path.1));
    }
    paths.retain(|path| crate::model::in_form(path));
    paths.sort_unstable();
    paths.dedup();
    paths
}

/// A changing call over the paths.
pub fn random_call(random: &mut Random, paths: &[String]) -> Call {
    let path = random.pick(paths).clone();
    let op = match random.below(10) {
        0 | 1 => {
            let length = random.below(6);
            Op::Write { data: random.bytes(length) }
        }
        2 | 3 => Op::Mkdir { parents: random.below(2) == 0, exist_ok: random.below(3) == 0 },
        4 => Op::Unlink,
        5 => Op::Rmdir,
        _ => Op::Rename { to: random.pick(paths).clone() },
    };
    Call::new(op, &path)
}

/// The call; if it writes or appends, then in one case of two with 16 or 32 bytes, or one more or fewer: there the
/// charge of a body has its steps (#107).
pub fn around_sixteen(random: &mut Random, mut call: Call) -> Call {
    if let Op::Write { data } | Op::Append { data, .. } = &mut call.op
        && random.one_in(2)
    {
        let length = *random.pick(&[15, 16, 17, 31, 32, 33]);
        *data = random.bytes(length);
    }
    call
}

/// The calls of change request #103 over the paths: with and without data and with other numbers of lent bytes, and
/// from inside a content, past its end, to a multiple of 16 and one past it, and with sums at and above 2^64 - 1.
pub fn every_partial_call(paths: &[&str]) -> Vec<Call> {
    let mut calls = Vec::new();
    for path in paths {
        for (data, more) in [("", 0), ("xy", 0), ("", 1), ("x", -1)] {
            calls.push(Call::new(Op::Append { data: data.into(), more }, path));
        }
        for (data, offset) in [("", 0), ("k", 1), ("", 4), ("k", 15), ("", 17), ("k", u64::MAX), ("", u64::MAX)] {
            calls.push(Call::new(Op::WriteAt { data: data.into(), offset }, path));
        }
    }
    calls
}

/// An offset near the start, far behind it, or at the edges of what 64 bits hold.
fn random_offset(random: &mut Random) -> u64 {
    match random.below(12) {
        0 => random.below(5000) as u64,
        1 => u64::MAX - random.below(8) as u64,
        2 => 1 << random.below(64),
        _ => random.below(12) as u64,
    }
}

/// A call of change request #103 twice in three, at the own files and at all that are visible more often than
/// elsewhere; else any of the base's changing calls.
pub fn random_partial_call(random: &mut Random, paths: &[String], own: &[String], files: &[String]) -> Call {
    if random.one_in(3) {
        return random_call(random, paths);
    }
    let pick = |random: &mut Random, from: &[String]| {
        let from = if from.is_empty() || random.one_in(3) { paths } else { from };
        random.pick(from).clone()
    };
    let length = random.below(6);
    let data = random.bytes(length);
    if random.one_in(2) {
        let more = [0, 0, 0, 0, 0, 0, 1, -1][random.below(8)];
        Call::new(Op::Append { data, more }, &pick(random, files))
    } else {
        Call::new(Op::WriteAt { data, offset: random_offset(random) }, &pick(random, own))
    }
}

/// The tree with files of at most 40 bytes, but for those that are too long to be lent.
pub fn with_short_files(mut tree: Tree) -> Tree {
    for node in tree.values_mut().filter(|node| node.size == 4096) {
        node.size = 40;
    }
    tree
}

/// Names that meet the edges of byte order, of UTF-8 and of the path form.
const NAMES: [&str; 14] =
    ["a", "b", "c", "a-b", "a0", "a.", "...", ".x", "A", "\u{1}", "é", "\u{ffff}", "\u{10ffff}", "~ \u{7f}"];

/// A small listing; each listed path has a directory above it.
pub fn random_tree(random: &mut Random) -> Tree {
    let mut tree = Tree::new();
    let mut directories = vec![String::new()];
    for n in 0..random.below(12) {
        let above = random.pick(&directories).clone();
        let names = if random.below(4) == 0 { &NAMES[..] } else { &NAMES[..5] };
        let name = random.pick(names);
        let path = if above.is_empty() { (*name).to_owned() } else { format!("{above}/{name}") };
        if tree.contains_key(&path) {
            continue;
        }
        let kind = [Kind::Directory, Kind::Directory, Kind::File, Kind::File, Kind::Link][random.below(5)];
        if kind == Kind::Directory {
            directories.push(path.clone());
        }
        let mtime = if kind == Kind::Link { 0 } else { (n as f64 + 0.5).to_bits() };
        let size = if kind == Kind::File { [0, 5, 4096, i64::MAX][random.below(4)] } else { 0 };
        tree.insert(path, Node { kind, mtime, size });
    }
    tree
}

/// A listing at the edges of the path form: 255 bytes in a component, 512 in a path, 32 components.
pub fn long_tree() -> Tree {
    let node = |kind, size| Node { kind, mtime: 8.5_f64.to_bits(), size };
    let mut tree = Tree::new();
    let wide = "w".repeat(255);
    tree.insert("p".to_owned(), node(Kind::Directory, 0));
    tree.insert(format!("p/{wide}"), node(Kind::Directory, 0));
    tree.insert(format!("p/{wide}/{}", "é".repeat(127)), node(Kind::File, 1));
    let mut deep = "d".to_owned();
    tree.insert(deep.clone(), node(Kind::Directory, 0));
    for n in 2..=32 {
        deep.push_str("/d");
        tree.insert(
            deep.clone(),
            node(if n == 32 { Kind::File } else { Kind::Directory }, if n == 32 { 9 } else { 0 }),
        );
    }
    tree
}

/// Paths at those edges: moves by one byte or one component too many, and moves that just fit.
pub fn long_pool() -> Vec<String> {
    let wide = "w".repeat(255);
    let deep = |count: usize| vec!["d"; count].join("/");
    let mut paths: Vec<String> = ["p", "q", "pq", "d", "e", "q/d", "p/d", "n"].map(str::to_owned).to_vec();
    paths.extend([2, 3, 16, 30, 31, 32].map(deep));
    paths.push(format!("p/{wide}"));
    paths.push(format!("q/{wide}"));
    paths.push(format!("p/{wide}/{}", "é".repeat(127)));
    paths.push(format!("p/{wide}/n"));
    paths.push(format!("p/{}", "v".repeat(254)));
    paths.push(wide);
    paths
}

/// Paths that are not in document 01's form, one for each of its rules.
pub fn malformed() -> Vec<String> {
    let mut paths = ["/", "a/", "/a", "a//b", ".", "..", "a/.", "../a", "a:", "a\\b", "\0"].map(str::to_owned).to_vec();
    paths.push("w".repeat(256));
    paths.push(["w".repeat(255), "w".repeat(255), "ww".to_owned()].join("/"));
    paths.push(["d"; 33].join("/"));
    paths
}
