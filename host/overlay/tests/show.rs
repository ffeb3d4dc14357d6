//! Showing a directory: the cases of the request's definition, every number in its order, and an output that is as it
//! was where the call is refused. The walk is held against a plain merge of listing and entries that is made here.
mod paths;

use overlay::{EntryKind, Mkdir, NameList, NodeKind, Overlay, OverlayRef, Record, Refusal, raw};
use paths::listing;
use std::collections::BTreeMap;

const NO_LIMIT: u64 = u64::MAX;

/// Children of `a` with others between them; two links; an empty directory.
fn d() -> Vec<u8> {
    listing(&["a/", "a-b", "a/b/", "a/b/c", "a/f", "a/l@", "a0/", "l@", "z", "é"])
}

/// A table of entries, ascending by key: `x/` a directory, `x!` deleted, `x>y` a reference to `y`, `x` an own file.
fn table(entries: &[&str]) -> (Vec<u8>, Record) {
    let (mut bytes, mut charge) = (Vec::new(), 0);
    for word in entries {
        let (key, kind, body) = match (word.strip_suffix('/'), word.strip_suffix('!'), word.split_once('>')) {
            (Some(key), ..) => (key, 3u16, ""),
            (_, Some(key), _) => (key, 4, ""),
            (.., Some((key, listed))) => (key, 2, listed),
            _ => (*word, 1, ""),
        };
        bytes.extend((key.len() as u16).to_le_bytes());
        bytes.extend(kind.to_le_bytes());
        bytes.extend((body.len() as u32).to_le_bytes());
        bytes.extend([0; 16]);
        bytes.extend(key.bytes());
        bytes.extend(body.bytes());
        charge += 256 + (key.len() + body.len().next_multiple_of(16)) as u64 + 40;
    }
    let record = Record { used: bytes.len() as u64, count: entries.len() as u64, charge, entry_size: 40 };
    (bytes, record)
}

/// A listed child deleted, one covered, one behind them all, one of a directory that the listing lacks.
const T: &[&str] = &["a/b!", "a/b/c!", "a/f", "a/g>z", "a0/", "a0/k/", "a0/k/m", "z!"];

/// Shows the path over the listing of `d` in an output of this length, and sees to every byte of it.
fn shown(entries: &[&str], path: &str, room: usize) -> Result<Vec<String>, (u8, u64)> {
    let ((table, record), mut output) = (table(entries), vec![7; room]);
    let plan = OverlayRef::new(&table, record);
    let given = plan.show_into(&d(), path, &mut output).map(|names| {
        let (count, written) = (names.len(), names.as_bytes().len());
        let names: Vec<String> = names.strs().map(|name| name.unwrap().to_owned()).collect();
        assert_eq!(names.len(), count);
        (names, written)
    });
    match given {
        Ok((names, written)) => {
            let bytes = |name: &String| [&(name.len() as u16).to_le_bytes(), name.as_bytes()].concat();
            assert_eq!(output[..written], names.iter().flat_map(bytes).collect::<Vec<u8>>());
            assert!(output[written..].iter().all(|byte| *byte == 0), "the rest is 0");
            Ok(names)
        }
        Err(refusal) => {
            assert!(output.iter().all(|byte| *byte == 7), "{refusal}: the output changed");
            assert_eq!(refusal.path(), 0);
            Err((refusal.number(), refusal.length()))
        }
    }
}

/// The names are these, in an output just long enough and in a longer one; with one byte less it is 13.
fn shows(entries: &[&str], path: &str, names: &[&str]) {
    let length = names.iter().map(|name| 2 + name.len()).sum();
    let names: Vec<String> = names.iter().map(|name| (*name).to_owned()).collect();
    for room in [length, length + 1, length + 3, 5000] {
        assert_eq!(shown(entries, path, room), Ok(names.clone()), "{path} over {entries:?}");
    }
    if length > 0 {
        assert_eq!(shown(entries, path, length - 1), Err((13, 0)));
        assert_eq!(shown(entries, path, 0), Err((13, 0)));
    }
}

/// It is refused so, with the path's length, whatever room there is.
fn refused(entries: &[&str], path: &str, number: u8) {
    for room in [0, 3, 5000] {
        assert_eq!(shown(entries, path, room), Err((number, path.len() as u64)), "{path} over {entries:?}");
    }
}

#[test]
fn directories() {
    shows(&[], "", &["a", "a-b", "a0", "z", "é"]);
    shows(&[], "a", &["b", "f"]);
    shows(&[], "a/b", &["c"]);
    shows(&[], "a0", &[]);
    shows(T, "a", &["f", "g"]);
    shows(T, "", &["a", "a-b", "a0", "é"]);
    shows(T, "a0", &["k"]);
    shows(T, "a0/k", &["m"]);
}

#[test]
fn what_is_no_directory() {
    for (entries, path) in [(&[][..], "z"), (T, "a/f"), (T, "a/g"), (&[], "é"), (T, "a0/k/m")] {
        refused(entries, path, 7);
    }
    for (entries, path) in [(&[][..], "q"), (T, "a/b"), (&[], "z/n"), (&[], "a/b/c/d"), (T, "z"), (T, "a/f/x")] {
        refused(entries, path, 5);
    }
    for path in ["l", "l/x", "l/x/y", "a/l", "a/l/x"] {
        refused(&[], path, 4);
        refused(T, path, 4);
    }
}

/// An entry counts, over a link and below one; without one a listed link on the way does, though an entry covers it.
#[test]
fn tables_that_no_call_builds() {
    shows(&["l/"], "l", &[]);
    refused(&["l/"], "l/x", 4);
    shows(&["l/x/", "l/x/y"], "l/x", &["y"]);
    refused(&["l/x!"], "l/x", 5);
    refused(&["l/x"], "l/x", 7);
    refused(&["l!"], "l", 5);
    refused(&["l!"], "l/x", 4);
    shows(&["l"], "", &["a", "a-b", "a0", "l", "z", "é"]);
    shows(&["a/l"], "a", &["b", "f", "l"]);
    shows(&["a!"], "a/b", &["c"]);
    shows(&["a/"], "a", &["b", "f"]);
    shows(&["a/b/n/x"], "a/b", &["c"]);
}

/// 1, 2 and 3 come first, in this order, and a record that is not four numbers is 1.
#[test]
fn what_every_call_refuses() {
    let (table, record) = table(T);
    let (good, good_listing) = (<[u64; 4]>::from(record), d());
    let (mut wrong, bad_listing) = (good, [&good_listing[..], b"\0"].concat());
    wrong[2] += 1;
    let show = |listing: &[u8], record: &[u64], path: &str| {
        let mut output = [7; 3];
        let answer = raw::show(listing, &table, record, path.as_bytes(), &mut output);
        assert_eq!(output, [7; 3]);
        answer
    };
    for record in [&wrong[..], &good[..3], &[&good[..], &[0]].concat(), &[]] {
        assert_eq!(show(&bad_listing, record, "."), 1);
        assert_eq!(show(&good_listing, record, ""), 1);
    }
    assert_eq!(show(&bad_listing, &good, "."), 2);
    assert_eq!(show(b"", &good, "q"), 2);
    for path in [".", "/", "a/", "a//b", "..", "a:"] {
        assert_eq!(show(&good_listing, &good, path), 3);
    }
    assert_eq!(show(&good_listing, &good, ""), 13);
}

/// What a caller reads of the refusals.
#[test]
fn refusals_as_text() {
    let plan = Overlay::open(0, 40).unwrap();
    for (path, text) in [
        (".", "path malformed (3, path 0)"),
        ("a/l/x", "link met, or root given (4, path 0, length 5)"),
        ("q", "not found (5, path 0, length 1)"),
        ("a/f", "not a directory (7, path 0, length 3)"),
    ] {
        assert_eq!(plan.show(&d(), path).unwrap_err().to_string(), text);
        assert_eq!(plan.walk_from(&d(), path).next().unwrap().unwrap_err().to_string(), text);
    }
    let short = plan.show_into(&d(), "a", &mut []).unwrap_err();
    assert_eq!(short.to_string(), "no room in the table or the output (13)");
}

#[test]
fn the_names_as_an_iterator() {
    let list = Overlay::open(0, 40).unwrap().show(&d(), "").unwrap();
    assert_eq!((list.len(), list.is_empty(), list.as_bytes().len()), (5, false, 19));
    let mut names = list.iter();
    assert_eq!((names.next(), names.len(), names.as_bytes().len()), (Some(&b"a"[..]), 4, 16));
    assert_eq!(names.size_hint(), (4, Some(4)));
    let left: Vec<&str> = names.clone().strs().map(Result::unwrap).collect();
    assert_eq!(left, ["a-b", "a0", "z", "é"]);
    assert_eq!(names.by_ref().count(), 4);
    assert_eq!((names.next(), names.len()), (None, 0));
    assert_eq!((&list).into_iter().last(), Some("é".as_bytes()));
    let empty = Overlay::open(0, 40).unwrap().show(&d(), "a0").unwrap();
    assert_eq!((empty.len(), empty.is_empty(), empty), (0, true, NameList::default()));
}

/// More names than the first buffer holds, the longest names, and names in the table alone.
#[test]
fn a_buffer_that_grows() {
    let plan = Overlay::open(0, 40).unwrap();
    for (count, width) in [(500, 6), (1000, 4), (3000, 255), (4096, 4)] {
        let names: Vec<String> = (0..count).map(|n| format!("{n:0width$}")).collect();
        let words: Vec<&str> = names.iter().map(String::as_str).collect();
        let list = plan.show(&listing(&words), "").unwrap();
        assert!(list.iter().strs().map(Result::unwrap).eq(words.iter().copied()), "{count} names of {width}");
        let (held, record) = table(&words);
        assert_eq!(OverlayRef::new(&held, record).show(overlay::EMPTY_LISTING, "").unwrap(), list);
    }
}

/// What is visible by listing and entries, each path with its kind, links left out.
fn merged(paths: &[&str], plan: OverlayRef) -> BTreeMap<String, NodeKind> {
    let mut tree = BTreeMap::new();
    for word in paths.iter().filter(|word| !word.ends_with('@')) {
        let kind = if word.ends_with('/') { NodeKind::Directory } else { NodeKind::File };
        tree.insert(word.trim_end_matches('/').to_owned(), kind);
    }
    for entry in plan.entries() {
        let kind = match entry.kind {
            EntryKind::Own { .. } | EntryKind::Reference { .. } => Some(NodeKind::File),
            EntryKind::Directory { .. } => Some(NodeKind::Directory),
            EntryKind::Deleted => None,
        };
        let path = entry.path_str().unwrap().to_owned();
        match kind {
            Some(kind) => drop(tree.insert(path, kind)),
            None => drop(tree.remove(&path)),
        }
    }
    tree
}

/// Holds a walk against the merge: the same nodes, in the order of their names one by one.
fn walks(paths: &[&str], plan: OverlayRef, start: &str) -> usize {
    let listing = listing(paths);
    let front = if start.is_empty() { String::new() } else { format!("{start}/") };
    let mut wanted: Vec<(String, NodeKind)> =
        merged(paths, plan).into_iter().filter(|(path, _)| path.starts_with(&front)).collect();
    wanted.sort_by(|(one, _), (other, _)| one.split('/').cmp(other.split('/')));
    let nodes = plan.walk_from(&listing, start).collect::<Result<Vec<_>, Refusal>>().unwrap();
    for node in &nodes {
        let path = node.path_str().unwrap();
        assert_eq!(node.name_str().unwrap(), path.rsplit('/').next().unwrap());
        assert_eq!(node.depth, path[front.len()..].split('/').count(), "{path} from {start}");
        assert_eq!(plan.is_dir(&listing, path), Ok(node.kind == NodeKind::Directory));
    }
    let given: Vec<(String, NodeKind)> =
        nodes.iter().map(|node| (node.path_str().unwrap().to_owned(), node.kind)).collect();
    assert_eq!(given, wanted, "{paths:?} and {plan:?}");
    given.len()
}

#[test]
fn a_walk_in_tree_order() {
    let paths = ["a/", "a-b/", "a-b/x", "a.b", "a/x", "a/y/", "a/y/z", "l@", "é/", "é/m@"];
    let (held, record) = table(&["a/y/k", "b>a.b", "é/n/"]);
    let plan = OverlayRef::new(&held, record);
    let order: Vec<String> = plan
        .walk(&listing(&paths))
        .map(|node| node.unwrap())
        .map(|node| format!("{} {} {}", node.depth, node.path_str().unwrap(), node.name_str().unwrap()))
        .collect();
    let wanted = [
        "1 a a",
        "2 a/x x",
        "2 a/y y",
        "3 a/y/k k",
        "3 a/y/z z",
        "1 a-b a-b",
        "2 a-b/x x",
        "1 a.b a.b",
        "1 b b",
        "1 é é",
        "2 é/n n",
    ];
    assert_eq!(order, wanted);
    assert_eq!([walks(&paths, plan, ""), walks(&paths, plan, "a"), walks(&paths, plan, "é")], [11, 4, 1]);
}

#[test]
fn a_walk_that_ends_at_once() {
    let (plan, listing) = (Overlay::open(0, 40).unwrap(), d());
    assert_eq!(plan.walk_from(&listing, "a0").next(), None);
    assert_eq!(plan.walk(overlay::EMPTY_LISTING).next(), None);
    for (bytes, path, refusal) in [
        (&b"RDL"[..], "", Refusal::MalformedListing),
        (&listing, "a//b", Refusal::MalformedPath { path: 0 }),
        (&listing, "l", Refusal::LinkOrRoot { path: 0, len: 1 }),
    ] {
        let mut walk = plan.walk_from(bytes, path);
        assert_eq!((walk.next(), walk.next(), walk.next()), (Some(Err(refusal)), None, None));
    }
    let unlike = OverlayRef::new(&[1], Record::default());
    assert_eq!(unlike.walk(&listing).collect::<Vec<_>>(), [Err(Refusal::MalformedTable)]);
}

/// Numbers that look like chance, the same in every run.
struct Chance(u64);

impl Chance {
    fn below(&mut self, bound: usize) -> usize {
        self.0 = self.0.wrapping_mul(6_364_136_223_846_793_005).wrapping_add(1_442_695_040_888_963_407);
        (self.0 >> 33) as usize % bound
    }

    /// A path whose names stand close to a slash in the order of bytes.
    fn path(&mut self) -> String {
        let names = ["a", "a-b", "a.b", "a0", "b", "é"];
        let parts: Vec<&str> = (0..1 + self.below(3)).map(|_| names[self.below(6)]).collect();
        parts.join("/")
    }
}

/// Tables that calls built, each walked from the root and from every directory.
#[test]
fn walks_over_built_tables() {
    let paths = ["a/", "a-b/", "a-b/a", "a.b", "a/a/", "a/a-b", "a/a/b", "a/b@", "a0", "b/", "b/a/", "b/é", "é@"];
    let (listing, mut chance, mut nodes) = (listing(&paths), Chance(1), 0);
    for _ in 0..60 {
        let mut plan = Overlay::open(4096, 40).unwrap();
        for _ in 0..8 {
            let (path, to) = (chance.path(), chance.path());
            // Refused or not: what is built is walked.
            let _ = match chance.below(5) {
                0 => plan.write_bytes(&listing, path, b"x", 1.0, NO_LIMIT).map(drop),
                1 => plan.mkdir(&listing, path, Mkdir { parents: true, exist_ok: false }, 1.0, NO_LIMIT),
                2 => plan.unlink(&listing, path, NO_LIMIT),
                3 => plan.rmdir(&listing, path, NO_LIMIT),
                _ => plan.rename(&listing, path, to, NO_LIMIT),
            };
        }
        nodes += walks(&paths, plan.view(), "");
        for (start, _) in merged(&paths, plan.view()).iter().filter(|(_, kind)| **kind == NodeKind::Directory) {
            nodes += walks(&paths, plan.view(), start);
        }
    }
    assert!(nodes > 1000, "{nodes} nodes");
}
