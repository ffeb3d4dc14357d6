//! How long it takes to show a directory, by the number of its children and of what lies deeper, beside `iterdir` of the
//! original on the same table and listing; and a walk through a whole tree, which shows each directory of it.

use std::hint::black_box;

use differential::{
    Links, Manner,
    listing::{Kind, Tree, bytes},
    monty_fs::{Original, entry_size},
    side::{Entries, Entry, Side, charge, encoded},
};
use overlay::{OverlayRef, Record};

use crate::{
    FILES, short, timed,
    walks::{chains, ladder, nests, node},
};

/// A tree, and the entries of a table over it.
type State = (Tree, Entries);

/// A directory `d` with so many files.
fn listed(children: usize) -> State {
    let mut tree = Tree::from([("d".to_owned(), node(Kind::Directory))]);
    tree.extend((0..children).map(|n| (format!("d/f{n:05}"), node(Kind::File))));
    (tree, Entries::new())
}

/// The same directory with own files in the table alone.
fn held(children: usize) -> State {
    let mut entries = Entries::from([("d".to_owned(), Entry::directory(0))]);
    entries.extend((0..children).map(|n| (format!("d/f{n:05}"), Entry::own(0, vec![b'x'; 20]))));
    (Tree::new(), entries)
}

/// Twice as many listed files, of which every second one is deleted.
fn deleted(children: usize) -> State {
    let (tree, mut entries) = listed(2 * children);
    entries.extend(tree.keys().skip(1).step_by(2).map(|path| (path.clone(), Entry::deleted())));
    (tree, entries)
}

/// A directory `d` with 10,000 nodes below it, and nothing beside it.
fn deep(fill: fn(&mut Tree)) -> State {
    let mut tree = Tree::from([("d".to_owned(), node(Kind::Directory))]);
    fill(&mut tree);
    (tree, Entries::new())
}

/// Directories of files, about so many nodes together.
fn directories(nodes: usize) -> State {
    let mut tree = Tree::from([("s".to_owned(), node(Kind::Directory))]);
    for n in 0..nodes / (FILES + 1) {
        tree.insert(format!("s/{n:04}"), node(Kind::Directory));
        tree.extend((0..FILES).map(|k| (format!("s/{n:04}/f{k:02}"), node(Kind::File))));
    }
    (tree, Entries::new())
}

/// What is lent: the listing, and the entries with their record.
fn lent((tree, entries): &State) -> (Vec<u8>, Vec<u8>, Record) {
    let table = encoded(entries);
    let (used, count) = (table.len() as u64, entries.len() as u64);
    (bytes(tree), table, Record { used, count, charge: charge(entries, entry_size()), entry_size: entry_size() })
}

/// A row for a path that is shown.
fn show(name: &str, state: &State, path: &str) {
    let (listing, table, record) = lent(state);
    let plan = OverlayRef::new(&table, record);
    let mut output = plan.show(&listing, path).expect("shown").as_bytes().to_vec();
    let children = plan.show_into(&listing, path, &mut output).expect("shown").len();
    let rounds = ((16 << 20) / (listing.len() + table.len())).clamp(5, 200);
    let ours = timed(rounds, || {
        let names = black_box(plan).show_into(black_box(&listing), path, &mut output);
        assert_eq!(names.map(|names| names.len()), Ok(children), "the same names");
    });
    let mut original = Original::new(&listing, "/mnt", Manner::default());
    original.load(&state.1);
    let theirs = timed(rounds, || {
        let names = black_box(&mut original).show(path, Links::Dead);
        assert_eq!(names.map(|names| names.len()), Ok(children), "as many names");
    });
    println!(
        "| {name} | {children} | {} | {} | {} | {} | {:.2} | {} |",
        listing.len(),
        table.len(),
        short(ours),
        short(1000.0 * ours / children as f64),
        1000.0 * ours / (listing.len() + table.len() + output.len()) as f64,
        short(theirs),
    );
}

/// A row for a walk through all that is visible.
fn walk(name: &str, state: &State) {
    let (listing, table, record) = lent(state);
    let plan = OverlayRef::new(&table, record);
    let nodes = plan.walk(&listing).filter(|node| node.is_ok()).count();
    let took = timed(3, || {
        assert_eq!(black_box(plan).walk(black_box(&listing)).count(), nodes, "the same nodes");
    });
    println!(
        "| {name} | {nodes} | {} | {} | {} | {} |",
        listing.len(),
        table.len(),
        short(took / 1000.0),
        short(took / nodes as f64)
    );
}

/// The tree with everything moved from `s` to `t`, as a rename leaves it.
fn moved((tree, _): &State) -> State {
    let mut entries = Entries::new();
    for (path, node) in tree {
        let entry = match node.kind {
            Kind::File => Entry::reference(node.mtime, node.size, path.as_bytes().to_vec()),
            _ => Entry::directory(node.mtime),
        };
        entries.insert(path.clone(), Entry::deleted());
        entries.insert(format!("t{}", &path[1..]), entry);
    }
    (tree.clone(), entries)
}

pub fn rows() {
    println!(
        "| shown | children | listing, bytes | table, bytes | show, us | ns per child | ns per byte | original, us |"
    );
    println!("|---|---|---|---|---|---|---|---|");
    for children in [100, 1_000, 10_000] {
        show("listed files", &listed(children), "d");
        show("own files in the table", &held(children), "d");
        show("listed files, each second one deleted", &deleted(children), "d");
    }
    for (name, fill) in [
        ("chains of 25", chains as fn(&mut Tree)),
        ("nests of `a`, `a-`, `a--` …", nests),
        ("`a`, `a!`, `a!!` …, all below the last", ladder),
    ] {
        let state = deep(fill);
        show(&format!("the root above {name}"), &state, "");
        show(&format!("the directory above {name}"), &state, "d");
    }
    println!();
    println!("| walked | nodes | listing, bytes | table, bytes | walk, ms | us per node |");
    println!("|---|---|---|---|---|---|");
    let state = directories(5_800);
    walk("listed directories of 64 files", &state);
    walk("the same, moved", &moved(&state));
}
