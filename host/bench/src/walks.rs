//! How long a rename takes whose walk is long: a listed directory with many nodes below it, in shapes that differ in
//! how the walk goes through them. Each round moves the directory on a table that was just opened.

use std::{hint::black_box, rc::Rc};

use differential::{
    listing::{Kind, Node, Tree, bytes},
    monty_fs::entry_size,
    port::Port,
    side::{Call, Op},
};

use crate::{median, now, short};

/// How many nodes stand below the directory, and how often the rename is timed.
const NODES: usize = 10_000;
const ROUNDS: usize = 7;

pub fn node(kind: Kind) -> Node {
    Node { kind, mtime: 1.5_f64.to_bits(), size: if kind == Kind::File { 7 } else { 0 } }
}

/// Files beside each other.
fn files(tree: &mut Tree) {
    for n in 0..NODES {
        tree.insert(format!("d/f{n:05}"), node(Kind::File));
    }
}

/// Empty directories beside each other.
fn siblings(tree: &mut Tree) {
    for n in 0..NODES {
        tree.insert(format!("d/s{n:05}"), node(Kind::Directory));
    }
}

/// Chains of 25 directories, each in the one before.
pub fn chains(tree: &mut Tree) {
    for n in 0..NODES / 25 {
        let mut path = format!("d/c{n:03}");
        tree.insert(path.clone(), node(Kind::Directory));
        for _ in 1..25 {
            path.push_str("/x");
            tree.insert(path.clone(), node(Kind::Directory));
        }
    }
}

/// Directories whose names begin with each other's, `a`, `a-`, `a--` and so on, and in each the same again, so that
/// what is below one stands far behind it.
pub fn nests(tree: &mut Tree) {
    fn below(tree: &mut Tree, path: &str, depth: usize, left: &mut usize) {
        for n in 0..20 {
            if *left == 0 {
                return;
            }
            let name = format!("{path}/a{}", "-".repeat(n));
            tree.insert(name.clone(), node(Kind::Directory));
            *left -= 1;
            if depth > 0 {
                below(tree, &name, depth - 1, left);
            }
        }
    }
    below(tree, "d", 3, &mut { NODES });
}

/// Directories whose names begin with each other's, `a`, `a!`, `a!!` and so on, and below the longest all the files:
/// each shorter name's own place comes behind all of them.
pub fn ladder(tree: &mut Tree) {
    let names = 250;
    for n in 0..names {
        tree.insert(format!("d/a{}", "!".repeat(n)), node(Kind::Directory));
    }
    for n in names..NODES {
        tree.insert(format!("d/a{}/f{n:05}", "!".repeat(names - 1)), node(Kind::File));
    }
}

type Shape = (&'static str, fn(&mut Tree));

const SHAPES: [Shape; 5] = [
    ("files beside each other", files),
    ("directories beside each other", siblings),
    ("chains of 25", chains),
    ("nests of `a`, `a-`, `a--` …", nests),
    ("`a`, `a!`, `a!!` …, all below the last", ladder),
];

pub fn rows() {
    println!("| shape | nodes | listing, bytes | rename, us |");
    println!("|---|---|---|---|");
    for (name, fill) in SHAPES {
        let mut tree = Tree::new();
        tree.insert("d".to_owned(), node(Kind::Directory));
        fill(&mut tree);
        let lent = Rc::new(bytes(&tree));
        // Each node leaves two entries, the moved ones with the listed path as their body.
        let room = 4 * lent.len() + 100 * tree.len();
        let call = Call::new(Op::Rename { to: "e".to_owned() }, "d");
        let time = |_| {
            let mut port = Port::new(&lent, entry_size(), room);
            let start = now();
            let number = black_box(port.call_only(black_box(&call), 0).number);
            let took = now() - start;
            assert_eq!(number, 0, "{call} is accepted");
            took
        };
        let took = median((0..ROUNDS).map(time).collect());
        println!("| {name} | {} | {} | {} |", tree.len() - 1, lent.len(), short(took));
    }
}
