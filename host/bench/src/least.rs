//! How long it takes to tell what would let a rename through, beside the rename itself: a directory with many nodes
//! below it, listed or in the table. Each round asks on the same table, and moves the directory on a copy of it.

use std::hint::black_box;

use differential::listing::{Kind, Tree, bytes};
use overlay::Overlay;

use crate::{median, now, short, walks::node};

/// How many nodes stand below the directory, and how often each call is timed.
const NODES: [usize; 3] = [100, 1_000, 10_000];
const ROUNDS: usize = 7;

const FREE: u64 = u64::MAX;

/// A listing, and a table over it: the directory is `d`, and moves to `e`.
struct Before {
    listing: Vec<u8>,
    plan: Overlay,
}

impl Before {
    /// Nothing in the table, with room for two entries of each node.
    fn over(tree: &Tree) -> Before {
        let listing = bytes(tree);
        let room = 4 * listing.len() + 200 * tree.len() + 4096;
        Before { listing, plan: Overlay::open(room, 40).expect("a table that can be opened") }
    }
}

fn files(nodes: usize) -> Before {
    let mut tree = Tree::from([("d".to_owned(), node(Kind::Directory))]);
    tree.extend((0..nodes).map(|n| (format!("d/f{n:05}"), node(Kind::File))));
    Before::over(&tree)
}

/// Chains of 25 directories, each in the one before.
fn chains(nodes: usize) -> Before {
    let mut tree = Tree::from([("d".to_owned(), node(Kind::Directory))]);
    for n in 0..nodes / 25 {
        let top = format!("d/c{n:03}");
        tree.extend((0..25).map(|depth| (format!("{top}{}", "/x".repeat(depth)), node(Kind::Directory))));
    }
    Before::over(&tree)
}

/// The files are in the table: the listed ones, moved there from a directory `c`.
fn moved(nodes: usize) -> Before {
    let mut tree = Tree::from([("c".to_owned(), node(Kind::Directory))]);
    tree.extend((0..nodes).map(|n| (format!("c/f{n:05}"), node(Kind::File))));
    let mut before = Before::over(&tree);
    before.plan.rename(&before.listing, "c", "d", FREE).expect("a move with room and limit");
    before
}

type Shape = (&'static str, fn(usize) -> Before);

const SHAPES: [Shape; 3] = [("listed files", files), ("listed, chains of 25", chains), ("entries", moved)];

pub fn rows() {
    println!("| below the directory | nodes | listing, bytes | table, bytes | report, us | rename, us |");
    println!("|---|---|---|---|---|---|");
    for (name, make) in SHAPES {
        for nodes in NODES {
            let Before { listing, plan } = make(nodes);
            let report = |_| {
                let start = now();
                let least = black_box(plan.least_rename(black_box(&listing), "d", "e"));
                let took = now() - start;
                assert!(matches!(least, Ok(Some(_))), "{name}: there are numbers");
                took
            };
            let report = median((0..ROUNDS).map(report).collect());
            let rename = |_| {
                let mut copy = plan.clone();
                let start = now();
                let done = black_box(copy.rename(black_box(&listing), "d", "e", FREE));
                let took = now() - start;
                assert_eq!(done, Ok(()), "{name}: the rename is accepted");
                took
            };
            let rename = median((0..ROUNDS).map(rename).collect());
            let (listed, used) = (listing.len(), plan.record().used);
            println!("| {name} | {nodes} | {listed} | {used} | {} | {} |", short(report), short(rename));
        }
    }
}
