//! How long it takes to add to a file and to write inside one: by the length of the content, with the bytes of a listed
//! file lent, and by the size of listing and table. The original does the same calls on the same table and listing; its
//! host makes the bytes of a listed file while it reads them, and that time counts as the original's.

use std::{hint::black_box, rc::Rc};

use differential::{
    Manner,
    listing::{Kind, Node, Tree, bytes},
    monty_fs::{Original, entry_size},
    port::Port,
    side::{Call, Entries, Entry, Op, Side},
};

use crate::{listing, measure, median, named, now, pass, short, table};

/// The lengths of the contents: the largest leaves room for it twice in the longest table.
const LENGTHS: [usize; 4] = [1 << 10, 16 << 10, 256 << 10, 4 << 20];

/// The data of each call.
const DATA: usize = 20;

fn data() -> Vec<u8> {
    vec![b'y'; DATA]
}

fn append(path: &str) -> Call {
    Call::new(Op::Append { data: data(), more: 0 }, path)
}

fn write_at(path: &str, offset: usize) -> Call {
    Call::new(Op::WriteAt { data: data(), offset: offset as u64 }, path)
}

/// A listed file `f` of this length, and entries.
type State = (Tree, Entries);

fn state(length: usize, entries: Vec<(&str, Entry)>) -> State {
    let node = Node { kind: Kind::File, mtime: 1.5_f64.to_bits(), size: length as i64 };
    let entries = entries.into_iter().map(|(key, entry)| (key.to_owned(), entry)).collect();
    (Tree::from([("f".to_owned(), node)]), entries)
}

/// A call on a content of this length, and how many bytes it is lent.
fn calls(length: usize) -> Vec<(&'static str, State, Call, usize)> {
    let own = |content: usize| vec![("n", Entry::own(0, vec![b'x'; content]))];
    let moved = vec![("f", Entry::deleted()), ("g", Entry::reference(0, length as i64, b"f".to_vec()))];
    vec![
        ("append to a listed file", state(length, Vec::new()), append("f"), length),
        ("append to a reference", state(length, moved), append("g"), length),
        ("append to an own file", state(length, own(length)), append("n"), 0),
        ("write in the middle of an own file", state(length, own(length)), write_at("n", length / 2), 0),
        ("write behind a gap of that length", state(length, own(0)), write_at("n", length), 0),
    ]
}

/// The median time of a call, each on a copy of the side, whose buffers have so been written before.
fn each<S: Side>(rounds: usize, side: &S, mut call: impl FnMut(&mut S) -> u8) -> f64 {
    let time = |_| {
        let mut side = side.copy();
        let start = now();
        let number = black_box(call(black_box(&mut side)));
        let took = now() - start;
        assert_eq!(number, 0, "the call is accepted");
        took
    };
    median((0..rounds).map(time).collect())
}

fn growth(now: f64, before: Option<f64>) -> String {
    before.map_or(String::new(), |before| format!("x {}", short(now / before)))
}

/// The calls by the length of the content, in a table buffer of twice that length and 4 KiB.
fn by_length() {
    println!(
        "| content | call | port, us | ns per byte of content | growth | original, us | growth | plain pass, us |\n\
         |---|---|---|---|---|---|---|---|"
    );
    let mut last: Vec<Option<(f64, f64)>> = vec![None; calls(1).len()];
    for length in LENGTHS {
        for (n, (name, (tree, entries), call, lent)) in calls(length).into_iter().enumerate() {
            let (listed, room) = (Rc::new(bytes(&tree)), 2 * length + (4 << 10));
            let rounds = ((16 << 20) / length).clamp(5, 100);
            let content = vec![b'L'; lent];
            let mut port = Port::new(&listed, entry_size(), room);
            port.load(&entries);
            let ours = each(rounds, &port, |port| port.call_with(&call, 0, &content).number);
            let mut original = Original::new(&listed, "/mnt", Manner::default());
            original.load(&entries);
            let theirs = each(rounds, &original, |original| original.call(&call, 0).number);
            let buffer = vec![1; room];
            let floor = pass(&[&listed, &buffer, &buffer, &content], rounds.max(20));
            println!(
                "| {} | {name} | {} | {:.2} | {} | {} | {} | {} |",
                named(length),
                short(ours),
                1000.0 * ours / length as f64,
                growth(ours, last[n].map(|(ours, _)| ours)),
                short(theirs),
                growth(theirs, last[n].map(|(_, theirs)| theirs)),
                short(floor),
            );
            last[n] = Some((ours, theirs));
        }
    }
}

/// The calls on a short own file by the size of listing and table, beside a write of the same file.
fn by_size(sizes: &[usize]) {
    println!("| size | call | port, us | ns per byte | growth | original, us |\n|---|---|---|---|---|---|");
    let turns = [
        ("write", Call::new(Op::Write { data: data() }, "own")),
        ("append", append("own")),
        ("write inside", write_at("own", DATA / 2)),
    ];
    let mut last: Option<Vec<f64>> = None;
    for size in sizes {
        let listed = Rc::new(bytes(&listing(*size)));
        let room = (*size).max(4 << 10);
        let entries = table(room);
        let rounds = ((16 << 20) / size).clamp(5, 200);
        let mut original = Original::new(&listed, "/mnt", Manner::default());
        original.load(&entries);
        let theirs = measure(|call| original.call(call, 0).number, &turns, rounds);
        let mut port = Port::new(&listed, entry_size(), room);
        port.load(&entries);
        let ours = measure(|call| port.call_with(call, 0, &[]).number, &turns, rounds);
        for (n, (name, _)) in turns.iter().enumerate() {
            println!(
                "| {} | {name} | {} | {:.2} | {} | {} |",
                named(*size),
                short(ours[n]),
                1000.0 * ours[n] / (listed.len() + 2 * room) as f64,
                growth(ours[n], last.as_ref().map(|last| last[n])),
                short(theirs[n]),
            );
        }
        last = Some(ours);
    }
}

pub fn rows(sizes: &[usize]) {
    by_length();
    println!();
    by_size(sizes);
}
