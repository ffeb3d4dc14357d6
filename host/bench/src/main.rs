//! How long a call takes, by the size of what it is given: the port, the original on the same table and listing, and
//! one plain pass over the bytes that the port is lent (listing, table, work buffer). Prints a markdown table.
//! Both sides do the same calls in turn, so that tables and answers stay equal. A time is the median of its rounds, on
//! the thread's own CPU clock (so that other programs on the machine count less), less what reading that clock takes.
//! The original keeps its table as a map and looks paths up; the port reads and checks all bytes with every call.

mod contents;
mod kept;
mod least;
mod paths;
mod shows;
mod walks;

use std::{env, hint::black_box, rc::Rc, sync::OnceLock};

use differential::{
    Manner,
    listing::{Kind, Node, Tree, bytes},
    monty_fs::{Original, entry_size},
    port::Port,
    side::{Call, Entries, Entry, Op, Side, used},
};

/// The sizes that are measured.
const SIZES: [usize; 5] = [1 << 10, 16 << 10, 256 << 10, 4 << 20, 16 << 20];

/// How many files stand in one directory.
const FILES: usize = 64;

/// A listing of about `size` bytes: directories of files, a sixteenth of it below `m` and the rest below `s`, beside
/// them a directory `few` of eight files and a file `one`.
fn listing(size: usize) -> Tree {
    let node = |kind| Node { kind, mtime: 1.5_f64.to_bits(), size: if kind == Kind::File { 7 } else { 0 } };
    let mut tree = Tree::new();
    tree.insert("few".to_owned(), node(Kind::Directory));
    for n in 0..8 {
        tree.insert(format!("few/{n}"), node(Kind::File));
    }
    tree.insert("one".to_owned(), node(Kind::File));
    // Two records of 20 bytes are those of `m` and `s`.
    let rest = size.saturating_sub(bytes(&tree).len() + 40);
    for (top, share) in [("m", rest / 16), ("s", rest - rest / 16)] {
        tree.insert(top.to_owned(), node(Kind::Directory));
        let mut left = share;
        for n in 0.. {
            let (path, kind) = match n % (FILES + 1) {
                0 => (format!("{top}/{:06}", n / (FILES + 1)), Kind::Directory),
                k => (format!("{top}/{:06}/f{k:02}", n / (FILES + 1)), Kind::File),
            };
            match left.checked_sub(19 + path.len()) {
                Some(rest) => left = rest,
                None => break,
            }
            tree.insert(path, node(kind));
        }
    }
    tree
}

/// Entries for half of a buffer of `size` bytes: own directories with own files of 20 bytes.
fn table(size: usize) -> Entries {
    let mut entries = Entries::from([("o".to_owned(), Entry::directory(0))]);
    let mut left = (size / 2).saturating_sub(1000);
    for n in 0.. {
        let (path, entry) = match n % (FILES + 1) {
            0 => (format!("o/{:06}", n / (FILES + 1)), Entry::directory(0)),
            k => (format!("o/{:06}/f{k:02}", n / (FILES + 1)), Entry::own(0, vec![b'x'; 20])),
        };
        match left.checked_sub(24 + path.len() + entry.body.len()) {
            Some(rest) => left = rest,
            None => break,
        }
        entries.insert(path, entry);
    }
    entries
}

/// The rename whose work grows with the listing; only where the table grows with it.
const SIXTEENTH: &str = "rename a sixteenth";

/// The calls in turn. After the first round each round leaves the table as it found it.
fn calls() -> Vec<(&'static str, Call)> {
    let rename = |from, to: &str| Call::new(Op::Rename { to: to.to_owned() }, from);
    vec![
        ("exists", Call::new(Op::Exists, "one")),
        ("write", Call::new(Op::Write { data: vec![b'y'; 20] }, "own")),
        ("unlink", Call::new(Op::Unlink, "own")),
        ("mkdir", Call::new(Op::Mkdir { parents: false, exist_ok: false }, "made")),
        ("rmdir", Call::new(Op::Rmdir, "made")),
        ("rename a file", rename("one", "uno")),
        ("", rename("uno", "one")),
        ("rename a directory of 8", rename("few", "pochi")),
        ("", rename("pochi", "few")),
        (SIXTEENTH, rename("m", "n")),
        ("", rename("n", "m")),
    ]
}

unsafe extern "C" {
    fn clock_gettime(clock: i32, time: *mut [i64; 2]) -> i32;
}

/// The CPU time of this thread in nanoseconds.
fn now() -> i64 {
    const THREAD_CPU_TIME: i32 = 3;
    let mut time = [0; 2];
    // SAFETY: on Linux with 64 bits a timespec is two numbers of 64 bits.
    let failed = unsafe { clock_gettime(THREAD_CPU_TIME, &raw mut time) };
    assert_eq!(failed, 0, "the thread's clock");
    time[0] * 1_000_000_000 + time[1]
}

fn middle(mut times: Vec<i64>) -> i64 {
    times.sort_unstable();
    times[times.len() / 2]
}

/// The median in microseconds, less what reading the clock takes.
fn median(times: Vec<i64>) -> f64 {
    static CLOCK: OnceLock<i64> = OnceLock::new();
    let clock = CLOCK.get_or_init(|| middle((0..1000).map(|_| -now() + now()).collect()));
    (middle(times) - clock).max(1) as f64 / 1e3
}

/// The median time of what is done, in microseconds.
fn timed(rounds: usize, mut act: impl FnMut()) -> f64 {
    let time = |_| {
        let start = now();
        act();
        now() - start
    };
    median((0..rounds).map(time).collect())
}

/// The median time of each call in microseconds, in the order of `calls`. A first round, not timed, brings the table
/// into the state that every later round finds and leaves.
fn measure(mut call: impl FnMut(&Call) -> u8, calls: &[(&str, Call)], rounds: usize) -> Vec<f64> {
    let mut times = vec![Vec::new(); calls.len()];
    for round in 0..=rounds {
        for (n, (_, one)) in calls.iter().enumerate() {
            let start = now();
            let number = black_box(call(black_box(one)));
            let took = now() - start;
            assert_eq!(number, 0, "{one} is accepted");
            if round > 0 {
                times[n].push(took);
            }
        }
    }
    times.into_iter().map(median).collect()
}

unsafe extern "C" {
    /// One pass over the bytes in plain C: their sum (pass.c).
    fn plain_pass(bytes: *const u8, len: usize) -> u64;
}

/// One plain pass over the bytes of each buffer.
fn pass(buffers: &[&[u8]], rounds: usize) -> f64 {
    let sum = |buffer: &&[u8]| {
        let bytes = black_box(*buffer);
        // SAFETY: pointer and length are those of a slice, which is only read.
        unsafe { plain_pass(bytes.as_ptr(), bytes.len()) }
    };
    let time = |_| {
        let start = now();
        black_box(buffers.iter().map(sum).sum::<u64>());
        now() - start
    };
    median((0..rounds).map(time).collect())
}

/// A number with three digits that count.
fn short(value: f64) -> String {
    if value >= 100.0 {
        format!("{value:.0}")
    } else if value >= 10.0 {
        format!("{value:.1}")
    } else {
        format!("{value:.2}")
    }
}

struct Shape {
    name: &'static str,
    /// Whether a sixteenth of the listing is moved too.
    sixteenth: bool,
    listing: fn(usize) -> usize,
    table: fn(usize) -> usize,
}

const SHAPES: [Shape; 3] = [
    Shape {
        name: "listing of that size, table buffer 8 KiB",
        sixteenth: false,
        listing: |size| size,
        table: |_| 8 << 10,
    },
    Shape {
        name: "listing 1 KiB, table buffer of that size",
        sixteenth: false,
        listing: |_| 1 << 10,
        table: |size| size.max(4 << 10),
    },
    Shape {
        name: "listing and table buffer of that size",
        sixteenth: true,
        listing: |size| size,
        table: |size| size.max(4 << 10),
    },
];

fn rows(shape: &Shape, sizes: &[usize]) {
    println!();
    println!("### {}", shape.name);
    println!();
    println!(
        "| size | call | port, us | ns per byte | growth | original, us | growth | plain pass, us | port / pass | port / original |"
    );
    println!("|---|---|---|---|---|---|---|---|---|---|");
    let mut last: Option<(Vec<f64>, Vec<f64>)> = None;
    for size in sizes {
        let tree = listing((shape.listing)(*size));
        let lent = Rc::new(bytes(&tree));
        let room = (shape.table)(*size);
        let entries = table(room);
        assert!(used(&entries) + 2000 <= room, "room for what the calls add");
        let rounds = ((16 << 20) / size).clamp(5, 200);
        let mut calls = calls();
        if !shape.sixteenth {
            calls.truncate(calls.len() - 2);
        }

        let mut original = Original::new(&lent, "/mnt", Manner::default());
        original.load(&entries);
        let theirs = measure(|call| original.call(call, 0).number, &calls, rounds);
        let mut port = Port::new(&lent, entry_size(), room);
        port.load(&entries);
        let ours = measure(|call| port.call_only(call, 0).number, &calls, rounds);
        assert!(port.entries().keys().eq(original.entries().keys()), "the same table at the end");
        let buffer = vec![1; room];
        let pass_two = pass(&[&lent, &buffer], rounds.max(20));
        let pass_three = pass(&[&lent, &buffer, &buffer], rounds.max(20));
        for (n, (name, _)) in calls.iter().enumerate().filter(|(_, (name, _))| !name.is_empty()) {
            // A query is lent listing and table, a changing call a work buffer as well.
            let (floor, all) = if *name == "exists" { (pass_two, 1) } else { (pass_three, 2) };
            let bytes = lent.len() + all * room;
            let growth = |now: &[f64], before: Option<&Vec<f64>>| {
                before.map_or(String::new(), |before| format!("x {}", short(now[n] / before[n])))
            };
            println!(
                "| {} | {name} | {} | {:.2} | {} | {} | {} | {} | {} | {} |",
                named(*size),
                short(ours[n]),
                1000.0 * ours[n] / bytes as f64,
                growth(&ours, last.as_ref().map(|(ours, _)| ours)),
                short(theirs[n]),
                growth(&theirs, last.as_ref().map(|(_, theirs)| theirs)),
                short(floor),
                short(ours[n] / floor),
                short(ours[n] / theirs[n]),
            );
        }
        last = Some((ours, theirs));
    }
}

fn named(size: usize) -> String {
    if size < 1 << 20 { format!("{} KiB", size >> 10) } else { format!("{} MiB", size >> 20) }
}

fn main() {
    let word = env::args().nth(1);
    if word.as_deref() == Some("walks") {
        return walks::rows();
    }
    if word.as_deref() == Some("kept") {
        return kept::rows(&SIZES);
    }
    if word.as_deref() == Some("show") {
        return shows::rows();
    }
    if word.as_deref() == Some("least") {
        return least::rows();
    }
    if word.as_deref() == Some("paths") {
        return paths::rows();
    }
    if word.as_deref() == Some("content") {
        return contents::rows(&SIZES);
    }
    let most = word.and_then(|word| word.parse().ok()).unwrap_or(16 << 20);
    let sizes = SIZES.into_iter().filter(|size| *size <= most).collect::<Vec<_>>();
    println!(
        "Median times of one call. Growth is against the size before: 16 times the bytes, at the last size 4 times."
    );
    for shape in &SHAPES {
        rows(shape, &sizes);
    }
}
