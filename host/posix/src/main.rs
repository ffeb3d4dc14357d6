//! The same calls done to a real directory by the kernel: after every accepted call the tree on disk must be the
//! visible one, with the same names shown for each of its paths as the kernel lists, links aside; and for every refused
//! call the kernel's answer is counted by class.
//! The directory is made anew for each list in memory (/dev/shm, else the system's folder for such), where a listed
//! file holds its own path and a link leads nowhere. Modification times are compared for files; those of directories
//! are not (docs/DIFFERENCES.md, 1). Calls that name the root are not tried: the directory is not a mount of its own.

mod field;

use std::{collections::BTreeMap, process::ExitCode, rc::Rc, time::Instant};

use differential::{
    listing::{Tree, bytes, listing_l, text, tree},
    lists::{pool, random_call, random_tree},
    monty_fs::entry_size,
    port::Port,
    random::Random,
    side::{Answer, Call, Op, Side},
    words::Words,
};
use field::{Field, shown};

const ENOENT: i32 = 2;
const EEXIST: i32 = 17;
const ENOTDIR: i32 = 20;
const EISDIR: i32 = 21;
const EINVAL: i32 = 22;
const ENOTEMPTY: i32 = 39;

fn errno_name(errno: i32) -> String {
    let names = [
        (0, "succeeds"),
        (1, "EPERM"),
        (ENOENT, "ENOENT"),
        (16, "EBUSY"),
        (EEXIST, "EEXIST"),
        (ENOTDIR, "ENOTDIR"),
        (EISDIR, "EISDIR"),
        (EINVAL, "EINVAL"),
        (ENOTEMPTY, "ENOTEMPTY"),
    ];
    names.iter().find(|(number, _)| *number == errno).map_or(format!("errno {errno}"), |(_, name)| (*name).to_owned())
}

/// How a refusal here and the kernel's answer stand to each other.
#[derive(Clone, Copy, PartialEq, Eq, PartialOrd, Ord)]
enum Class {
    /// Both refuse, with the same meaning.
    Same,
    /// Both refuse, with another meaning, as docs/DIFFERENCES.md lists.
    OtherMeaning,
    /// Refused here and done by the kernel, as docs/DIFFERENCES.md lists.
    OnlyHere,
    /// Not listed: a finding.
    Unlisted,
}

fn classify(call: &Call, answer: Answer, errno: i32) -> Class {
    let rename = matches!(call.op, Op::Rename { .. });
    match (answer.number, errno) {
        (5, ENOENT) | (6, EEXIST) | (7, ENOTDIR) | (8, EISDIR) | (9, ENOTEMPTY) | (10, EINVAL) => Class::Same,
        (4, 0) => Class::OnlyHere,
        // A link on the way or at the end.
        (4, _) => Class::OtherMeaning,
        // A file in the path prefix.
        (5, ENOTDIR) => Class::OtherMeaning,
        // An absent source is found after the destination's type; a destination that holds the source.
        (8, ENOENT | ENOTEMPTY) | (7 | 9, EINVAL) if rename => Class::OtherMeaning,
        _ => Class::Unlisted,
    }
}

#[derive(Default)]
struct Count {
    lists: u64,
    accepted: BTreeMap<&'static str, u64>,
    refused: BTreeMap<(&'static str, u8, i32, Class), (u64, String)>,
    /// The paths that were shown, by the number here and the kernel's answer.
    shows: BTreeMap<(u8, i32), u64>,
    memory: u64,
    roots: u64,
    findings: u64,
}

impl Count {
    /// Counts a refused call with the kernel's answer to it, and keeps the shortest list that ends so.
    fn refuse(&mut self, call: &Call, answer: Answer, errno: i32, list: String) {
        let class = classify(call, answer, errno);
        let (calls, shortest) = self.refused.entry((call.op.name(), answer.number, errno, class)).or_default();
        *calls += 1;
        if shortest.is_empty() || list.len() < shortest.len() {
            *shortest = list;
        }
        self.findings += u64::from(class == Class::Unlisted);
    }
}

/// Shows a path on both sides: the same names, or refused by both with a meaning that is the same or listed.
fn show(port: &Port, field: &Field, path: &str, count: &mut Count) -> Result<(), String> {
    let (here, kernel) = (port.show(path), field.names(path));
    let classes = [(0, 0), (4, ENOENT), (5, ENOENT), (5, ENOTDIR), (7, ENOTDIR)];
    let class = (Answer::shown(&here).number, kernel.as_ref().err().copied().unwrap_or(0));
    if !classes.contains(&class) || here.as_ref().ok() != kernel.as_ref().ok() {
        return Err(format!("show `{path}` gives {here:?}, the kernel {kernel:?}"));
    }
    *count.shows.entry(class).or_default() += 1;
    Ok(())
}

/// One list on both sides; what is found ends it.
fn run(mut port: Port, listing: &Tree, calls: &[Call], count: &mut Count) -> Result<(), String> {
    let field = Field::new(listing);
    count.lists += 1;
    let mut done: Vec<String> = Vec::new();
    for (n, call) in calls.iter().enumerate() {
        let mtime = (5000.5 + n as f64).to_bits();
        let before = shown(listing, &port.entries());
        let answer = port.call(call, mtime);
        let root = call.path.is_empty() || matches!(&call.op, Op::Rename { to } if to.is_empty());
        done.push(call.to_string());
        let list = || format!("`{}`: {}", text(listing), done.join("; "));
        match answer.number {
            0 => {
                *count.accepted.entry(call.op.name()).or_default() += 1;
                if !root && let Err(errno) = field.call(call, mtime) {
                    return Err(format!("accepted, the kernel says {}: {}", errno_name(errno), list()));
                }
                let (expected, found) = (shown(listing, &port.entries()), field.read());
                if expected != found {
                    return Err(format!("another tree after {}\n  expected {expected:?}\n  found {found:?}", list()));
                }
                for path in ["", &call.path].into_iter().chain(expected.keys().map(String::as_str)) {
                    show(&port, &field, path, count).map_err(|what| format!("{what} after {}", list()))?;
                }
                continue;
            }
            11..=13 => count.memory += 1,
            _ if root => count.roots += 1,
            _ => {
                let errno = field.call(call, mtime).err().unwrap_or(0);
                count.refuse(call, answer, errno, list());
                // What the kernel did, or did in part, is undone.
                if errno == 0 || matches!(call.op, Op::Mkdir { parents: true, .. }) {
                    field.remake(&before);
                }
            }
        }
        // Only accepted calls lead to what comes after.
        done.pop();
    }
    Ok(())
}

fn lists(seed: u64, long: bool) -> Vec<(Tree, Vec<Call>)> {
    let mut random = Random::new(seed);
    let mut all = Vec::new();
    for n in 0..if long { 40_000 } else { 2000 } {
        let listing = match n % 5 {
            0 => listing_l(),
            1 => tree(["a/ a/b/ a/b/f", "a/ a/f b/ b/f c/ c/a/ c/a/f", "a/ a/b/ b/ z", "a/ a-b a/f a0"][n / 5 % 4]),
            _ => random_tree(&mut random),
        };
        let paths = pool(&listing);
        let calls = (0..16).map(|_| random_call(&mut random, &paths)).collect();
        all.push((listing, calls));
    }
    all
}

fn main() -> ExitCode {
    let words = Words::given();
    let (start, mut count) = (Instant::now(), Count::default());
    let room = 1 << 14;
    for (listing, calls) in lists(words.seed(), words.long()) {
        let port = Port::new(&Rc::new(bytes(&listing)), entry_size(), room);
        if let Err(finding) = run(port, &listing, &calls, &mut count) {
            count.findings += 1;
            println!("FINDING: {finding}");
        }
    }
    report(&count, start.elapsed().as_secs_f64());
    ExitCode::from(u8::from(count.findings != 0))
}

fn report(count: &Count, seconds: f64) {
    println!("{} lists, directory in {}, {seconds:.1} s", count.lists, field::folder().display());
    println!();
    println!("| accepted | calls, same tree after each |");
    println!("|---|---|");
    for (op, calls) in &count.accepted {
        println!("| {op} | {calls} |");
    }
    println!();
    println!("| shown after accepted calls | kernel | paths |");
    println!("|---|---|---|");
    for ((number, errno), paths) in &count.shows {
        println!("| {number} | {} | {paths} |", errno_name(*errno));
    }
    for (class, title) in [
        (Class::Same, "refused by both, same meaning"),
        (Class::OtherMeaning, "refused by both, another meaning (listed)"),
        (Class::OnlyHere, "refused here, done by the kernel (listed)"),
        (Class::Unlisted, "NOT LISTED"),
    ] {
        println!();
        println!("| {title} | number here | kernel | calls | smallest seen |");
        println!("|---|---|---|---|---|");
        for ((op, number, errno, _), (calls, example)) in count.refused.iter().filter(|(key, _)| key.3 == class) {
            println!("| {op} | {number} | {} | {calls} | {example} |", errno_name(*errno));
        }
    }
    println!();
    println!("not tried: {} calls refused by 11 to 13, {} refused calls that name the root", count.memory, count.roots);
    println!("{}", if count.findings == 0 { "no finding" } else { "FINDINGS" });
}
