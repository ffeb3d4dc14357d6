//! Document 01's cases, those of change requests #102 to #104 and #107 and the inputs of docs/DIFFERENCES.md that the
//! original can be asked, with the answers written out: the original, the model and the port are each held to them.
//! Limits and charges are those of #107, and the original is asked at translated ones; those that document 01 and #103
//! had before it stand here too, for the original by itself.

use std::rc::Rc;

use differential::{
    Manner,
    listing::{Tree, bytes, listing_l, tree},
    model::Model,
    monty_fs::{Original, entry_size},
    side::{Call, Entries, Entry, Op, Rule, Side},
    world::{Setup, World},
};

fn rename(from: &str, to: &str) -> Call {
    Call::new(Op::Rename { to: to.to_owned() }, from)
}
fn unlink(path: &str) -> Call {
    Call::new(Op::Unlink, path)
}
fn rmdir(path: &str) -> Call {
    Call::new(Op::Rmdir, path)
}
fn mkdir(path: &str, flags: &str) -> Call {
    Call::new(Op::Mkdir { parents: flags.contains('p'), exist_ok: flags.contains('e') }, path)
}
fn write(path: &str, data: &str) -> Call {
    Call::new(Op::Write { data: data.as_bytes().to_vec() }, path)
}
/// A write of so many bytes.
fn fill(path: &str, length: usize) -> Call {
    write(path, &"x".repeat(length))
}
/// An append that is lent what it needs, and so many bytes more.
fn append(path: &str, data: &str, more: i8) -> Call {
    Call::new(Op::Append { data: data.as_bytes().to_vec(), more }, path)
}
fn write_at(path: &str, data: &str, offset: u64) -> Call {
    Call::new(Op::WriteAt { data: data.as_bytes().to_vec(), offset }, path)
}
fn exists(path: &str) -> Call {
    Call::new(Op::Exists, path)
}
fn show(path: &str) -> Call {
    Call::new(Op::Show, path)
}

/// A call with its answer and, where it is stated, the charge after it.
type Step = (Call, &'static str, Option<u64>);

/// A listing, then calls made one after another from an empty table.
pub type Case = (&'static str, Vec<Step>);

/// Document 01's cases, and those of its readings.
pub fn all() -> Vec<Case> {
    vec![
        (
            "L",
            vec![
                (rename("a", "b").at(1208), "0 (0, 0)", Some(1208)),
                (rename("b", "a").at(1472), "11 (0, 0)", Some(1208)),
                (rename("b", "a").at(1473), "0 (0, 0)", Some(1208)),
            ],
        ),
        ("L", vec![(rename("a", "b").at(1207), "11 (0, 0)", Some(0))]),
        ("L", vec![(rename("a", "a/b"), "10 (0, 1)", None), (rename("a", "a/f"), "7 (1, 3)", None)]),
        (
            "L",
            vec![
                (rename("q", "a"), "8 (1, 1)", None),
                (rename("q", "n"), "5 (0, 1)", None),
                (rename("z", "z/n"), "5 (1, 3)", None),
            ],
        ),
        (
            "L",
            vec![
                (rename("", "a"), "4 (0, 0)", None),
                (rename("z", ""), "4 (1, 0)", None),
                (rename("", ""), "4 (0, 0)", None),
            ],
        ),
        ("L", vec![(unlink("z").at(296), "11 (0, 0)", Some(0)), (unlink("z").at(297), "0 (0, 0)", Some(297))]),
        ("L", vec![(unlink("l"), "4 (0, 1)", None), (unlink(""), "8 (0, 0)", None)]),
        (
            "L",
            vec![
                (rmdir("a"), "9 (0, 1)", None),
                (unlink("a/f"), "0 (0, 0)", Some(299)),
                (rmdir("a"), "0 (0, 0)", Some(596)),
            ],
        ),
        ("L", vec![(rmdir(""), "4 (0, 0)", None)]),
        ("L", vec![(mkdir("z/n", ""), "5 (0, 3)", None), (mkdir("z/n", "p"), "7 (0, 1)", None)]),
        (
            "L",
            vec![
                (mkdir("a", ""), "6 (0, 1)", None),
                (write("n", "x"), "0 (0, 1)", Some(313)),
                (mkdir("a", "e").at(0), "0 (0, 0)", Some(313)),
            ],
        ),
        (
            "L",
            vec![
                (write("a/f", "xy"), "0 (0, 2)", Some(315)),
                (exists("l"), "0 (0, 0)", None),
                (exists("a/f"), "0 (0, 1)", None),
            ],
        ),
        // Readings of document 01, and docs/DIFFERENCES.md
        (
            "L",
            vec![
                (write("b", ""), "0 (0, 0)", Some(297)),
                (unlink("b"), "0 (0, 0)", Some(297)),
                (unlink("b"), "5 (0, 1)", None),
            ],
        ),
        (
            "L",
            vec![
                (unlink("a/f"), "0 (0, 0)", Some(299)),
                (rename("a", "b"), "0 (0, 0)", Some(1192)),
                (exists("b/f"), "0 (0, 0)", None),
            ],
        ),
        ("L", vec![(unlink("a/f"), "0 (0, 0)", Some(299)), (rename("a/f", "a"), "5 (0, 3)", None)]),
        ("a/ a/l@", vec![(rename("a", "b"), "4 (0, 1)", None), (rmdir("a"), "9 (0, 1)", None)]),
        (
            "a/",
            vec![
                (rmdir("a"), "0 (0, 0)", Some(297)),
                (mkdir("a", ""), "0 (0, 0)", Some(297)),
                (mkdir("b", ""), "0 (0, 0)", Some(594)),
                (rename("a", "b").at(594), "0 (0, 0)", Some(594)),
            ],
        ),
        (
            "",
            vec![
                (mkdir("", ""), "6 (0, 0)", None),
                (mkdir("", "e"), "0 (0, 0)", Some(0)),
                (write("", "x"), "8 (0, 0)", None),
            ],
        ),
        (
            "l@",
            vec![
                (unlink("l"), "4 (0, 1)", None),
                (rename("l", "b"), "4 (0, 1)", None),
                (mkdir("l/x", ""), "4 (0, 3)", None),
                (mkdir("l/x", "p"), "4 (0, 3)", None),
                (mkdir("l", ""), "4 (0, 1)", None),
                (rmdir("l"), "4 (0, 1)", None),
                (write("l", "x"), "4 (0, 1)", None),
            ],
        ),
        ("l@ z", vec![(rename("z", "l"), "4 (1, 1)", None)]),
        (
            "a/",
            vec![
                (mkdir("a", "p"), "6 (0, 1)", None),
                (unlink("a"), "8 (0, 1)", None),
                (rename("q", "a"), "8 (1, 1)", None),
            ],
        ),
        ("a/ a/b/ a/b/g", vec![(rename("a", "a/b"), "9 (1, 3)", None)]),
        ("a/ a/f", vec![(rename("a/f", "a"), "8 (1, 1)", None)]),
        ("", vec![(rename("n/x", ""), "4 (1, 0)", None)]),
        (
            "a/ a/f a/l@",
            vec![(rename("a", "b").at(520), "11 (0, 0)", None), (rename("a", "b").at(521), "4 (0, 1)", None)],
        ),
        (
            "a/ a/b/ a/b/l@",
            vec![(rename("a", "c").at(523), "11 (0, 0)", None), (rename("a", "c").at(524), "4 (0, 1)", None)],
        ),
        (
            "z",
            vec![
                (unlink("z"), "0 (0, 0)", Some(297)),
                (mkdir("z", ""), "0 (0, 0)", Some(297)),
                (write("z/x", "y"), "0 (0, 1)", Some(612)),
            ],
        ),
        ("", vec![(mkdir("b/f", "p").at(595), "11 (0, 0)", None), (mkdir("b/f", "p").at(596), "0 (0, 0)", Some(596))]),
    ]
}

/// The cases of change request #107: bodies of 0 bytes, of 16 and beside it, of own files and of references; and the
/// charge before a call, rounded, with a walk's sum beside it, which is not.
pub fn rounded() -> Vec<Case> {
    vec![
        (
            "",
            vec![
                (fill("n", 0).at(296), "11 (0, 0)", Some(0)),
                (fill("n", 0).at(297), "0 (0, 0)", Some(297)),
                (fill("n", 1).at(312), "11 (0, 0)", Some(297)),
                (fill("n", 1).at(313), "0 (0, 1)", Some(313)),
                (fill("n", 16).at(313), "0 (0, 16)", Some(313)),
                (fill("n", 17).at(328), "11 (0, 0)", Some(313)),
                (fill("n", 17).at(329), "0 (0, 17)", Some(329)),
                (fill("n", 32).at(329), "0 (0, 32)", Some(329)),
                (mkdir("d", "").at(625), "11 (0, 0)", Some(329)),
                (mkdir("d", "").at(626), "0 (0, 0)", Some(626)),
                (unlink("n").at(593), "11 (0, 0)", Some(626)),
                (unlink("n").at(594), "0 (0, 0)", Some(594)),
            ],
        ),
        // The listed paths have 17 and 16 bytes: 313 + 297 + 32, and 312 + 297 + 16.
        (
            "d/ d/fifteen-letters d/fourteen-chars",
            vec![
                (rename("d/fifteen-letters", "m").at(641), "11 (0, 0)", Some(0)),
                (rename("d/fifteen-letters", "m").at(642), "0 (0, 0)", Some(642)),
                (rename("d/fourteen-chars", "n").at(1266), "11 (0, 0)", Some(642)),
                (rename("d/fourteen-chars", "n").at(1267), "0 (0, 0)", Some(1267)),
            ],
        ),
        // 313 + 521.
        (
            "a/ a/f a/l@",
            vec![
                (write("n", "x"), "0 (0, 1)", Some(313)),
                (rename("a", "b").at(833), "11 (0, 0)", Some(313)),
                (rename("a", "b").at(834), "4 (0, 1)", Some(313)),
            ],
        ),
        ("b/ b/f b/g b/h", with_deleted((3651, 3652), 3652)),
    ]
}

/// `b` moved to a deleted `a` that has two deleted entries below it, of the same names as two directories below `b`;
/// given are the limits right below and at the one that decides, and the charge after it. By the original's rule plan
/// and walk decide: 1513 + 560 + 1557 = 3630, and the charge after it is 3613. By #107 it is that charge, with 13 more
/// for each of three references.
fn with_deleted((refused, accepted): (u64, u64), charge: u64) -> Vec<Step> {
    vec![
        (mkdir("a/longer", "p"), "0 (0, 0)", Some(601)),
        (mkdir("a/letter", ""), "0 (0, 0)", Some(905)),
        (rmdir("a/longer"), "0 (0, 0)", Some(905)),
        (rmdir("a/letter"), "0 (0, 0)", Some(905)),
        (rmdir("a"), "0 (0, 0)", Some(905)),
        (mkdir("b/longer", ""), "0 (0, 0)", Some(1209)),
        (mkdir("b/letter", ""), "0 (0, 0)", Some(1513)),
        (rename("b", "a").at(refused), "11 (0, 0)", Some(1513)),
        (rename("b", "a").at(accepted), "0 (0, 0)", Some(charge)),
    ]
}

/// The cases of change request #102. The value is the number of bytes written, two and the name for each child.
fn shown() -> Vec<Case> {
    vec![
        (
            "L",
            vec![
                (show(""), "0 (0, 6)", None),
                (show("a"), "0 (0, 3)", None),
                (show("z"), "7 (0, 1)", None),
                (show("q"), "5 (0, 1)", None),
                (show("z/n"), "5 (0, 3)", None),
                (show("l"), "4 (0, 1)", None),
                (show("l/x/y"), "4 (0, 5)", None),
                (rename("a", "bb"), "0 (0, 0)", None),
                (show(""), "0 (0, 7)", None),
                (show("a"), "5 (0, 1)", None),
                (show("bb"), "0 (0, 3)", None),
                (show("bb/f"), "7 (0, 4)", None),
            ],
        ),
        ("a/ a/l@", vec![(show("a"), "0 (0, 0)", None), (rmdir("a"), "9 (0, 1)", None)]),
        ("a/ a-b a/b/ a/b/c a0", vec![(show(""), "0 (0, 12)", None), (show("a"), "0 (0, 3)", None)]),
    ]
}

/// The cases of change request #104: two of document 01 with other answers, and what is refused as before.
fn itself() -> Vec<Case> {
    vec![
        ("L", vec![(rename("z", "z").at(0), "0 (0, 0)", Some(0)), (rename("a", "a").at(0), "0 (0, 0)", Some(0))]),
        ("a/", vec![(rename("a", "a").at(0), "0 (0, 0)", Some(0))]),
        ("a/ a/l@", vec![(rename("a", "a").at(0), "0 (0, 0)", Some(0)), (rename("a/l", "a/l"), "4 (1, 3)", None)]),
        (
            "L",
            vec![
                (rename("", ""), "4 (0, 0)", None),
                (rename("l", "l"), "4 (1, 1)", None),
                (rename("l/x", "l/x"), "4 (1, 3)", None),
                (rename("z/n", "z/n"), "5 (1, 3)", None),
                (rename("q", "q"), "5 (0, 1)", None),
                (unlink("z"), "0 (0, 0)", Some(297)),
                (rename("z", "z"), "5 (0, 1)", Some(297)),
                (rename("a", "b"), "0 (0, 0)", Some(1505)),
                (rename("b", "b").at(0), "0 (0, 0)", Some(1505)),
                (rename("b/f", "b/f").at(0), "0 (0, 0)", Some(1505)),
                (rename("a", "a"), "5 (0, 1)", Some(1505)),
            ],
        ),
    ]
}

/// The cases of change request #103, with the charges of #107. Of these are also a body that grows within its 16 bytes
/// and past them, a content that is not rounded beside the charge, and sums that would pass 2^64 - 1.
fn partial() -> Vec<Case> {
    vec![
        (
            "L",
            vec![
                (append("a/f", "hi", 0).at(314), "11 (0, 0)", Some(0)),
                (append("a/f", "hi", 0).at(315), "0 (0, 2)", Some(315)),
                (append("a/f", "", 0).at(314), "11 (0, 0)", Some(315)),
                (append("a/f", "", 0).at(315), "0 (0, 0)", Some(315)),
                (append("a/f", "x", 0).at(315), "0 (0, 1)", Some(315)),
                (write_at("a/f", "X", 7), "0 (0, 1)", Some(315)),
                (write_at("a/f", "", 10).at(314), "11 (0, 0)", Some(315)),
                (write_at("a/f", "", 10).at(315), "0 (0, 0)", Some(315)),
                (write_at("a/f", "x", 15).at(315), "0 (0, 1)", Some(315)),
                (write_at("a/f", "x", 16).at(330), "11 (0, 0)", Some(315)),
                (write_at("a/f", "x", 16).at(331), "0 (0, 1)", Some(331)),
                (append("a/f", "x", 0).at(331), "0 (0, 1)", Some(331)),
                (append("a/f", "fifteen letters", 0).at(346), "11 (0, 0)", Some(331)),
                (append("a/f", "fifteen letters", 0).at(347), "0 (0, 15)", Some(347)),
            ],
        ),
        (
            "L",
            vec![
                (rename("z", "y"), "0 (0, 0)", Some(610)),
                (append("y", "", 0).at(609), "11 (0, 0)", Some(610)),
                (append("y", "", 0).at(610), "0 (0, 0)", Some(594)),
            ],
        ),
        (
            "L",
            vec![
                (rename("z", "y"), "0 (0, 0)", Some(610)),
                (append("y", "x", 0).at(610), "11 (0, 0)", Some(610)),
                (append("y", "x", 0).at(611), "0 (0, 1)", Some(610)),
            ],
        ),
        (
            "L",
            vec![
                (rename("a/f", "g"), "0 (0, 0)", Some(612)),
                (append("g", "x", 0).at(617), "11 (0, 0)", Some(612)),
                (append("g", "x", 0).at(618), "0 (0, 1)", Some(612)),
            ],
        ),
        (
            "L",
            vec![
                (append("", "", 0), "8 (0, 0)", None),
                (append("a", "", 0), "8 (0, 1)", None),
                (append("l", "", 0), "4 (0, 1)", None),
                (append("l/x", "", 0), "4 (0, 3)", None),
                (append("z/n", "", 0), "5 (0, 3)", None),
                (append("q/n", "", 0), "5 (0, 3)", None),
                (append("n", "", 0), "0 (0, 0)", Some(297)),
                (unlink("n"), "0 (0, 0)", Some(297)),
                (append("n", "hi", 0), "0 (0, 2)", Some(313)),
            ],
        ),
        (
            "L",
            vec![
                (unlink("z"), "0 (0, 0)", Some(297)),
                (write_at("z", "x", u64::MAX), "5 (0, 1)", None),
                (write_at("", "x", 0), "5 (0, 0)", None),
                (write_at("a", "x", 0), "5 (0, 1)", None),
                (write_at("a/f", "x", 0), "5 (0, 3)", None),
                (write_at("l/x", "x", 0), "5 (0, 3)", None),
                (write("n", ""), "0 (0, 0)", Some(594)),
                (write_at("n", "x", u64::MAX).at(0), "18 (0, 0)", Some(594)),
                (write_at("n", "x", u64::MAX - 1).at(u64::MAX - 1), "11 (0, 0)", Some(594)),
                (write_at("n", "x", u64::MAX - 1), "13 (0, 0)", Some(594)),
                // 594 + 2^64 - 608, the largest length at which the sum is exact; then one byte more.
                (write_at("n", "", u64::MAX - 607).at(u64::MAX - 14), "11 (0, 0)", Some(594)),
                (write_at("n", "", u64::MAX - 607).at(u64::MAX - 13), "13 (0, 0)", Some(594)),
                (write_at("n", "", u64::MAX - 606).at(u64::MAX - 1), "11 (0, 0)", Some(594)),
                (write_at("n", "", u64::MAX - 606), "13 (0, 0)", Some(594)),
                (write_at("n", "", 3).at(609), "11 (0, 0)", Some(594)),
                (write_at("n", "", 3).at(610), "0 (0, 0)", Some(610)),
            ],
        ),
    ]
}

/// Cases of document 01 and of change request #103 with the numbers that they had before #107, by the original's rule.
fn by_original() -> Vec<Case> {
    vec![
        (
            "L",
            vec![
                (rename("a", "b").at(1194), "11 (0, 0)", Some(0)),
                (rename("a", "b").at(1195), "0 (0, 0)", Some(1195)),
                (rename("b", "a").at(1459), "11 (0, 0)", Some(1195)),
                (rename("b", "a").at(1460), "0 (0, 0)", Some(1195)),
            ],
        ),
        (
            "L",
            vec![
                (write("a/f", "xy").at(300), "11 (0, 0)", Some(0)),
                (write("a/f", "xy").at(301), "0 (0, 2)", Some(301)),
                (fill("a/f", 17).at(315), "11 (0, 0)", Some(301)),
                (fill("a/f", 17).at(316), "0 (0, 17)", Some(316)),
            ],
        ),
        (
            "L",
            vec![
                (append("a/f", "hi", 0).at(305), "11 (0, 0)", Some(0)),
                (append("a/f", "hi", 0).at(306), "0 (0, 2)", Some(306)),
                (append("a/f", "", 0).at(305), "11 (0, 0)", Some(306)),
                (append("a/f", "x", 0).at(307), "0 (0, 1)", Some(307)),
                (write_at("a/f", "", 10).at(308), "11 (0, 0)", Some(307)),
                (write_at("a/f", "", 10).at(309), "0 (0, 0)", Some(309)),
            ],
        ),
        (
            "L",
            vec![
                (rename("z", "y"), "0 (0, 0)", Some(595)),
                (append("y", "", 0).at(594), "11 (0, 0)", Some(595)),
                (append("y", "", 0).at(595), "0 (0, 0)", Some(594)),
            ],
        ),
        (
            "L",
            vec![
                (rename("a/f", "g"), "0 (0, 0)", Some(599)),
                (append("g", "x", 0).at(604), "11 (0, 0)", Some(599)),
                (append("g", "x", 0).at(605), "0 (0, 1)", Some(602)),
            ],
        ),
        (
            "a/ a/f a/l@",
            vec![
                (write("n", "x"), "0 (0, 1)", Some(298)),
                (rename("a", "b").at(818), "11 (0, 0)", Some(298)),
                (rename("a", "b").at(819), "4 (0, 1)", Some(298)),
            ],
        ),
        ("b/ b/f b/g b/h", with_deleted((3629, 3630), 3613)),
    ]
}

/// A listing, a table put there, a call, and the answers of document 01 and of the original.
type Parting = (&'static str, Entries, Call, &'static str, &'static str);

/// The inputs of docs/DIFFERENCES.md where the two part: path form, and tables that no call builds.
fn partings() -> Vec<Parting> {
    let one = |key: &str, entry: Entry| Entries::from([(key.to_owned(), entry)]);
    let own = Entry::own(0, Vec::new());
    let directory = Entry::directory(0);
    vec![
        ("", Entries::new(), mkdir(".", "e"), "3 (0, 0)", "0 (0, 0)"),
        ("", Entries::new(), mkdir(":", ""), "3 (0, 0)", "0 (0, 0)"),
        ("", Entries::new(), mkdir("\\", ""), "3 (0, 0)", "4 (0, 1)"),
        ("", Entries::new(), mkdir("n/", ""), "3 (0, 0)", "0 (0, 0)"),
        ("a/", one("a/b/c", own.clone()), rmdir("a"), "0 (0, 0)", "9 (0, 1)"),
        ("a/ a/f", one("a", directory.clone()), rmdir("a"), "9 (0, 1)", "0 (0, 0)"),
        ("a/ d/", one("a/b/c", own), rename("d", "a"), "0 (0, 0)", "9 (1, 1)"),
        ("a/ a/f", one("a", directory.clone()), show("a"), "0 (0, 3)", "0 (0, 0)"),
        ("l@", one("l", directory.clone()), mkdir("l/x", ""), "0 (0, 0)", "4 (0, 3)"),
        ("l@", one("l", directory), append("l/x", "", 0), "0 (0, 0)", "4 (0, 3)"),
        ("", Entries::new(), append("n", "", 1), "17 (0, 0)", "0 (0, 0)"),
        ("a/ a/f", Entries::new(), rename("a", "a"), "0 (0, 0)", "9 (1, 1)"),
        ("z", Entries::new(), rename("z", "z").at(297), "0 (0, 0)", "11 (0, 0)"),
        ("l@", one("l/x", Entry::deleted()), mkdir("l/x", "p"), "4 (0, 3)", "4 (0, 1)"),
        ("", Entries::new(), write("n", "x").at(298), "11 (0, 0)", "0 (0, 1)"),
        ("", Entries::new(), write("n", "x").at(312), "11 (0, 0)", "0 (0, 1)"),
        ("", Entries::new(), write("n", "x").at(313), "0 (0, 1)", "0 (0, 1)"),
    ]
}

/// Holds each side to its own answer where document 01 and the original part.
fn run_partings() -> u64 {
    let mut faults = 0;
    let partings = partings();
    for (text, table, call, ours, theirs) in &partings {
        let mut world = World::new(&Setup::new(tree(text), 4096));
        world.original.load(table);
        world.model.load(table);
        world.port.load(table);
        let found = [
            ("original", world.original.call(call, 0), theirs),
            ("model", world.model.call(call, 0), ours),
            ("port", world.port.call(call, 0), ours),
        ];
        for (side, answer, expected) in found {
            if answer.to_string() != **expected {
                faults += 1;
                println!("DIFFERENCE: `{text}`, {call}: the {side} gives {answer}, {expected} is written");
            }
        }
    }
    println!("{} inputs of docs/DIFFERENCES.md where the original parts: {faults} not as written", partings.len());
    faults
}

/// The listing of a case.
pub fn listing(text: &str) -> Tree {
    if text == "L" { listing_l() } else { tree(text) }
}

/// Holds the original, and the model by the original's rule, to its own numbers.
fn run_by_original() -> u64 {
    fn hold(name: &str, text: &str, steps: &[Step], mut side: impl Side) -> u64 {
        let mut faults = 0;
        for (call, expected, charge) in steps {
            let answer = side.call(call, 0);
            if answer.to_string() != *expected || charge.is_some_and(|charge| charge != side.charge()) {
                faults += 1;
                let found = format!("{answer}, charge {}", side.charge());
                println!("DIFFERENCE: `{text}`, {call}: {expected} {charge:?} is written, the {name} gives {found}");
            }
        }
        faults
    }
    let (mut calls, mut faults) = (0, 0);
    for (text, steps) in by_original() {
        let tree = listing(text);
        let original = Original::new(&bytes(&tree), "/mnt", Manner::default());
        let model = Model::new(&Rc::new(tree), entry_size(), 4096).by(Rule::Length);
        calls += steps.len();
        faults += hold("original", text, &steps, original) + hold("model by its rule", text, &steps, model);
    }
    println!("{calls} calls with the numbers from before #107, by the original's rule: {faults} not as written");
    faults
}

pub fn run() -> u64 {
    let (mut calls, mut faults) = (0, run_partings() + run_by_original());
    let cases: Vec<Case> = all().into_iter().chain(rounded()).chain(shown()).chain(partial()).chain(itself()).collect();
    for (text, steps) in &cases {
        let mut world = World::new(&Setup::new(listing(text), 4096));
        for (call, expected, charge) in steps {
            calls += 1;
            let found = match world.call(call) {
                Ok(answer) if answer.to_string() != *expected => Some(answer.to_string()),
                Ok(_) if charge.is_some_and(|charge| charge != world.port.charge()) => {
                    Some(format!("charge {}", world.port.charge()))
                }
                Ok(_) => None,
                Err(what) => Some(what),
            };
            if let Some(found) = found {
                faults += 1;
                println!("DIFFERENCE: `{text}`, {call}: {expected} {charge:?} is written, {found} found");
            }
        }
    }
    let named = "document 01, its readings, #102 to #104, #107, docs/DIFFERENCES.md";
    println!("{} cases of {named}: {calls} calls, {faults} differences", cases.len());
    faults
}
