//! The original over hosts of another manner, beside the model: what the two differences that document 01 lists about
//! the host (the order of a directory's entries, lookups below a file) come to, counted by class. The original is asked
//! at limits translated to its own rule, by its own answers over that host.

use std::{collections::BTreeMap, rc::Rc};

use differential::{
    Manner,
    edge::translated,
    listing::{Kind, Tree, bytes, text},
    lists::{pool, random_call, random_tree},
    model::Model,
    monty_fs::{Original, entry_size},
    random::Random,
    side::{Answer, Call, Op, Side},
};

/// Whether a path runs below a listed file.
fn below_file(tree: &Tree, path: &str) -> bool {
    path.match_indices('/').any(|(at, _)| tree.get(&path[..at]).is_some_and(|node| node.kind == Kind::File))
}

/// Whether the difference is one of the two that are listed.
fn listed(manner: Manner, tree: &Tree, call: &Call, model: Answer, original: Answer) -> bool {
    let numbers = (model.number, original.number);
    if manner.descending {
        return matches!(call.op, Op::Rename { .. }) && (numbers == (11, 4) || numbers == (4, 11));
    }
    below_file(tree, &call.path) || matches!(&call.op, Op::Rename { to } if below_file(tree, to))
}

/// Where the original first answers otherwise than the model; a list ends there, since the tables may part. The calls
/// that both were asked are counted.
fn first(manner: Manner, tree: &Tree, calls: &[Call], asked: &mut u64) -> Option<(usize, Answer, Answer)> {
    let mut model = Model::new(&Rc::new(tree.clone()), entry_size(), 1 << 16);
    let mut original = Original::new(&bytes(tree), "/mnt", manner);
    for (n, call) in calls.iter().enumerate() {
        // A move onto itself parts over every host (docs/DIFFERENCES.md, 18), and leaves all as it was.
        if call.is_onto_itself() && model.copy().call(call, 0).number == 0 {
            continue;
        }
        *asked += 1;
        let answer = original.call(&translated(&original, call), 0);
        let stored = original.entries().get(&call.path).map_or(0, |entry| entry.mtime);
        let expected = model.call(call, stored);
        if expected != answer {
            return Some((n, expected, answer));
        }
        assert!(model.entries() == original.entries(), "the tables part after {call} over {}", text(tree));
    }
    None
}

/// Calls and listed paths left out while the answers at the end stay the same two.
fn reduce(manner: Manner, tree: &mut Tree, calls: &mut Vec<Call>, model: Answer, original: Answer) {
    let same = |tree: &Tree, calls: &[Call]| {
        first(manner, tree, calls, &mut 0)
            .is_some_and(|(n, m, o)| n + 1 == calls.len() && (m.number, o.number) == (model.number, original.number))
    };
    let mut smaller = true;
    while smaller {
        smaller = false;
        for n in (0..calls.len() - 1).rev() {
            let mut less = calls.clone();
            less.remove(n);
            if same(tree, &less) {
                (*calls, smaller) = (less, true);
            }
        }
        for path in tree.keys().rev().cloned().collect::<Vec<_>>() {
            let mut less = tree.clone();
            less.remove(&path);
            let parent = tree.keys().any(|key| key.starts_with(&format!("{path}/")));
            if !parent && same(&less, calls) {
                (*tree, smaller) = (less, true);
            }
        }
    }
}

pub fn run(long: bool, seed: u64) -> u64 {
    let lists = if long { 40_000 } else { 1500 };
    let mut faults = 0;
    for (name, manner) in [
        ("entries descending", Manner { descending: true, ..Manner::default() }),
        ("below a file \"not a directory\"", Manner { below_file_fails: true, ..Manner::default() }),
    ] {
        let mut random = Random::new(seed * 1000 + 20);
        let mut classes: BTreeMap<(&str, u8, u8), (u64, String)> = BTreeMap::new();
        let mut asked = 0;
        for _ in 0..lists {
            let mut tree = random_tree(&mut random);
            let paths = pool(&tree);
            let limits = |random: &mut Random| if random.below(2) == 0 { u64::MAX } else { random.below(4000) as u64 };
            let mut calls: Vec<Call> = (0..12).map(|_| random_call(&mut random, &paths)).collect();
            for call in &mut calls {
                call.limit = limits(&mut random);
            }
            let Some((n, model, original)) = first(manner, &tree, &calls, &mut asked) else { continue };
            calls.truncate(n + 1);
            let class = (calls[n].op.name(), model.number, original.number);
            if !listed(manner, &tree, &calls[n], model, original) {
                faults += 1;
                println!(
                    "DIFFERENCE, host with {name}: `{}`, {}: model {model}, original {original}",
                    text(&tree),
                    calls[n]
                );
            }
            let entry = classes.entry(class).or_default();
            entry.0 += 1;
            if entry.0 <= 20 {
                reduce(manner, &mut tree, &mut calls, model, original);
                let calls = calls.iter().map(ToString::to_string).collect::<Vec<_>>().join("; ");
                let example = format!("`{}`: {calls}", text(&tree));
                if entry.1.is_empty() || example.len() < entry.1.len() {
                    entry.1 = example;
                }
            }
        }
        println!();
        println!("Host with {name}: {lists} lists, {asked} calls asked of the original and the model.");
        println!("| call | document 01 | original | lists that end so | smallest found |");
        println!("|---|---|---|---|---|");
        for ((op, model, original), (count, example)) in &classes {
            println!("| {op} | {model} | {original} | {count} | {example} |");
        }
    }
    faults
}
