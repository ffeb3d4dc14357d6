//! A fixed sample of the original's answers: as lines of text (sample.txt), and as bytes (sample.bin). Moves onto
//! itself, in which the port parts from the original (#104), are not in it, but for those that both refuse. The
//! original stores the clock's time; the sample has 1000, 1001, ... in its place, the same number for the same time.
//! Limits and charges are those of #107: the limit is translated to the one at which the original is asked, and the
//! charge is the sum over the entries that it left. The port has no part in them.

use std::{collections::BTreeMap, fmt::Write, rc::Rc, thread, time::Duration};

use differential::{
    Manner,
    edge::{edge_of, translated},
    listing::{self, Tree},
    lists::{pool, queries, random_call, random_tree},
    model::Model,
    monty_fs::{Original, entry_size},
    random::Random,
    side::{Answer, Call, Entries, Entry, Op, Side, charge, encoded},
};

use crate::cases::{self, Case};

/// A call as it is in the sample: its mtime, its answer, and the entries and the charge after it; then the limit at
/// which the original was asked, and the charge that it kept.
struct Step {
    call: Call,
    mtime: u64,
    answer: Answer,
    entries: Entries,
    charge: u64,
    asked: u64,
    kept: u64,
}

impl Step {
    /// What makes a call of its kind: its name, the answer's number and path.
    fn class(&self) -> Class {
        (self.call.op.name(), self.answer.number, self.answer.path)
    }

    /// The destination or the data.
    fn second(&self) -> &[u8] {
        match &self.call.op {
            Op::Write { data } | Op::Append { data, .. } | Op::WriteAt { data, .. } => data,
            Op::Rename { to } => to.as_bytes(),
            _ => &[],
        }
    }

    /// 1 for parents plus 2 for exist_ok.
    fn flags(&self) -> u8 {
        match self.call.op {
            Op::Mkdir { parents, exist_ok } => u8::from(parents) + 2 * u8::from(exist_ok),
            _ => 0,
        }
    }
}

type Class = (&'static str, u8, u8);

/// The calls made one after another from an empty table over a listing.
pub struct List {
    listing: Tree,
    steps: Vec<Step>,
}

/// The original with its clock's times replaced.
struct Recorder {
    original: Original,
    times: BTreeMap<u64, u64>,
}

impl Recorder {
    fn new(listing: &Tree) -> Self {
        Self { original: original_over(listing), times: BTreeMap::new() }
    }

    fn step(&mut self, call: &Call) -> Step {
        // Two calls must not store the same time: an f64 of today has steps of a quarter of a microsecond.
        thread::sleep(Duration::from_micros(2));
        let before = self.original.entries();
        let asked = translated(&self.original, call);
        let answer = self.original.call(&asked, 0);
        let mut entries = self.original.entries();
        let new = |entry: &&Entry| call.takes_mtime() && before.get(&call.path) != Some(entry);
        // A call that stores no time is given 7.
        let mtime = entries.get(&call.path).filter(new).map_or(7, |entry| {
            let next = f64::from(1000 + self.times.len() as u32).to_bits();
            *self.times.entry(entry.mtime).or_insert(next)
        });
        for entry in entries.values_mut() {
            entry.mtime = *self.times.get(&entry.mtime).unwrap_or(&entry.mtime);
        }
        let (charge, asked, kept) = (charge(&entries, entry_size()), asked.limit, self.original.charge());
        Step { call: call.clone(), mtime, answer, entries, charge, asked, kept }
    }
}

/// The original over the listing, on an empty table.
fn original_over(listing: &Tree) -> Original {
    Original::new(&listing::bytes(listing), "/mnt", Manner::default())
}

/// A random list in which limits stand at and right below the one that decides.
fn random_list(listing: &Tree, random: &mut Random) -> Vec<Call> {
    let paths = pool(listing);
    let mut original = original_over(listing);
    let mut model = Model::new(&Rc::new(listing.clone()), entry_size(), 1 << 16);
    let mut calls = Vec::new();
    for _ in 0..6 {
        let call = random_call(random, &paths);
        // The model says only whether a move onto itself does nothing.
        model.load(&original.entries());
        let itself = call.is_onto_itself() && model.call(&call, 0).number == 0;
        let edge = if itself { None } else { edge_of(&original, &call) };
        let limit = match (edge, random.below(3)) {
            (Some(edge), 0) => edge.ours - 1,
            (Some(edge), 1) => edge.ours,
            _ => u64::MAX,
        };
        if !itself {
            let call = call.at(limit);
            original.call(&translated(&original, &call), 0);
            calls.push(call);
        }
    }
    let asked = random.pick(&paths).clone();
    calls.push(queries(&asked)[random.below(3)].clone());
    calls
}

/// The lists kept so far, and how often each class came up in them.
#[derive(Default)]
struct Sample {
    lists: Vec<List>,
    seen: BTreeMap<Class, u32>,
}

impl Sample {
    /// Keeps the list up to the last call whose class has come up fewer than `few` times, if there is one.
    fn keep(&mut self, listing: Tree, calls: &[Call], few: impl Fn(Class) -> u32) {
        let mut recorder = Recorder::new(&listing);
        let mut steps: Vec<Step> = calls.iter().map(|call| recorder.step(call)).collect();
        let rare = |step: &Step| *self.seen.get(&step.class()).unwrap_or(&0) < few(step.class());
        let Some(last) = steps.iter().rposition(rare) else { return };
        steps.truncate(last + 1);
        for step in &steps {
            *self.seen.entry(step.class()).or_default() += 1;
        }
        self.lists.push(List { listing, steps });
    }

    fn keep_cases(&mut self, cases: Vec<Case>) {
        for (name, steps) in cases {
            let calls: Vec<Call> = steps.into_iter().map(|(call, ..)| call).collect();
            self.keep(cases::listing(name), &calls, |_| u32::MAX);
        }
    }

    fn calls(&self) -> u32 {
        self.seen.values().sum()
    }
}

/// The sample: document 01's cases, then random lists that bring a call of a rare class, then accepted renames, then
/// the cases of #107.
pub fn lists() -> Vec<List> {
    let mut sample = Sample::default();
    sample.keep_cases(cases::all());
    let mut random = Random::new(4);
    for _ in 0..600 {
        let listing = random_tree(&mut random);
        let calls = random_list(&listing, &mut random);
        sample.keep(listing, &calls, |_| 3);
    }
    while sample.calls() < 230 {
        let listing = random_tree(&mut random);
        let calls = random_list(&listing, &mut random);
        sample.keep(listing, &calls, |class| 20 * u32::from(class == ("rename", 0, 0)));
    }
    sample.keep_cases(cases::rounded());
    sample.lists
}

const HEAD: &str = "\
# Answers of `execute` in overlay.rs (pydantic/monty a34e0f689c, compiled unchanged), E 40.
# Made by `cargo run -p differential -- sample`. Fields are parted by one space. Bytes are hexadecimal, `-` if there are
# none; numbers are decimal; mtimes are the bits of an f64. A line is one of
#   list LISTING                     an empty table over this listing
#   call OP PATH SECOND FLAGS MTIME LIMIT NUMBER INDEX VALUE COUNT CHARGE ASKED KEPT
#   entry KEY KIND MTIME SIZE BODY   after a call: the table's entries, ascending, COUNT of them
# SECOND is the destination (rename) or the data (write). FLAGS is 1 for parents plus 2 for exist_ok. NUMBER, INDEX and
# VALUE are the answer: 0 or the refusal's number, the path it names, and the length or value. COUNT and CHARGE are the
# table's after the call. The clock's times are replaced by 1000, 1001, ... in the order in which they were stored.
# LIMIT and CHARGE are those of change request #107, which charges a body's length rounded up to a multiple of 16;
# CHARGE is the sum over the entries. The original does not round: it was asked at the limit ASKED and kept the charge
# KEPT. LIMIT is as far from the smallest limit by #107 that does not refuse the call for memory as ASKED is from the
# original's; where LIMIT is 2^64 - 1 or no limit decides, both are the same.
";

fn hex(bytes: &[u8]) -> String {
    if bytes.is_empty() { "-".to_owned() } else { bytes.iter().map(|byte| format!("{byte:02x}")).collect() }
}

/// The sample as lines of text; the head says how to read them.
pub fn text(lists: &[List]) -> String {
    let mut lines = HEAD.to_owned();
    let mut line = |line: String| writeln!(lines, "{line}").expect("a string");
    for list in lists {
        line(format!("# {}", listing::text(&list.listing)));
        line(format!("list {}", hex(&listing::bytes(&list.listing))));
        for step in &list.steps {
            let Step { call, mtime, answer: Answer { number, path, value }, entries, charge, asked, kept } = step;
            let (name, first, second) = (call.op.name(), hex(call.path.as_bytes()), hex(step.second()));
            let flags = step.flags();
            let numbers =
                [call.limit, (*number).into(), (*path).into(), *value, entries.len() as u64, *charge, *asked, *kept];
            let numbers = numbers.map(|number| number.to_string()).join(" ");
            line(format!("call {name} {first} {second} {flags} {mtime} {numbers}"));
            for (key, entry) in entries {
                let (key, body) = (hex(key.as_bytes()), hex(&entry.body));
                line(format!("entry {key} {} {} {} {body}", entry.kind, entry.mtime, entry.size));
            }
        }
    }
    lines
}

/// The length as 4 bytes.
fn length(bytes: &[u8]) -> [u8; 4] {
    u32::try_from(bytes.len()).expect("a short string of bytes").to_le_bytes()
}

/// A changing call as a step of a script of the mark TSC1 (docs/FORMATS.md, "The script"). A query has none, and append
/// and writing inside are not in the sample.
fn script_step(step: &Step) -> Option<Vec<u8>> {
    let kind = match step.call.op {
        Op::Exists | Op::IsFile | Op::IsDir | Op::Show | Op::Append { .. } | Op::WriteAt { .. } => return None,
        Op::Write { .. } => 1,
        Op::Mkdir { .. } => 2,
        Op::Unlink => 3,
        Op::Rmdir => 4,
        Op::Rename { .. } => 5,
    };
    let mtime = if step.call.takes_mtime() { step.mtime } else { 0 };
    let (first, second) = (step.call.path.as_bytes(), step.second());
    let mut bytes = vec![kind, step.flags()];
    bytes.extend((first.len() as u16).to_le_bytes());
    bytes.extend(length(second));
    bytes.extend(mtime.to_le_bytes());
    bytes.extend(step.call.limit.to_le_bytes());
    bytes.extend(first);
    bytes.extend(second);
    Some(bytes)
}

/// What the original answered to a changing call, as a row of a report, with the charge of #107.
fn row(step: &Step) -> [u8; 32] {
    let numbers = [step.answer.number.into(), step.answer.path.into(), step.answer.value, step.charge];
    let mut row = [0; 32];
    for (bytes, number) in row.chunks_mut(8).zip(numbers) {
        bytes.copy_from_slice(&number.to_le_bytes());
    }
    row
}

/// The changing calls of the sample as bytes: the mark `TSS1` and the number of lists (4 bytes), then for each list four
/// lengths (4 bytes each) and behind them the listing, the script, the report of the original's answers, and the entries
/// that it left. All numbers are little-endian. Listing, script, report and entries are those of docs/FORMATS.md; E is
/// 40. A script has no queries, so they are left out.
pub fn binary(lists: &[List]) -> Vec<u8> {
    let mut bytes = b"TSS1".to_vec();
    bytes.extend((lists.len() as u32).to_le_bytes());
    for list in lists {
        let (mut count, mut steps, mut report) = (0_u32, Vec::new(), Vec::new());
        for step in &list.steps {
            if let Some(as_bytes) = script_step(step) {
                count += 1;
                steps.extend(as_bytes);
                report.extend(row(step));
            }
        }
        let script = [&b"TSC1"[..], &count.to_le_bytes(), &steps].concat();
        let table = list.steps.last().map_or(Vec::new(), |step| encoded(&step.entries));
        let parts = [listing::bytes(&list.listing), script, report, table];
        bytes.extend(parts.iter().flat_map(|part| length(part)));
        bytes.extend(parts.concat());
    }
    bytes
}

/// Both files are what the original gives now, and the proved program that replays the second has the same.
#[test]
fn the_sample_is_as_it_was() {
    let lists = lists();
    assert_eq!(lists.len(), 71);
    assert_eq!(lists.iter().map(|list| list.steps.len()).sum::<usize>(), 259);
    assert!(text(&lists) == include_str!("../sample.txt"), "sample.txt");
    assert!(binary(&lists) == include_bytes!("../sample.bin"), "sample.bin");
    assert!(binary(&lists) == include_bytes!("../../../crates/prog_sample/data/sample"), "prog_sample's data");
}
