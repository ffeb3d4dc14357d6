//! Scripts of calls, whole and changed, run on what the calls are given.
//!
//! After each run: the answer is 0, 1, 254 or 255, and 254 where the bytes are no script (plain.rs) and nowhere else,
//! but for 1. Not run, the report and the work buffer are as they were, and so are table and record, or the table was
//! opened for `run_new`. Run, rows, table, record and work buffer are what the same calls give and leave that are made
//! one by one; each row has a number from 0 to 13, 17 or 18, a refusal a path of 0 or 1 and a length of at most 512; what
//! stands behind the rows is as it was; the work buffer is all 0 if a call was accepted, else as it was; and where the
//! table was one it is one again, with its record.
use differential::random::Random;
use overlay::{Mkdir, Mtime, ROW_LENGTH, Script, raw};

use crate::{
    guarded::{Guarded, Side},
    is_number, plain,
    states::{self, Input, Op},
};

const NOT_A_SCRIPT: u64 = 254;
const SHORT_REPORT: u64 = 255;

/// A script of up to five calls, made of inputs over the same state.
pub fn built(base: &Input, random: &mut Random) -> Vec<u8> {
    let mut script = Script::new();
    for _ in 0..random.below(6) {
        let mut input = base.clone();
        states::asked(&mut input, random);
        let ([path, to], [mtime, limit, offset]) = (&input.paths, input.numbers);
        let mtime = Mtime::from_bits(mtime);
        match input.op {
            Op::Write => script.write_bytes(path, &input.data, mtime, limit),
            Op::Append => script.append_bytes(path, &input.data, &input.bytes, mtime, limit),
            Op::WriteAt => script.write_file_at(path, &input.data, offset, mtime, limit),
            Op::Mkdir => {
                script.mkdir(path, Mkdir { parents: input.flags[0], exist_ok: input.flags[1] }, mtime, limit);
            }
            Op::Unlink => script.unlink(path, limit),
            Op::Rmdir => script.rmdir(path, limit),
            _ => script.rename(path, to, limit),
        }
    }
    script.as_ref().to_vec()
}

/// The script itself, under both marks, with each byte changed, with each length up to one more, and changed at random.
pub fn changed(script: &[u8], random: &mut Random) -> Vec<Vec<u8>> {
    let mut scripts = vec![script.to_vec()];
    for mark in [b"TSC1", b"TSC2"] {
        scripts.push([mark, &script[4..]].concat());
    }
    for at in 0..script.len() {
        let mut other = script.to_vec();
        other[at] ^= 1 << random.below(8);
        scripts.push(other);
    }
    for length in 0..script.len() + 2 {
        let mut other = script.to_vec();
        other.resize(length, 0);
        scripts.push(other);
    }
    for _ in 0..20 {
        let mut other = script.to_vec();
        states::scramble(&mut other, random);
        scripts.push(other);
    }
    scripts
}

/// Scripts of one step of each kind, and of kinds that there are not, under both marks: with nothing that some kind has
/// no use for, and with each of these things.
pub fn misfits() -> Vec<Vec<u8>> {
    let mut scripts = Vec::new();
    for (mark, head) in [(b"TSC1", 24), (b"TSC2", 36)] {
        for kind in 0..9 {
            // Flags, the second part's length, mtime, and in the wider head the offset and the third part's length.
            for (at, parts) in [(0, 1), (1, 1), (4, 2), (8, 1), (15, 1), (24, 1), (31, 1), (32, 2)] {
                let mut step = vec![0; head];
                (step[0], step[2]) = (kind, 1);
                if at >= head {
                    continue;
                }
                step[at] = if at == 0 { kind } else { 1 };
                scripts.push([mark, &[1, 0, 0, 0][..], &step, &b"ab"[..parts]].concat());
            }
        }
    }
    scripts
}

/// Makes the calls of a script one by one. Their rows.
fn one_by_one(script: &[u8], listing: &[u8], lent: &mut raw::Lent) -> Vec<u8> {
    let mut rows = Vec::new();
    for step in plain::script(script).expect("a script") {
        let ([path, second, third], [mtime, limit, offset]) = (step.parts, step.numbers);
        let answer = match step.kind {
            1 => raw::write_bytes(listing, lent, path, second, mtime, limit),
            2 => raw::mkdir(listing, lent, path, step.flags & 1 != 0, step.flags & 2 != 0, mtime, limit),
            3 => raw::unlink(listing, lent, path, limit),
            4 => raw::rmdir(listing, lent, path, limit),
            5 => raw::rename(listing, lent, path, second, limit),
            6 => raw::append_bytes(listing, lent, path, second, third, mtime, limit),
            _ => raw::write_file_at(listing, lent, path, second, offset, mtime, limit),
        };
        let row = [answer & 0xff, answer >> 8 & 0xff, answer >> 16, lent.record[2]];
        rows.extend(row.into_iter().flat_map(u64::to_le_bytes));
    }
    rows
}

/// Memory for what a run is lent.
pub struct Memory {
    listing: Guarded,
    table: Guarded,
    record: Guarded,
    work: Guarded,
    script: Guarded,
    report: Guarded,
}

impl Memory {
    pub fn new() -> Memory {
        let new = || Guarded::new(8192);
        Memory { listing: new(), table: new(), record: new(), work: new(), script: new(), report: new() }
    }

    /// Runs the script on the input's state, or on its table opened first. The answer.
    pub fn run(&mut self, input: &Input, script: &[u8], opened: bool, random: &mut Random) -> u64 {
        let mut side = || if random.below(4) == 0 { Side::Start } else { Side::End };
        let sides = [side(), side(), side(), side(), side(), side()];
        let length = random.below(8) * ROW_LENGTH + random.below(3);
        let before = random.bytes(length);
        let listing = self.listing.seal(&input.listing, sides[0]);
        let lent_script = self.script.seal(script, sides[1]);
        let report = self.report.hold(&before, sides[2]);
        let table = self.table.hold(&input.table, sides[3]);
        let record = self.record.hold(&input.record, sides[4]);
        let work = self.work.hold(&input.work, sides[5]);
        let was_table = raw::check_table(table, record);
        let entry_size = input.numbers[0];
        let mut lent = raw::Lent { table, record, work };
        let answer = if opened {
            raw::run_new(listing, &mut lent, lent_script, report, entry_size)
        } else {
            raw::run(listing, &mut lent, lent_script, report)
        };
        let told = || format!("{answer} for {script:02x?} opened {opened}: {input:?}");
        assert!(answer == 1 || plain::script(script).is_some() == (answer != NOT_A_SCRIPT), "the form: {}", told());
        match answer {
            0 => {
                let steps = u32::from_le_bytes(script[4..8].try_into().expect("four bytes")) as usize;
                let mut accepted = false;
                for row in report[..steps * ROW_LENGTH].chunks(ROW_LENGTH) {
                    let word = |at: usize| u64::from_le_bytes(row[at..at + 8].try_into().expect("eight bytes"));
                    let refusal = is_number(word(0)) && word(8) <= 1 && word(16) <= 512;
                    assert!(word(0) == 0 || refusal, "a row: {}", told());
                    accepted |= word(0) == 0;
                }
                let Input { mut table, mut record, mut work, .. } = input.clone();
                if opened {
                    raw::open_table(&mut table, &mut record, entry_size);
                }
                let mut single = raw::Lent { table: &mut table, record: &mut record, work: &mut work };
                let rows = one_by_one(script, &input.listing, &mut single);
                assert!(report[..steps * ROW_LENGTH] == rows, "not the rows of the single calls: {}", told());
                let left = *lent.table == table && *lent.record == record && *lent.work == work;
                assert!(left, "not what the single calls leave: {}", told());
                let zeroed = accepted && lent.work.iter().all(|byte| *byte == 0);
                assert!(zeroed || !accepted && lent.work == input.work, "the work buffer: {}", told());
                let behind = steps * ROW_LENGTH..;
                assert!(report[behind.clone()] == before[behind], "behind the rows: {}", told());
                let sound = opened || was_table;
                assert!(!sound || raw::check_table(lent.table, lent.record), "no table: {}", told());
            }
            1 | NOT_A_SCRIPT | SHORT_REPORT => {
                assert!(report == before && lent.work == input.work, "report or work changed: {}", told());
                if opened && answer != 1 {
                    assert!(lent.table.iter().all(|byte| *byte == 0), "not opened: {}", told());
                    assert!(lent.record == [0, 0, 0, entry_size], "not the empty record: {}", told());
                } else {
                    assert!(lent.table == input.table && lent.record == input.record, "table changed: {}", told());
                }
            }
            _ => panic!("an answer that no run has: {}", told()),
        }
        answer
    }
}
