//! Puts bad input to every call: tables, records, listings and paths with each byte changed in turn, then at random.
//!
//! Every buffer has its exact length and touches a page that may not be touched; listing, path, data and lent bytes
//! may not be written either. After each call: the number is 0 to 13, 17 or 18; refused, table, record and work buffer
//! are as they were; accepted, the work buffer is all 0 and the table agrees with its record. It prints how many calls
//! gave each number. Scripts of calls are run so too, with each byte changed and at random (scripts.rs), files are
//! added to and written inside (content.rs), kept files are read and written (kept.rs), directories are shown
//! (shown.rs), what would let a rename through is asked and tried (least.rs), and short strings are asked for, whether
//! they are a path (paths.rs).
//!
//! `badinput` makes over 100,000 calls, `badinput --long` over two million; `--seed N` moves them.
mod content;
mod guarded;
mod kept;
mod least;
mod paths;
mod plain;
mod scripts;
mod shown;
mod states;

use std::collections::BTreeMap;

use differential::{random::Random, words::Words};
use guarded::{Guarded, Side};
use overlay::raw;
use states::{Input, Op};

/// Whether a changing call may have this number.
fn is_number(number: u64) -> bool {
    matches!(number, 0..=13 | 17 | 18)
}

const SHORT: u64 = 100_000;
const LONG: u64 = 2_000_000;

/// Memory for each thing that a call is lent, used again by the next call.
struct Memory {
    listing: Guarded,
    table: Guarded,
    record: Guarded,
    work: Guarded,
    paths: [Guarded; 2],
    data: [Guarded; 2],
}

impl Memory {
    fn new() -> Memory {
        let new = || Guarded::new(8192);
        let two = || [new(), new()];
        Memory { listing: new(), table: new(), record: new(), work: new(), paths: two(), data: two() }
    }

    /// Makes the call that the input asks for, and sees to what it answers and leaves. The answer's number.
    fn call(&mut self, input: &Input, random: &mut Random) -> u8 {
        let mut side = || if random.below(4) == 0 { Side::Start } else { Side::End };
        let listing = self.listing.seal(&input.listing, side());
        let [first, second] = &mut self.paths;
        let paths = [first.seal(&input.paths[0], side()), second.seal(&input.paths[1], side())];
        let [first, second] = &mut self.data;
        let data = [first.seal(&input.data, side()), second.seal(&input.bytes, side())];
        let table = self.table.hold(&input.table, side());
        let record = self.record.hold(&input.record, side());
        let work = self.work.hold(&input.work, side());
        let mut lent = raw::Lent { table, record, work };
        let answer = input.call(listing, &mut lent, paths, data);
        let number = answer as u8;
        let can_have =
            if matches!(input.op, Op::Append | Op::WriteAt) { is_number(number.into()) } else { number <= 13 };
        assert!(can_have, "the number {number}: {input:?}");
        if number != 0 || input.op.is_query() {
            assert!(lent.table == input.table, "the table changed: {input:?}");
            assert!(lent.record == input.record, "the record changed: {input:?}");
            assert!(lent.work == input.work, "the work buffer changed: {input:?}");
        } else {
            assert!(raw::check_table(lent.table, lent.record), "no table: {input:?}");
            assert!(input.op == Op::Open || lent.work.iter().all(|byte| *byte == 0), "work is left: {input:?}");
        }
        if number != 0 {
            let path = answer >> 8 & 0xff;
            assert!(path <= 1 && answer >> 16 <= 512, "path {path}, length {}: {input:?}", answer >> 16);
        }
        number
    }
}

fn main() {
    let words = Words::given();
    let (seed, calls) = (words.seed(), if words.long() { LONG } else { SHORT });
    let (mut memory, mut random) = (Memory::new(), Random::new(seed));
    let (mut counts, mut by_byte, mut at_random) = ([0u64; 19], 0u64, 0u64);
    let (mut run_memory, mut runs) = (scripts::Memory::new(), BTreeMap::new());
    while by_byte + at_random < calls {
        let base = states::built(&mut random);
        for input in states::byte_by_byte(&base, &mut random) {
            counts[memory.call(&input, &mut random) as usize] += 1;
            by_byte += 1;
            let input = states::at_random(&base, &mut random);
            counts[memory.call(&input, &mut random) as usize] += 1;
            at_random += 1;
        }
        let script = scripts::built(&base, &mut random);
        for script in scripts::changed(&script, &mut random).into_iter().chain(scripts::misfits()) {
            let mut input = if random.one_in(2) { base.clone() } else { states::at_random(&base, &mut random) };
            input.numbers[0] %= 4200;
            let answer = run_memory.run(&input, &script, random.one_in(2), &mut random);
            *runs.entry(answer).or_insert(0u64) += 1;
        }
    }
    println!("bad input: seed {seed}, {} calls, {by_byte} with one change, {at_random} at random", by_byte + at_random);
    for (number, count) in counts.iter().enumerate().filter(|(number, _)| is_number(*number as u64)) {
        println!("  {number:2}: {count}");
    }
    println!("scripts: {} runs", runs.values().sum::<u64>());
    for (answer, count) in &runs {
        println!("  {answer:3}: {count}");
    }
    println!("no crash, no other number; what was refused or not run changed nothing, but for the opening");
    content::run(seed, calls, words.long());
    kept::run(seed, calls, words.long());
    shown::run(seed, calls, words.long());
    least::run(seed, calls, words.long());
    paths::run(words.long());
}
