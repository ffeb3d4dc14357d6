//! What the calls are given: states that calls built over small listings, then changed.
use differential::{
    listing::{self, Kind, Node, Tree},
    random::Random,
};
use overlay::raw;

use crate::plain::{self, Given};

#[derive(Clone, Copy, Debug, PartialEq)]
pub enum Op {
    Exists,
    IsFile,
    IsDir,
    Open,
    Write,
    Append,
    WriteAt,
    Mkdir,
    Unlink,
    Rmdir,
    Rename,
}

const QUERIES: [Op; 3] = [Op::Exists, Op::IsFile, Op::IsDir];
const CHANGES: [Op; 7] = [Op::Write, Op::Append, Op::WriteAt, Op::Mkdir, Op::Unlink, Op::Rmdir, Op::Rename];

impl Op {
    pub fn is_query(self) -> bool {
        QUERIES.contains(&self)
    }

    fn any(random: &mut Random) -> Op {
        match random.below(11) {
            0 => Op::Open,
            n if n < 4 => QUERIES[n - 1],
            n => CHANGES[n - 4],
        }
    }
}

/// Everything that one call is given. The numbers are mtime (or entry size), limit and offset, the flags mkdir's; the
/// bytes are those that an append is lent.
#[derive(Clone, Debug)]
pub struct Input {
    pub op: Op,
    pub listing: Vec<u8>,
    pub table: Vec<u8>,
    pub record: Vec<u64>,
    pub work: Vec<u8>,
    pub paths: [Vec<u8>; 2],
    pub data: Vec<u8>,
    pub bytes: Vec<u8>,
    pub flags: [bool; 2],
    pub numbers: [u64; 3],
}

impl Input {
    /// Makes the call on what it is lent: copies of what the input has. The packed answer.
    pub fn call(&self, listing: &[u8], lent: &mut raw::Lent, paths: [&[u8]; 2], [data, bytes]: [&[u8]; 2]) -> u64 {
        let ([path, to], [mtime, limit, offset], [parents, exist_ok]) = (paths, self.numbers, self.flags);
        match self.op {
            Op::Exists => raw::exists(listing, lent.table, lent.record, path),
            Op::IsFile => raw::is_file(listing, lent.table, lent.record, path),
            Op::IsDir => raw::is_dir(listing, lent.table, lent.record, path),
            Op::Open => raw::open_table(lent.table, lent.record, mtime),
            Op::Write => raw::write_bytes(listing, lent, path, data, mtime, limit),
            Op::Append => raw::append_bytes(listing, lent, path, data, bytes, mtime, limit),
            Op::WriteAt => raw::write_file_at(listing, lent, path, data, offset, mtime, limit),
            Op::Mkdir => raw::mkdir(listing, lent, path, parents, exist_ok, mtime, limit),
            Op::Unlink => raw::unlink(listing, lent, path, limit),
            Op::Rmdir => raw::rmdir(listing, lent, path, limit),
            Op::Rename => raw::rename(listing, lent, path, to, limit),
        }
    }
}

/// A name of the longest kind: two of them joined have 511 bytes.
pub const LONG: &str = match std::str::from_utf8(&[b'n'; 255]) {
    Ok(name) => name,
    Err(_) => unreachable!(),
};

/// Paths in form that clash in the ways that matter: `a-b` and `a0` stand around what is below `a`.
pub fn path(random: &mut Random) -> String {
    let names = ["a", "b", "a-b", "a0", "f", "l", "é", "a", "b", "f"];
    match random.below(40) {
        0 => String::new(),
        1 => LONG.to_owned(),
        2 => format!("{LONG}/{LONG}"),
        3 => format!("{LONG}/{}", random.pick(&names)),
        _ => {
            let depth = 1 + random.below(3);
            let parts: Vec<&str> = (0..depth).map(|_| *random.pick(&names)).collect();
            parts.join("/")
        }
    }
}

/// The listing of a few paths: each that has its parents as directories there.
fn listing(random: &mut Random) -> Vec<u8> {
    let mut tree = Tree::new();
    let mut paths: Vec<String> = (0..random.below(14)).map(|_| path(random)).collect();
    paths.retain(|path| !path.is_empty());
    paths.sort_unstable();
    paths.dedup();
    for path in paths {
        let parent = path.rsplit_once('/').map(|(parent, _)| tree.get(parent));
        if parent.is_none_or(|node| node.is_some_and(|node: &Node| node.kind == Kind::Directory)) {
            let kind = [Kind::Directory, Kind::Directory, Kind::Directory, Kind::File, Kind::File, Kind::Link];
            let kind = *random.pick(&kind);
            let mtime = if kind == Kind::Link { 0 } else { random.number() };
            let size = match kind {
                Kind::File if random.one_in(3) => (random.number() >> 1) as i64,
                Kind::File => random.below(12) as i64,
                _ => 0,
            };
            tree.insert(path, Node { kind, mtime, size });
        }
    }
    listing::bytes(&tree)
}

/// Limits near the charges that small tables have, and no limit.
fn limit(random: &mut Random) -> u64 {
    if random.one_in(4) { random.below(3000) as u64 } else { u64::MAX }
}

/// How many bytes an append is lent: as many as it needs, or about as many, or as many as another file has.
fn lent(input: &Input, random: &mut Random) -> usize {
    let [path, _] = &input.paths;
    let Input { listing, table, record, data, .. } = input;
    let given = Given { listing, table, record, work: table.len(), path, data, mtime: 0, limit: 0 };
    let needed = plain::needed(&given).filter(|needed| *needed < 100).unwrap_or(0) as usize;
    match random.below(8) {
        0 => random.below(12),
        1 => needed + 1,
        2 => needed.saturating_sub(1),
        _ => needed,
    }
}

/// Offsets near the start of small files, and at the edges of what 64 bits hold.
fn offset(random: &mut Random) -> u64 {
    match random.below(8) {
        0 => u64::MAX - random.below(24) as u64,
        1 => random.number() >> random.below(64),
        _ => random.below(30) as u64,
    }
}

/// A call with a good path on the given state.
pub fn asked(input: &mut Input, random: &mut Random) {
    input.op = Op::any(random);
    input.paths = [path(random).into(), path(random).into()];
    if random.one_in(30) {
        // A destination whose children's keys are too long.
        input.paths[1] = format!("{LONG}/{LONG}").into();
    }
    let length = random.below(20);
    input.data = random.bytes(length);
    input.flags = [random.one_in(2), random.one_in(2)];
    let entry_size = if random.one_in(3) { random.number() } else { random.below(5000) as u64 };
    input.numbers = [if input.op == Op::Open { entry_size } else { random.number() }, limit(random), offset(random)];
    let count = lent(input, random);
    input.bytes = random.bytes(count);
    let longer = random.below(3);
    input.work = random.bytes(input.table.len() + longer);
}

/// A state that a few calls built from an empty table, and a call on it.
pub fn built(random: &mut Random) -> Input {
    let room = if random.one_in(8) { 4000 } else { random.below(500) };
    let mut state = Input {
        op: Op::Exists,
        listing: listing(random),
        table: vec![0; room],
        record: vec![0; 4],
        work: vec![0; room],
        paths: [Vec::new(), Vec::new()],
        data: Vec::new(),
        bytes: Vec::new(),
        flags: [false; 2],
        numbers: [0; 3],
    };
    let entry_size = random.below(100) as u64;
    assert_eq!(raw::open_table(&mut state.table, &mut state.record, entry_size), 0);
    if room == 4000 {
        let Input { listing, table, record, work, .. } = &mut state;
        let mut lent = raw::Lent { table, record, work };
        raw::mkdir(listing, &mut lent, LONG.as_bytes(), false, false, 0, u64::MAX);
        raw::mkdir(listing, &mut lent, b"a/b", true, false, 0, u64::MAX);
    }
    for _ in 0..random.below(12) {
        asked(&mut state, random);
        state.flags[0] = true;
        if CHANGES.contains(&state.op) {
            let mut after = state.clone();
            let mut lent = raw::Lent { table: &mut after.table, record: &mut after.record, work: &mut after.work };
            state.call(&state.listing, &mut lent, [&state.paths[0], &state.paths[1]], [&state.data, &state.bytes]);
            state = after;
        }
    }
    asked(&mut state, random);
    state
}

/// Every input that has one thing of the base changed, each with a call of its own: a byte of the table, of the listing or
/// of a path, a number of the record, a length.
pub fn byte_by_byte(base: &Input, random: &mut Random) -> Vec<Input> {
    let mut inputs = Vec::new();
    let mut add = |random: &mut Random, change: &dyn Fn(&mut Input)| {
        let mut input = base.clone();
        asked(&mut input, random);
        change(&mut input);
        inputs.push(input);
    };
    add(random, &|_| {});
    for mask in [1, 0x80, 0xff, 1 << random.below(8)] {
        for at in 0..base.table.len() {
            add(random, &|input| input.table[at] ^= mask);
        }
        for at in 0..base.listing.len() {
            add(random, &|input| input.listing[at] ^= mask);
        }
        for at in 0..base.paths[0].len() {
            add(random, &|input| {
                input.paths = base.paths.clone();
                input.paths[0][at] ^= mask;
            });
        }
    }
    for at in 0..4 {
        for number in [0, 1, u64::MAX, base.record[at].wrapping_add(1), base.record[at].wrapping_sub(1)] {
            add(random, &|input| input.record[at] = number);
        }
    }
    // The charge as it was summed before bodies were rounded.
    if let Some(charge) = plain::unrounded(&base.table[..base.record[0] as usize], base.record[3]) {
        add(random, &|input| input.record[2] = charge);
    }
    for length in 0..7 {
        add(random, &|input| input.record.resize(length, 0));
    }
    for length in 0..base.listing.len() + 2 {
        add(random, &|input| input.listing.resize(length, 0));
    }
    for length in 0..base.table.len() + 2 {
        add(random, &|input| input.table.resize(length, 0));
        add(random, &|input| input.work.resize(length, 0x55));
    }
    inputs
}

/// The base with many things changed, or made up.
pub fn at_random(base: &Input, random: &mut Random) -> Input {
    let mut input = base.clone();
    asked(&mut input, random);
    for _ in 0..random.below(4) {
        match random.below(10) {
            0 | 1 => scramble(&mut input.table, random),
            2 | 3 => scramble(&mut input.listing, random),
            4 => scramble(&mut input.paths[0], random),
            5 => scramble(&mut input.paths[1], random),
            6 => {
                let length = random.below(700);
                input.paths[0] = random.bytes(length);
            }
            7 => input.paths[0] = vec!["a"; 1 + random.below(40)].join("/").into(),
            8 => {
                let at = random.below(4);
                input.record[at] = random.number() >> random.below(64);
            }
            _ => {
                let length = random.below(600);
                input.table = random.bytes(length);
            }
        }
    }
    input
}

/// A few bytes changed, put in or left out.
pub fn scramble(bytes: &mut Vec<u8>, random: &mut Random) {
    for _ in 0..1 + random.below(3) {
        let at = random.below(bytes.len() + 1);
        match random.below(3) {
            0 => bytes.insert(at, random.number() as u8),
            1 if at < bytes.len() => drop(bytes.remove(at)),
            _ if at < bytes.len() => bytes[at] = random.number() as u8,
            _ => bytes.push(0),
        }
    }
}
