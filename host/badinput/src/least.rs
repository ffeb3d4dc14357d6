//! What would let a rename through, asked of whole and of damaged tables and listings, of tables that no call builds,
//! and of any bytes.
//!
//! Nothing is worked out here: what is said is tried, by renames on copies of the table in buffers of other lengths.
//! With either number the rename is accepted, with one less and with less still it is refused, and where there are none
//! it is refused at the highest limit in a longer buffer, in a few of 16 MiB. Where the asking is refused, so is the
//! rename. Nothing but the two numbers may be written, and they only where the asking is accepted.
use std::collections::BTreeMap;

use differential::{
    listing::{self, tree},
    random::Random,
};
use overlay::{MAX_BUFFER, raw};

use crate::{
    guarded::{Guarded, Side},
    kept::{entry, made_entries, others},
    plain,
    states::{self, Input, LONG},
};

/// The numbers that the renames tried can give.
const NUMBERS: [u64; 13] = [0, 1, 2, 3, 4, 5, 7, 8, 9, 10, 11, 12, 13];

/// What is said of a rename, with what the tries showed of it.
#[derive(Clone, Copy, Debug, PartialEq, Eq, PartialOrd, Ord)]
enum Said {
    /// The limit is 0.
    NoLimit,
    /// The limit is the charge after the rename, at least the charge before it.
    Charge,
    /// The same, below the charge before it.
    LowerCharge,
    /// The limit is above the charge after it.
    PlanOrWalk,
    None,
    Refused(u64),
}

const SAID: [(Said, &str); 8] = [
    (Said::NoLimit, "limit 0"),
    (Said::Charge, "the limit is the charge after the rename"),
    (Said::LowerCharge, "the same, below the charge before it"),
    (Said::PlanOrWalk, "the limit is above the charge after it"),
    (Said::None, "no limit and no length"),
    (Said::Refused(1), "refused with 1"),
    (Said::Refused(2), "refused with 2"),
    (Said::Refused(3), "refused with 3"),
];

/// What one asking is lent beside the two numbers.
#[derive(Clone, Debug)]
struct Lent {
    listing: Vec<u8>,
    table: Vec<u8>,
    record: Vec<u64>,
    paths: [Vec<u8>; 2],
}

impl Lent {
    /// A table of these entries with so many bytes behind them, over a listing.
    fn new(listing: Vec<u8>, entries: &[u8], entry_size: u64, behind: usize) -> Lent {
        let record = plain::record_of(entries, entry_size).expect("entries in form").to_vec();
        Lent { listing, table: [entries, &vec![0; behind]].concat(), record, paths: Default::default() }
    }

    fn of(input: Input) -> Lent {
        Lent { listing: input.listing, table: input.table, record: input.record, paths: input.paths }
    }

    fn at(&self, source: &str, destination: &str) -> Lent {
        Lent { paths: [source.into(), destination.into()], ..self.clone() }
    }
}

/// A table over a listing, with the paths that it is asked about.
struct Base {
    lent: Lent,
    paths: Vec<String>,
}

impl Base {
    fn new(lent: Lent, paths: &str) -> Base {
        Base { lent, paths: paths.split(' ').chain([""]).map(str::to_owned).collect() }
    }

    /// Each path with each.
    fn pairs(&self) -> impl Iterator<Item = Lent> + Clone {
        self.paths.iter().flat_map(|from| self.paths.iter().map(|to| self.lent.at(from, to)))
    }

    /// The same in another order, in which neighbours differ in both paths.
    fn turns(&self) -> impl Iterator<Item = Lent> {
        let count = self.paths.len();
        let pair = move |n: usize| self.lent.at(&self.paths[n % count], &self.paths[(n / count + 3 * n) % count]);
        (0..count * count).cycle().map(pair)
    }
}

/// Directories with listed children and with entries of every kind, a link below one of them, and a long own file.
fn small() -> Base {
    let entries = [
        entry(b"a/b/c", 4, b"", 0, 0),
        entry(b"a/f", 1, b"xy", 7, 0),
        entry(b"a/g", 2, b"z", 7, 5),
        entry(b"a0/k", 3, b"", 7, 0),
        entry(b"a0/k/m", 1, b"", 7, 0),
        entry(b"g", 3, b"", 7, 0),
        entry(b"g/h", 1, b"h", 7, 0),
        entry(b"n", 1, &[b'n'; 60], 7, 0),
        entry(b"q", 4, b"", 0, 0),
    ];
    let listing = listing::bytes(&tree("a/ a-b a/b/ a/b/c a/f a/h a0/ d/ d/f d/l@ e/ l@ q z é/ é/f"));
    let paths =
        "a a/b a/b/c a/f a/g a/h a/n a0 a0/k a0/n d d/f d/l d/n e e/n g g/h g/n l l/x n n/x q x x/y z é a/ . a//b";
    Base::new(Lent::new(listing, &entries.concat(), 40, 9), paths)
}

/// A table that no call builds: entries over links and below them, below files, and below nothing.
fn elsewhere() -> Base {
    let entries = [
        entry(b"a", 4, b"", 0, 0),
        entry(b"a/f/x", 1, b"", 0, 0),
        entry(b"a/l", 1, b"", 0, 0),
        entry(b"d", 3, b"", 0, 0),
        entry(b"l", 3, b"", 0, 0),
        entry(b"l/x/y", 3, b"", 0, 0),
        entry(b"q/r", 1, b"", 0, 0),
        entry(b"z", 3, b"", 0, 0),
    ];
    let listing = listing::bytes(&tree("a/ a/b/ a/b/c a/f a/l@ d/ d/e/ d/e/f l@ z"));
    let paths = "a a/b a/b/c a/f a/f/x a/l d d/e d/e/f d/n l l/x l/x/y l/n q q/r x z z/n";
    Base::new(Lent::new(listing, &entries.concat(), 0, 3), paths)
}

/// Paths at the bounds of their form, and directories whose children's keys just fit below others, or do not.
fn bounds() -> Base {
    let (wide, deep) = (format!("{LONG}/{}", &LONG[1..]), |count| vec!["c"; count].join("/"));
    let listed: Vec<String> = (1..31).map(|count| deep(count) + "/").collect();
    let listed = format!("{} d/ d/f {LONG}/ é/ é/€ é/😀 😀@", listed.join(" "));
    let entries = [
        entry(deep(31).as_bytes(), 3, b"", 1, 0),
        entry(b"g", 3, b"", 1, 0),
        entry(b"g/h", 3, b"", 1, 0),
        entry(b"g/h/i", 1, b"own", 1, 0),
        entry(wide.as_bytes(), 3, b"", 1, 0),
        entry(format!("{wide}/n").as_bytes(), 1, b"", 1, 0),
        entry("é/€".as_bytes(), 4, b"", 0, 0),
    ];
    let others = [30, 31, 32, 33].map(deep).join(" ");
    let paths = format!("c d d/f g g/h g/h/i {LONG} {LONG}n {LONG}/x {wide} {wide}/m {wide}/n é é/😀 😀 x {others}");
    Base::new(Lent::new(listing::bytes(&tree(&listed)), &entries.concat(), 1, 5), &paths)
}

/// What an asking is lent, in memory that may only be read.
#[derive(Clone, Copy, Debug)]
struct Sealed<'a> {
    listing: &'a [u8],
    table: &'a [u8],
    record: &'a [u64],
    paths: [&'a [u8]; 2],
}

/// Memory for what a rename changes and for the two numbers, and how many renames gave each number.
struct Held {
    table: Guarded,
    record: Guarded,
    work: Guarded,
    least: Guarded,
    tried: BTreeMap<u64, u64>,
}

/// The packed answer of an asking, and the two numbers where it is accepted.
type Least = (u64, Option<[u64; 2]>);

/// The asking and the renames for one input.
struct Tries<'a> {
    random: &'a mut Random,
    held: &'a mut Held,
    sealed: Sealed<'a>,
    said: Option<Least>,
}

fn side(random: &mut Random) -> Side {
    if random.one_in(4) { Side::Start } else { Side::End }
}

impl Tries<'_> {
    /// How the input is told where something is not as it must be.
    fn told(&self) -> String {
        format!("{:?} for {:02x?}", self.said, self.sealed).chars().take(6000).collect()
    }

    /// Asks of this table, with so many numbers lent.
    fn ask(&mut self, table: &[u8], count: usize) -> Least {
        let Sealed { listing, record, paths: [source, destination], .. } = self.sealed;
        let old = vec![self.random.number() | 1 << 63; count];
        let least = self.held.least.hold(&old, side(self.random));
        let answer = raw::least_rename(listing, table, record, source, destination, least);
        let least = least.to_vec();
        if answer as u8 != 0 {
            assert!(least == old, "{answer:#x}, and the numbers changed: {}", self.told());
            return (answer, None);
        }
        let least = <[u64; 2]>::try_from(least);
        (answer, Some(least.unwrap_or_else(|_| panic!("accepted with {count} numbers: {}", self.told()))))
    }

    /// Renames at this limit on a copy of the table in a buffer of so many bytes, with a work buffer as long: the table
    /// is cut, or zeros stand behind it. The packed answer and the record after it.
    fn rename(&mut self, room: usize, limit: u64) -> (u64, Vec<u64>) {
        let Sealed { listing, table, record, paths: [source, destination] } = self.sealed;
        let mut before = table.to_vec();
        before.resize(room, 0);
        let dirty = vec![self.random.number() as u8; room];
        let table = self.held.table.hold(&before, side(self.random));
        let after = self.held.record.hold(record, side(self.random));
        let work = self.held.work.hold(&dirty, side(self.random));
        let mut lent = raw::Lent { table, record: after, work };
        let answer = raw::rename(listing, &mut lent, source, destination, limit);
        let as_owed = if answer as u8 == 0 {
            raw::check_table(lent.table, lent.record) && *lent.work == vec![0; room]
        } else {
            *lent.table == before && lent.record == record && *lent.work == dirty
        };
        let after = lent.record.to_vec();
        assert!(as_owed, "{answer:#x} at {limit} in {room} bytes, and what it left: {}", self.told());
        *self.held.tried.entry(answer & 0xff).or_default() += 1;
        (answer, after)
    }

    /// The same, where the packed answer must be this one. The record after it.
    fn is(&mut self, room: usize, limit: u64, wanted: u64) -> Vec<u64> {
        let (answer, after) = self.rename(room, limit);
        assert!(answer == wanted, "{answer:#x} at {limit} in {room} bytes, not {wanted:#x}: {}", self.told());
        after
    }

    /// Where there are no numbers: no limit, in its own buffer and in one of so many bytes.
    fn none(&mut self, room: usize) {
        let own = self.sealed.table.len();
        let (answer, _) = self.rename(room, u64::MAX);
        // Refused with 13, its entries would be above 16 MiB.
        let can_have = matches!(answer as u8, 4..=10 | 12) || answer == 13 && room == MAX_BUFFER;
        assert!(can_have, "{answer:#x} without a limit in {room} bytes: {}", self.told());
        self.is(own, u64::MAX, answer);
        let charge = self.sealed.record[2];
        for limit in [0, charge, 2 * charge] {
            let (answer, _) = self.rename(own, limit);
            assert!(matches!(answer as u8, 4..=13), "{answer:#x} at {limit}: {}", self.told());
        }
    }

    /// Where these are the numbers: either of them, both together, and less, also in a buffer of so many bytes.
    fn both(&mut self, limit: u64, length: usize, room: usize) -> Said {
        let Sealed { table, record, .. } = self.sealed;
        let (used, charge, own) = (record[0] as usize, record[2], table.len());
        // A buffer that is shorter than the bytes used holds no table.
        let short = |room: usize| if room < used { 1 } else { 13 };
        self.is(own, u64::MAX, if own < length { short(own) } else { 0 });
        let after = self.is(room, limit, 0);
        self.is(room, limit.saturating_add(charge + 1), 0);
        self.is(length, u64::MAX, 0);
        self.is(length, limit, 0);
        let mut lower = vec![0, limit / 3, limit / 2, limit.saturating_sub(2), limit.saturating_sub(1)];
        lower.retain(|lower| *lower < limit);
        lower.dedup();
        for lower in lower {
            self.is(room, lower, 11);
            self.is(length, lower, 11);
        }
        let mut shorter = vec![0, length / 2, used.saturating_sub(1), used, length.saturating_sub(1)];
        shorter.retain(|shorter| *shorter < length);
        shorter.dedup();
        for shorter in shorter {
            self.is(shorter, u64::MAX, short(shorter));
            self.is(shorter, limit, short(shorter));
        }
        match limit {
            0 => Said::NoLimit,
            _ if limit != after[2] => Said::PlanOrWalk,
            _ if limit < charge => Said::LowerCharge,
            _ => Said::Charge,
        }
    }
}

/// Memory for what is lent, and how often each thing was said.
struct Leasts {
    random: Random,
    listing: Guarded,
    table: Guarded,
    again: Guarded,
    record: Guarded,
    paths: [Guarded; 2],
    held: Held,
    /// Whether the longer buffers have 16 MiB.
    real: bool,
    said: BTreeMap<Said, u64>,
    /// How many lengths were that of the bytes used before, and how many more.
    lengths: [u64; 2],
}

impl Leasts {
    /// For inputs of at most so many bytes, and buffers for the tries.
    fn new(seed: u64, bytes: usize, tries: usize) -> Leasts {
        let few = || Guarded::new(1024);
        let [listing, table] = [(); 2].map(|()| Guarded::new(bytes));
        let [tried, work, again] = [(); 3].map(|()| Guarded::new(tries));
        let held = Held { table: tried, record: few(), work, least: few(), tried: BTreeMap::new() };
        let (random, record, paths) = (Random::new(seed), few(), [few(), few()]);
        let (real, said, lengths) = (tries > MAX_BUFFER, BTreeMap::new(), [0; 2]);
        Leasts { random, listing, table, again, record, paths, held, real, said, lengths }
    }

    fn asked(&self) -> u64 {
        self.said.values().sum()
    }

    fn ask(&mut self, lent: &Lent) {
        self.ask_with(lent, 2);
    }

    /// Asks with so many numbers lent, tries what is said, and asks again in buffers of other lengths.
    fn ask_with(&mut self, lent: &Lent, count: usize) {
        let random = &mut self.random;
        let listing = self.listing.seal(&lent.listing, side(random));
        let table = self.table.seal(&lent.table, side(random));
        let record = self.record.seal(&lent.record, side(random));
        let [first, second] = &mut self.paths;
        let paths = [first.seal(&lent.paths[0], side(random)), second.seal(&lent.paths[1], side(random))];
        let sealed = Sealed { listing, table, record, paths };
        let more = if random.one_in(8) { 64 << 10 } else { random.below(1 << 10) };

        let mut tries = Tries { random, held: &mut self.held, sealed, said: None };
        let said = tries.ask(table, count);
        tries.said = Some(said);
        let room = |length: usize| if self.real { MAX_BUFFER } else { length + more };
        let (said_of_it, room) = match said {
            (answer, None) => {
                let in_form = record.len() == 4 && count == 2;
                let (own, _) = tries.rename(table.len(), u64::MAX);
                let wanted = if in_form { own } else { 1 };
                let can_have = (1..=3).contains(&(answer & 0xff));
                assert!(can_have && answer == wanted, "not {wanted:#x}: {}", tries.told());
                *self.said.entry(Said::Refused(answer & 0xff)).or_default() += 1;
                return;
            }
            (0, Some([0, 0])) => {
                let room = room(table.len());
                tries.none(room);
                (Said::None, room)
            }
            (0x1_0000, Some([limit, length])) => {
                let length = length as usize;
                let room = room(table.len().max(length));
                self.lengths[usize::from(length as u64 > record[0])] += 1;
                (tries.both(limit, length, room), room)
            }
            _ => panic!("no such answer: {}", tries.told()),
        };
        *self.said.entry(said_of_it).or_default() += 1;
        for room in [room, record[0] as usize] {
            let mut table = lent.table.clone();
            table.resize(room, 0);
            let side = side(tries.random);
            let again = tries.ask(self.again.seal(&table, side), count);
            assert!(again == said, "{again:?} with {room} bytes: {}", tries.told());
        }
    }

    /// The base itself: each path with each, and other lengths of the record and of the two numbers.
    fn whole(&mut self, base: &Base) {
        for lent in base.pairs() {
            self.ask(&lent);
        }
        for (lent, length) in base.turns().zip((0..7).cycle()).take(70) {
            self.ask_with(&lent, length);
            let mut other = lent;
            other.record.resize(length, 0);
            self.ask(&other);
            let count = self.random.below(4);
            self.ask_with(&other, count);
        }
    }

    /// Each byte of one buffer changed in turn, and the buffer cut at each length; all paths get their turns.
    fn changed(&mut self, base: &Base, buffer: fn(&mut Lent) -> &mut Vec<u8>, all: bool) {
        let mut turns = base.turns();
        let mut next = || turns.next().expect("no end");
        for at in 0..buffer(&mut next()).len() {
            for byte in others(buffer(&mut next())[at], all) {
                let mut lent = next();
                buffer(&mut lent)[at] = byte;
                self.ask(&lent);
            }
            let mut lent = next();
            buffer(&mut lent).truncate(at);
            self.ask(&lent);
        }
    }

    /// Each byte of each path changed in turn, but for those far behind in a long one; each number of the record.
    fn changed_rest(&mut self, base: &Base, all: bool) {
        for (lent, which) in base.turns().zip([0, 1].into_iter().cycle()).take(2 * base.paths.len()) {
            for at in 0..lent.paths[which].len().min(if all { 20 } else { 5 }) {
                for byte in others(lent.paths[which][at], all) {
                    let mut lent = lent.clone();
                    lent.paths[which][at] = byte;
                    self.ask(&lent);
                }
            }
            for (at, number) in lent.record.iter().enumerate() {
                for other in [0, 1, number.wrapping_add(1), number.wrapping_sub(1), 1 << 32, u64::MAX] {
                    let mut lent = lent.clone();
                    lent.record[at] = other;
                    self.ask(&lent);
                }
            }
        }
    }

    /// What calls built, some of it with one thing changed and at random; what they built, and tables made up over the
    /// same listing, asked at paths that they name; and any bytes.
    fn made(&mut self) {
        let base = states::built(&mut self.random);
        for input in states::byte_by_byte(&base, &mut self.random) {
            if !self.random.one_in(60) {
                continue;
            }
            self.ask(&Lent::of(input));
            let input = states::at_random(&base, &mut self.random);
            self.ask(&Lent::of(input));
            for _ in 0..4 {
                self.at_names(Lent::of(base.clone()));
            }
            let entries = made_entries(&mut self.random);
            let record = plain::record_of(&entries, 40).unwrap_or([entries.len() as u64, 1, 300, 40]);
            self.at_names(Lent { table: entries, record: record.to_vec(), ..Lent::of(base.clone()) });
            self.any_bytes();
        }
    }

    /// Asks for a path that is listed or has an entry, a directory as often as not, to another or beside it.
    fn at_names(&mut self, mut lent: Lent) {
        let entries = lent.record.first().and_then(|used| lent.table.get(..*used as usize)).unwrap_or_default();
        let all = plain::named(&lent.listing, entries);
        let mut parents = plain::parents(&lent.listing, entries);
        parents.retain(|path| !path.is_empty());
        let random = &mut self.random;
        if !all.is_empty() {
            let sources = if parents.is_empty() || random.one_in(2) { &all } else { &parents };
            let destination = match random.below(5) {
                0 => random.pick(&all).clone(),
                1 => format!("{}/n", random.pick(&all)),
                2 => format!("{}n", random.pick(&all)),
                3 => states::path(random),
                _ => vec!["m"; 1 + random.below(60)].concat(),
            };
            lent.paths = [random.pick(sources).clone().into(), destination.into()];
        }
        self.ask(&lent);
    }

    /// Bytes and numbers that were not made for anything.
    fn any_bytes(&mut self) {
        let random = &mut self.random;
        let [listing, table] = [200, 200].map(|bound| random.below(bound));
        let listing = [&b"RDL\x01\x00"[..random.below(6)], &random.bytes(listing)].concat();
        let table = random.bytes(table);
        let paths = [20, 20].map(|bound| random.below(bound)).map(|length| random.bytes(length));
        let record = (0..random.below(6)).map(|_| random.number() >> random.below(64)).collect();
        let count = random.below(4);
        self.ask_with(&Lent { listing, table, record, paths }, count);
    }

    /// Tables near the bound of 16 MiB and above it, which an own file nearly fills: moves that fit just, and do not.
    fn large(&mut self) {
        // A listed file that moves from `z` to `y` leaves entries of 25 and 26 bytes.
        let listing = listing::bytes(&tree("d/ d/f z"));
        let of = |used: usize| {
            let entries = entry(b"n", 1, &vec![7; used - 25], 0, 0);
            Lent::new(listing.clone(), &entries, 40, MAX_BUFFER.saturating_sub(used))
        };
        self.ask(&of(MAX_BUFFER - 51).at("z", "y"));
        self.ask(&of(MAX_BUFFER - 50).at("z", "y"));
        let full = of(MAX_BUFFER);
        self.ask(&full.at("z", "n"));
        self.ask(&of(MAX_BUFFER + 1).at("z", "n"));
        self.ask(&Lent { listing: vec![0; MAX_BUFFER + 1], ..full });
    }

    /// Adds what another run counted.
    fn add(&mut self, other: &Leasts) {
        for (said, count) in &other.said {
            *self.said.entry(*said).or_default() += count;
        }
        for (number, count) in &other.held.tried {
            *self.held.tried.entry(*number).or_default() += count;
        }
        for (sum, count) in self.lengths.iter_mut().zip(other.lengths) {
            *sum += count;
        }
    }
}

/// Asks about three bases with every change to them, and then about at least so many inputs that were made, tries what
/// is said, a few times in buffers of 16 MiB, and prints how often each thing was said and how many renames gave each
/// number. Only in the long run does each byte of the first two bases get every other value, and are listing and table
/// of the third changed.
pub fn run(seed: u64, calls: u64, long: bool) {
    let bases = [small(), elsewhere(), bounds()];
    let mut leasts = Leasts::new(seed, 8192, 128 << 10);
    for (at, base) in bases.iter().enumerate() {
        leasts.whole(base);
        if at < 2 || long {
            leasts.changed(base, |lent| &mut lent.listing, long && at < 2);
            leasts.changed(base, |lent| &mut lent.table, long && at < 2);
        }
        leasts.changed_rest(base, long);
    }
    let enough = leasts.asked() + calls / 25;
    while leasts.asked() < enough {
        leasts.made();
    }
    let mut large = Leasts::new(seed, MAX_BUFFER + 4096, MAX_BUFFER + 4096);
    large.large();
    let wanted =
        [(Said::Charge, 1), (Said::LowerCharge, 1), (Said::None, 1), (Said::Refused(1), 1), (Said::Refused(2), 1)];
    assert_eq!(large.said, BTreeMap::from(wanted), "the large ones");
    let few = [("a", "a"), ("a", "x"), ("z", "n"), ("z", "x"), ("d", "x"), ("a", "z")];
    for (source, destination) in few {
        large.ask(&bases[0].lent.at(source, destination));
    }
    for lent in bases.iter().flat_map(Base::pairs).step_by(17).filter(|_| long) {
        large.ask(&lent);
    }
    leasts.add(&large);

    let tried: u64 = leasts.held.tried.values().sum();
    println!("least numbers: {} asked for, {tried} renames tried, in 16 MiB for {}", leasts.asked(), large.asked());
    assert!(leasts.said.keys().eq(SAID.iter().map(|(said, _)| said)), "said: {:?}", leasts.said);
    for (said, name) in SAID {
        println!("  {name}: {}", leasts.said[&said]);
    }
    let [same, longer] = leasts.lengths;
    assert!(same > 0 && longer > 0, "the lengths: {same} and {longer}");
    println!("  the length is that of the bytes used before: {same}, or more: {longer}");
    let numbers = &leasts.held.tried;
    assert!(numbers.keys().eq(&NUMBERS), "the numbers {:?}, not {NUMBERS:?}", numbers.keys());
    let each: Vec<String> = numbers.iter().map(|(number, count)| format!("{count} with {number}")).collect();
    println!("  renames: {}", each.join(", "));
    println!("each limit and each length lets the rename through, both do together, and nothing less does");
}
