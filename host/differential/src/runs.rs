//! Exhaustive and random runs, each call tried on both sides of the limit that decides it.

use std::{
    collections::{BTreeMap, HashSet, VecDeque},
    rc::Rc,
    time::Instant,
};

use differential::{
    edge::Edge,
    listing::{Tree, bytes, listing_l, tree},
    lists::{
        around_sixteen, every_call, every_partial_call, long_pool, long_tree, malformed, pool, queries, random_call,
        random_partial_call, random_tree, with_short_files,
    },
    model::Model,
    port::Port,
    random::Random,
    side::{Answer, Call, Op, Side},
    world::{Difference, Setup, World, asks_original, reduce, run as run_list},
};

/// What one group of runs compared.
#[derive(Default)]
pub struct Count {
    pub lists: u64,
    pub calls: u64,
    /// The calls that were asked of the original too, and those among them at another limit, translated.
    pub asked: u64,
    pub moved: u64,
    pub queries: u64,
    /// The limits that were found to decide.
    pub edges: u64,
    /// Those among them that are others by the original's rule, by what is at the one of #107: the charge after the
    /// call; a sum beside the charge before it; a refusal by another number than 11.
    pub rounded: [u64; 3],
    pub numbers: BTreeMap<u8, u64>,
    /// The calls of change request #103 among them, by name, the answer's number, and whether the original was asked.
    pub partial: BTreeMap<(&'static str, u8, bool), u64>,
    /// The moves onto itself among them, by what the original answered on a copy; none where it was not asked.
    pub itself: BTreeMap<Option<u8>, u64>,
    /// The paths that were shown on all sides, by the number of the answer.
    pub shows: BTreeMap<u8, u64>,
    /// The links that the original listed there, which are left aside.
    pub links: u64,
    /// The paths that were shown by the port and the model alone.
    pub shows_without: u64,
    /// The renames, by the number of the answer; each was held to what was said to let it through.
    pub renames: BTreeMap<u8, u64>,
    /// The least numbers that were said, of moves onto itself and of others, and were those that decide.
    pub leasts: [u64; 2],
    pub differences: u64,
}

impl Count {
    fn add(&mut self, call: &Call, answer: Answer, original: bool) {
        let asked = original && asks_original(answer);
        self.calls += 1;
        self.asked += u64::from(asked);
        *self.numbers.entry(answer.number).or_default() += 1;
        if matches!(call.op, Op::Rename { .. }) {
            *self.renames.entry(answer.number).or_default() += 1;
        }
        if call.op.is_partial() {
            *self.partial.entry((call.op.name(), answer.number, asked)).or_default() += 1;
        }
    }

    fn merge(&mut self, other: &Count) {
        self.lists += other.lists;
        self.calls += other.calls;
        self.asked += other.asked;
        self.moved += other.moved;
        self.queries += other.queries;
        self.edges += other.edges;
        self.differences += other.differences;
        self.links += other.links;
        self.shows_without += other.shows_without;
        let rounded = self.rounded.iter_mut().zip(&other.rounded);
        for (count, others) in self.leasts.iter_mut().zip(&other.leasts).chain(rounded) {
            *count += others;
        }
        for (counts, others) in
            [(&mut self.numbers, &other.numbers), (&mut self.shows, &other.shows), (&mut self.renames, &other.renames)]
        {
            for (number, count) in others {
                *counts.entry(*number).or_default() += count;
            }
        }
        for (class, count) in &other.partial {
            *self.partial.entry(*class).or_default() += count;
        }
        for (theirs, count) in &other.itself {
            *self.itself.entry(*theirs).or_default() += count;
        }
    }

    fn row(&self, name: &str, seconds: f64) {
        let shows = self.shows.values().sum::<u64>() + self.shows_without;
        print!("| {name} | {} | {} | {} | {shows} | {} |", self.lists, self.calls, self.queries, self.edges);
        for number in [0, 3, 4, 5, 6, 7, 8, 9, 10, 11, 12, 13, 17, 18] {
            print!(" {} |", self.numbers.get(&number).unwrap_or(&0));
        }
        println!(" {} | {seconds:.1} |", self.differences);
    }
}

/// A world with the calls that led to it.
struct Place {
    world: World,
    calls: Vec<Call>,
}

impl Place {
    fn new(setup: &Setup) -> Self {
        Self { world: World::new(setup), calls: Vec::new() }
    }

    fn copy(&self) -> Self {
        Self { world: self.world.copy(), calls: self.calls.clone() }
    }

    /// The call with the limits that decide it, which a call without a limit does not need.
    fn call(&mut self, call: &Call, edge: Option<Edge>, count: &mut Count) -> Result<Answer, Difference> {
        match self.world.call_by(call, edge) {
            Ok(answer) => {
                let itself = call.is_onto_itself() && answer.number == 0;
                count.add(call, answer, !itself);
                count.moved += u64::from(self.world.moved);
                if itself {
                    *count.itself.entry(self.world.parted.map(|theirs| theirs.number)).or_default() += 1;
                }
                if answer.number == 0 {
                    self.calls.push(call.clone());
                }
                Ok(answer)
            }
            Err(what) => {
                let calls = self.calls.iter().chain([call]).cloned().collect();
                Err(Difference { what, listing: String::new(), calls })
            }
        }
    }

    /// The call at each of the limits around the one that decides it; the place stays as it is.
    fn probe(&mut self, call: &Call, more: &[u64], count: &mut Count) -> Result<Option<Edge>, Difference> {
        let edge = self.world.edge(call);
        self.hold_least(call, edge, count)?;
        let Some(Edge { ours, theirs }) = edge else {
            // No limit decides it: the answer is the same at limit 0.
            self.copy().call(&call.at(0), None, count)?;
            return Ok(None);
        };
        count.edges += 1;
        self.call(&call.at(ours - 1), edge, count)?;
        let mut decides = 0;
        for limit in more.iter().chain(&[ours]) {
            let mut other = self.copy();
            let answer = other.call(&call.at(*limit), edge, count)?;
            if (answer.number == 11) != (*limit < ours) {
                let what = format!("{call}: {answer} at limit {limit}, though {ours} decides");
                return Err(Difference { what, listing: String::new(), calls: other.calls });
            }
            decides = match answer.number {
                0 => usize::from(other.world.model.charge() != ours),
                _ => 2,
            };
        }
        if theirs != ours {
            count.rounded[decides] += 1;
        }
        Ok(edge)
    }

    /// What is said to let a rename through, beside the limit that decides it and the length that the model needs.
    fn hold_least(&self, call: &Call, edge: Option<Edge>, count: &mut Count) -> Result<(), Difference> {
        let Some(Ok(Some([limit, length]))) = self.world.port.least(call) else { return Ok(()) };
        let decides = edge.map_or(0, |edge| edge.ours);
        if limit != decides || !self.world.is_least_length(call, length as usize) {
            let what = format!("{call}: least are said to be {limit} and {length}, though {decides} decides");
            let calls = self.calls.iter().chain([call]).cloned().collect();
            return Err(Difference { what, listing: String::new(), calls });
        }
        count.leasts[usize::from(edge.is_some())] += 1;
        Ok(())
    }

    fn ask(&mut self, path: &str, count: &mut Count) -> Result<(), Difference> {
        for query in queries(path) {
            self.world.call(&query).map_err(|what| {
                let calls = self.calls.iter().chain([&query]).cloned().collect();
                Difference { what, listing: String::new(), calls }
            })?;
            count.queries += 1;
        }
        self.show(path, count)
    }

    fn show(&mut self, path: &str, count: &mut Count) -> Result<(), Difference> {
        let (answer, links) = self.world.show(path).map_err(|what| {
            let calls = self.calls.iter().cloned().chain([Call::new(Op::Show, path)]).collect();
            Difference { what, listing: String::new(), calls }
        })?;
        *count.shows.entry(answer.number).or_default() += 1;
        count.links += links as u64;
        Ok(())
    }
}

/// The table without its mtimes, which no answer hangs on: what tells two places apart.
fn shape(world: &World) -> String {
    let entries = world.original.entries();
    let word = |(key, entry): (&String, &differential::side::Entry)| {
        format!("{key}\0{}\0{}\0{:?}\n", entry.kind, entry.size, entry.body)
    };
    entries.iter().map(word).collect()
}

/// Every call from every table that such calls reach (tables equal but for mtimes taken once), at most `most` tables,
/// those that fewer calls reach first. Says whether those were all.
fn exhaustive(
    setup: &Setup,
    paths: &[&str],
    calls: &[Call],
    most: usize,
    count: &mut Count,
) -> Result<bool, Difference> {
    let mut seen = HashSet::from([String::new()]);
    let mut places = VecDeque::from([Place::new(setup)]);
    let mut all = true;
    while let Some(mut place) = places.pop_front() {
        count.lists += 1;
        for path in paths {
            place.ask(path, count)?;
        }
        place.show("", count)?;
        for call in calls {
            let more = place.world.deciding(call);
            place.probe(call, &more, count)?;
            let mut after = place.copy();
            if after.call(call, None, count)?.number == 0 {
                let shape = shape(&after.world);
                all &= seen.len() < most || seen.contains(&shape);
                if seen.len() < most && seen.insert(shape) {
                    places.push_back(after);
                }
            }
        }
    }
    Ok(all)
}

/// How a random call over the paths is made on a table.
type Make = fn(&mut Random, &[String], &Model) -> Call;

fn base_call(random: &mut Random, paths: &[String], _: &Model) -> Call {
    let call = random_call(random, paths);
    around_sixteen(random, call)
}

fn partial_call(random: &mut Random, paths: &[String], model: &Model) -> Call {
    let (own, files) = model.files();
    let call = random_partial_call(random, paths, &own, &files);
    around_sixteen(random, call)
}

/// One random list, each call probed and then done at a limit that lets it through or at any.
fn random_list(
    setup: &Setup,
    paths: &[String],
    (length, make): (usize, Make),
    random: &mut Random,
    count: &mut Count,
) -> Result<(), Difference> {
    let mut place = Place::new(setup);
    count.lists += 1;
    // Which directories are shown: numbers of their own, so that the calls are the same with and without them.
    let mut which = Random::new(count.lists);
    for _ in 0..length {
        let call = make(random, paths, &place.world.model);
        let before = place.world.model.charge();
        let any = random.below(3000) as u64;
        let mut more = vec![before.saturating_sub(1), before, before + 1, any];
        more.extend(place.world.deciding(&call));
        let edge = place.probe(&call, &more, count)?;
        let limit = edge.map_or(u64::MAX, |edge| [edge.ours, edge.ours.saturating_add(1), u64::MAX][random.below(3)]);
        place.call(&call.at(limit), edge, count)?;
        for path in [&call.path, random.pick(paths)] {
            place.ask(path, count)?;
        }
        let directories = place.world.model.directories();
        place.show(which.pick::<String>(&directories), count)?;
    }
    Ok(())
}

/// The port beside the model alone: entry sizes that the original cannot have, and paths out of form.
fn other_entry_sizes(lists: u64, seed: u64, make: Make, count: &mut Count) -> Result<(), Difference> {
    let (mut random, mut which) = (Random::new(seed), Random::new(seed));
    for n in 0..lists {
        let size = [0, 1, 4096][n as usize % 3];
        let tree = Rc::new(random_tree(&mut random));
        let mut paths = pool(&tree);
        paths.extend(malformed());
        let mut model = Model::new(&tree, size, 8192);
        let mut port = Port::new(&Rc::new(bytes(&tree)), size, 8192);
        count.lists += 1;
        let mut calls = Vec::new();
        for _ in 0..12 {
            let limit = if random.below(2) == 0 { u64::MAX } else { random.below(20_000) as u64 };
            let call = make(&mut random, &paths, &model).at(limit);
            let mtime = random.number();
            calls.push(call.clone());
            let (expected, answer) = (model.call(&call, mtime), port.call(&call, mtime));
            if expected != answer || model.entries() != port.entries() || model.charge() != port.charge() {
                let what = format!("{call}, E {size}: the model gives {expected}, the port {answer}");
                return Err(Difference { what, listing: differential::listing::text(&tree), calls });
            }
            count.add(&call, answer, false);
            if call.is_onto_itself() && answer.number == 0 {
                *count.itself.entry(None).or_default() += 1;
            }
            let path = which.pick(&paths);
            let (expected, given) = (model.show(path), port.show(path));
            if expected != given {
                let what = format!("show `{path}`, E {size}: the model gives {expected:?}, the port {given:?}");
                return Err(Difference { what, listing: differential::listing::text(&tree), calls });
            }
            count.shows_without += 1;
        }
    }
    Ok(())
}

/// Runs one group and prints its row; a difference is reduced and printed. What the work says is added to the name.
fn group(all: &mut Count, name: &str, work: impl FnOnce(&mut Count) -> Result<&'static str, (Setup, Difference)>) {
    let (start, mut count) = (Instant::now(), Count::default());
    let told = work(&mut count).unwrap_or_else(|(setup, difference)| {
        count.differences += 1;
        // The list from an empty table, which a place reached by copies stands for.
        let whole = run_list(&setup, &difference.calls).err().unwrap_or(difference);
        let least = reduce(&setup, whole);
        println!("DIFFERENCE in {name}: {}", least.what);
        println!("  listing: {}", least.listing);
        for call in &least.calls {
            println!("  {call}");
        }
        ""
    });
    count.row(&format!("{name}{told}"), start.elapsed().as_secs_f64());
    all.merge(&count);
}

/// The listings of the exhaustive runs, each with the paths that its calls name.
const SMALL: [(&str, &[&str]); 10] = [
    ("", &["", "a", "a/b", "a/b/c", "b"]),
    ("z", &["z", "z/x", "z/x/y", "b", "b/x"]),
    ("l@", &["l", "l/x", "b", "b/x"]),
    ("a/ a/b/ a/b/f", &["a", "a/b", "a/b/f", "c", "c/b", "c/b/f"]),
    ("a/ a/b/ a/b/l@", &["a", "a/b", "a/b/l", "a/n", "c"]),
    ("a/ a-b a/f a0", &["a", "a-b", "a/f", "a0", "a0/f", "c"]),
    ("a/ b/ b/f", &["a", "a/f", "b", "b/f", "b/g"]),
    ("a/ a/b/ a/b/l@ a/c/ a/c/f", &["a", "a/b", "a/c", "a/c/f", "e"]),
    ("a/ a/f b/ b/f c/ c/a/ c/a/f", &["a", "a/f", "b", "b/f", "c", "c/a"]),
    // Listed paths of 16 and of 17 bytes.
    ("d/ d/fifteen-letters d/fourteen-chars", &["d", "d/fifteen-letters", "d/fourteen-chars", "e", "e/fourteen-chars"]),
];

/// Every call over the small listings; then, over some of them, also those of change request #103, which go on without
/// end.
fn exhaustive_groups(all: &mut Count, most: usize) {
    let l_paths: &[&str] = &["", "a", "a/f", "b", "b/f", "l", "z", "z/n"];
    let small = SMALL.iter().map(|(text, paths)| (format!("`{text}`"), tree(text), *paths));
    for (name, tree, paths) in [("L".to_owned(), listing_l(), l_paths)].into_iter().chain(small) {
        let setup = Setup::new(tree, 2048);
        let calls = every_call(paths);
        group(all, &format!("every call, {name}"), |count| match exhaustive(&setup, paths, &calls, most, count) {
            Ok(all) => Ok(if all { ", all tables" } else { "" }),
            Err(found) => Err((setup, found)),
        });
    }
    let partial: [(&str, &[&str]); 3] =
        [("z", &["", "z", "z/x", "b"]), ("a/ a/f", &["a", "a/f", "b", "b/f"]), ("l@ z", &["l", "l/x", "z", "b"])];
    for (text, paths) in partial {
        let setup = Setup::new(tree(text), 2048);
        let calls = [every_call(paths), every_partial_call(paths)].concat();
        group(all, &format!("every call, also append and writing inside, `{text}`"), |count| {
            exhaustive(&setup, paths, &calls, most / 4, count).map(|_| "").map_err(|found| (setup, found))
        });
    }
}

/// Random lists of `length` calls made so, each over its own setup.
fn random_group(
    all: &mut Count,
    name: &str,
    (lists, length, seed): (u64, usize, u64),
    call: Make,
    make: impl Fn(&mut Random) -> (Setup, Vec<String>),
) {
    group(all, name, |count| {
        let mut random = Random::new(seed);
        for _ in 0..lists {
            let (setup, paths) = make(&mut random);
            random_list(&setup, &paths, (length, call), &mut random, count).map_err(|found| (setup, found))?;
        }
        Ok("")
    });
}

fn random_groups(all: &mut Count, share: u64, seed: u64) {
    let over = |tree: Tree, mount, room| {
        let paths = pool(&tree);
        (Setup { tree, mount, room }, paths)
    };
    for (n, mount) in ["/mnt", "/a", "/m/a-b"].into_iter().enumerate() {
        let name = format!("random listings, mount `{mount}`");
        let lists = (400 * share, 12, seed + n as u64);
        random_group(all, &name, lists, base_call, |random| over(random_tree(random), mount, 4096));
    }
    random_group(all, "random lists, L", (100 * share, 40, seed + 10), base_call, |_| over(listing_l(), "/mnt", 8192));
    random_group(all, "random lists, long paths", (60 * share, 12, seed + 11), base_call, |_| {
        (Setup::new(long_tree(), 1 << 15), long_pool())
    });
    random_group(all, "random listings, short buffers", (200 * share, 12, seed + 12), base_call, |random| {
        over(random_tree(random), "/mnt", 20 + random.below(300))
    });
    let named = |rest: &str| format!("also append and writing inside, {rest}");
    random_group(all, &named("random listings"), (300 * share, 14, seed + 14), partial_call, |random| {
        over(with_short_files(random_tree(random)), "/mnt", 4096)
    });
    random_group(all, &named("L"), (60 * share, 40, seed + 15), partial_call, |_| over(listing_l(), "/m/a-b", 8192));
    random_group(all, &named("long paths"), (30 * share, 12, seed + 16), partial_call, |_| {
        (Setup::new(long_tree(), 1 << 15), long_pool())
    });
    random_group(all, &named("short buffers"), (100 * share, 12, seed + 17), partial_call, |random| {
        over(with_short_files(random_tree(random)), "/mnt", 20 + random.below(300))
    });
}

/// How often the original's rule gave another limit than #107, and was asked at its own.
fn print_rounded(all: &Count) {
    let [after, beside, refused] = all.rounded;
    let others = after + beside + refused;
    println!("Limits found: {}, {others} of them others by the original's rule. By #107 these are:", all.edges);
    println!("{after} the charge after the call, {beside} the charge before it with a sum beside it, and {refused}");
    println!("where the call is refused by another number from there on.");
    println!("Calls asked of the original at a translated limit: {}.", all.moved);
}

/// How many moves onto itself were accepted, and what the original answered to them.
fn print_itself(all: &Count) {
    let said = |theirs: &Option<u8>| match theirs {
        Some(0) => "moved by the original, as document 01 had it before #104".to_owned(),
        Some(number) => format!("refused by it with {number}, as document 01 had it"),
        None => "of which it was not asked".to_owned(),
    };
    let each: Vec<String> = all.itself.iter().map(|(theirs, count)| format!("{count} {}", said(theirs))).collect();
    let sum: u64 = all.itself.values().sum();
    println!("moves onto itself: {sum} accepted here, and all left as it was; {}.", each.join(", "));
}

/// How many renames were held to what was said to let them through.
fn print_renames(all: &Count) {
    let each: Vec<String> = all.renames.iter().map(|(number, count)| format!("{count} with {number}")).collect();
    let sum: u64 = all.renames.values().sum();
    println!("renames held to the least limit and the least length said before: {sum}, {}.", each.join(", "));
    let [onto_itself, others] = all.leasts;
    println!("least limits said: {others}, each the one that was found to decide, by the original's own sums.");
    println!("least lengths said: {}, each by the model; {onto_itself} of moves onto itself.", others + onto_itself);
}

/// How many calls of change request #103 were compared, with the original and without it.
fn print_partial(all: &Count) {
    for name in ["append", "write_at"] {
        for asked in [true, false] {
            let of = |((op, number, with), count): (&(&str, u8, bool), &u64)| {
                (*op == name && *with == asked).then_some((*number, *count))
            };
            let each: Vec<(u8, u64)> = all.partial.iter().filter_map(of).collect();
            let sum: u64 = each.iter().map(|(_, count)| count).sum();
            let each: Vec<String> = each.iter().map(|(number, count)| format!("{count} with {number}")).collect();
            let beside = if asked { "beside the original" } else { "by the port and the model alone" };
            println!("{name} {beside}: {sum} calls, {}.", each.join(", "));
        }
    }
}

pub fn run(long: bool, seed: u64) -> u64 {
    let (most, share) = if long { (8000, 40) } else { (250, 1) };
    let numbers = "0 | 3 | 4 | 5 | 6 | 7 | 8 | 9 | 10 | 11 | 12 | 13 | 17 | 18";
    println!();
    println!("| runs | lists or tables | calls | queries | shows | limits found | {numbers} | differences | s |");
    println!("|{}", "---|".repeat(22));
    let (start, mut all) = (Instant::now(), Count::default());
    exhaustive_groups(&mut all, most);
    random_groups(&mut all, share, seed * 1000);
    let alone: [(&str, u64, Make); 2] = [("", 13, base_call), (", also append and writing inside", 18, partial_call)];
    for (rest, number, make) in alone {
        group(&mut all, &format!("port and model: E 0, 1 and 4096, paths out of form{rest}"), |count| {
            let done = other_entry_sizes(1000 * share, seed * 1000 + number, make, count);
            done.map(|()| "").map_err(|found| (Setup::new(Tree::new(), 0), found))
        });
    }
    all.row("all", start.elapsed().as_secs_f64());
    println!();
    println!("Calls asked of the original: {}.", all.asked);
    print_rounded(&all);
    let each: Vec<String> = all.shows.iter().map(|(number, count)| format!("{count} with {number}")).collect();
    let shows: u64 = all.shows.values().sum();
    println!("Shown beside `iterdir` of the original: {shows} paths, {}.", each.join(", "));
    println!("The names are the same as a set; {} links that the original lists are left aside.", all.links);
    println!("Shown by the port and the model alone: {} paths.", all.shows_without);
    print_partial(&all);
    print_itself(&all);
    print_renames(&all);
    println!();
    all.differences
}
