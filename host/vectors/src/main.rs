//! Replays the vectors of calls.jsonl, worked.jsonl, kept.jsonl, show.jsonl, content.jsonl, itself.jsonl, least.jsonl,
//! paths.jsonl, charge.jsonl and edges.jsonl against the library: every answer, record, table, work buffer, output, place
//! and least number must be as they say. The rows of docs/WORKED-CALLS.md must be those of worked.jsonl, and
//! docs/DEFINITION.md may cite no other row of those calls; the page's rows that write and read kept files, that show
//! directories and that tell what would let a rename through are put to the library, and the kept files that
//! docs/FORMATS.md shows must be read as it says. With the name of a file it replays that one alone; with `--rows` it
//! prints the rows of worked.jsonl. It says what it compared, and ends with status 1 at the first difference, and where a
//! file has nothing of a kind that it is there for.
mod json;
mod kept;
mod least;
mod page;
mod paths;
mod rows;
mod sha256;
mod show;
mod worked;
mod worked_kept;
mod worked_least;
mod worked_show;

use json::{Json, parse};
use overlay::{OverlayMut, Record, Refusal, raw, unpack};
use std::{collections::BTreeMap, env, fs, process::ExitCode};
use worked::{Rows, stated};

/// The calls that every file of the repository but paths.jsonl and edges.jsonl has.
const CALLS: [&str; 9] = ["open", "exists", "is_file", "is_dir", "write", "mkdir", "unlink", "rmdir", "rename"];

/// The numbers of the writer and of the reader of kept files, each of which kept.jsonl and the worked rows have.
const KEPT: [(&str, &[u64]); 2] = [("keep", &[0, 1, 2, 13, 16]), ("read", &[0, 1, 13, 14, 15])];

/// The numbers of showing a directory, each of which show.jsonl and the worked rows have.
const SHOWN: (&str, &[u64]) = ("show", &[0, 1, 2, 3, 4, 5, 7, 13]);

/// The numbers of append and writing inside that content.jsonl has; the worked rows have all that the two can give.
const CONTENT: [(&str, &[u64]); 2] = [("append", &[0, 3, 4, 5, 8, 11, 13, 17]), ("write_at", &[0, 5, 11, 13])];

/// The numbers of rename that itself.jsonl has.
const ITSELF: (&str, &[u64]) = ("rename", &[0, 1, 3, 4, 5, 8, 11, 13]);

/// The numbers of telling what would let a rename through that least.jsonl has.
const LEAST: (&str, &[u64]) = ("least", &[0, 2, 3]);

/// The numbers of strings of bytes, each a path or none, that paths.jsonl has.
const PATHS: (&str, &[u64]) = ("path", &[0, 3]);

/// The numbers of the calls that put bodies, and of telling what would let a rename through, that charge.jsonl has.
const CHARGE: [(&str, &[u64]); 5] = [
    ("write", &[0, 3, 8, 11, 13]),
    ("append", &[0, 3, 4, 5, 8, 11, 13, 17]),
    ("write_at", &[0, 1, 5, 11, 13]),
    ("rename", &[0, 4, 5, 9, 11, 13]),
    ("least", &[0, 2, 3]),
];

/// The numbers of the changing calls, and of tables that are malformed, that edges.jsonl has.
const EDGES: [(&str, &[u64]); 6] = [
    ("exists", &[1]),
    ("write", &[0, 1, 3, 4, 5, 8, 11, 13]),
    ("mkdir", &[0, 1, 3, 4, 5, 6, 7, 11, 13]),
    ("unlink", &[0, 4, 5, 8, 11, 13]),
    ("rmdir", &[0, 1, 4, 5, 7, 9, 11]),
    ("rename", &[0, 1, 3, 4, 5, 7, 8, 9, 10, 11, 12, 13]),
];

/// A vector's answer as an answer of the library: number, path, length, value.
fn four(answer: Result<u64, Refusal>) -> [u64; 4] {
    match answer {
        Ok(value) => [0, 0, 0, value],
        Err(refusal) => [refusal.number().into(), refusal.path().into(), refusal.length(), 0],
    }
}

/// A table with its record, as the calls leave them.
#[derive(Clone)]
struct State {
    table: Vec<u8>,
    record: Record,
}

impl State {
    /// The answer of a call, and whether it left the work buffer as it must.
    fn call(&mut self, listing: &[u8], call: &Json) -> (Result<u64, Refusal>, bool) {
        let paths: Vec<Vec<u8>> = call.get("paths").list().iter().map(Json::bytes).collect();
        let record: [u64; 4] = self.record.into();
        let query: raw::Query = match call.get("op").text() {
            "exists" => raw::exists,
            "is_file" => raw::is_file,
            "is_dir" => raw::is_dir,
            _ => return self.change(listing, call, &paths),
        };
        (unpack(query(listing, &self.table, &record, &paths[0])), true)
    }

    fn change(&mut self, listing: &[u8], call: &Json, paths: &[Vec<u8>]) -> (Result<u64, Refusal>, bool) {
        let limit = call.get("limit").number();
        let mtime = || overlay::Mtime::from_bits(call.get("mtime").number());
        let mut work = vec![0x77; call.get("work").number() as usize];
        let mut lent = OverlayMut::new(&mut self.table, &mut self.record, &mut work);
        let answer = match call.get("op").text() {
            "write" => lent.write_bytes(listing, &paths[0], &call.get("data").bytes(), mtime(), limit),
            "append" => {
                let lent_bytes = call.get("lent").bytes();
                lent.append_bytes(listing, &paths[0], &call.get("data").bytes(), &lent_bytes, mtime(), limit)
            }
            "write_at" => {
                let offset = call.get("offset").number();
                lent.write_file_at(listing, &paths[0], &call.get("data").bytes(), offset, mtime(), limit)
            }
            "mkdir" => {
                let how = overlay::Mkdir { parents: call.get("parents").flag(), exist_ok: call.get("exist_ok").flag() };
                lent.mkdir(listing, &paths[0], how, mtime(), limit).map(|()| 0)
            }
            "unlink" => lent.unlink(listing, &paths[0], limit).map(|()| 0),
            "rmdir" => lent.rmdir(listing, &paths[0], limit).map(|()| 0),
            "rename" => lent.rename(listing, &paths[0], &paths[1], limit).map(|()| 0),
            op => panic!("no call {op}"),
        };
        let left = if answer.is_ok() { 0 } else { 0x77 };
        (answer, work.iter().all(|byte| *byte == left))
    }

    /// Makes a call and compares what it answers and leaves. A call without a record leaves table and record as they
    /// were.
    fn compare(&mut self, listing: &[u8], call: &Json) -> Result<(), String> {
        match call.get("op").text() {
            "keep" => return kept::keep(self, listing, call),
            "show" => return show::show(self, listing, call),
            "least" => return least::least(self, listing, call),
            _ => {}
        }
        let (before, record_before) = (self.table.clone(), self.record);
        let (answer, work) = self.call(listing, call);
        let record: [u64; 4] = self.record.into();
        let as_wanted = match call.find("record") {
            Some(wanted) => record == wanted.four() && sha256::hex(&self.table) == call.get("sha").text(),
            None => self.record == record_before && self.table == before,
        };
        if four(answer) != call.get("answer").four() || !as_wanted {
            let sha = sha256::hex(&self.table);
            return Err(format!("{call:?}\ngives {:?} {record:?} {sha}", four(answer)));
        }
        if call.find("id").or(call.find("entries")).is_some() {
            stated(call.find("entries"), &before, &self.table, record).map_err(|error| format!("{call:?}\n{error}"))?;
        }
        if work { Ok(()) } else { Err(format!("{call:?}\nleaves another work buffer")) }
    }
}

/// A table opened in a buffer that is filled with 0xAA, and whether all is as it must be.
fn open(vector: &Json, number: u64) -> Result<State, String> {
    let mut state = State { table: vec![0xaa; vector.get("room").number() as usize], record: Record::default() };
    let mut numbers = [9; 4];
    let entry_size = vector.get("e").number();
    let answer = four(unpack(raw::open_table(&mut state.table, &mut numbers, entry_size)));
    let (byte, record) = if number == 0 { (0, [0, 0, 0, entry_size]) } else { (0xaa, [9; 4]) };
    state.record = numbers.into();
    if answer != [number, 0, 0, 0] || numbers != record || state.table.iter().any(|b| *b != byte) {
        return Err(format!("opening {vector:?} gives {answer:?} {numbers:?}"));
    }
    Ok(state)
}

/// How many calls of each name were compared, by the number of the answer.
type Counts = BTreeMap<(String, u64), u64>;

/// Counted apart: the answer is another one, where the request leaves it open. What is said of it.
const OTHERWISE: &str = "4 below a covered link where the vector has 5, on tables that no call builds";

fn replay(line: &str, counts: &mut Counts) -> Result<(), String> {
    let vector = parse(line)?;
    let mut count = |name: &str, number: u64| *counts.entry((name.to_string(), number)).or_default() += 1;
    match vector.get("t").text() {
        "head" => {}
        "open" => {
            open(&vector, vector.get("no").number())?;
            count("open", vector.get("no").number());
        }
        "read" => {
            kept::read(&vector)?;
            count("read", vector.get("answer").four()[0]);
        }
        "run" => {
            let listing = vector.get("listing").bytes();
            let from_file = vector.find("file").is_some();
            let mut state = if from_file { kept::read(&vector)? } else { open(&vector, 0)? };
            for call in vector.get("calls").list() {
                let before = call.find("again").is_some_and(Json::flag).then(|| state.clone());
                state.compare(&listing, call)?;
                state = before.unwrap_or(state);
                count(call.get("op").text(), call.get("answer").four()[0]);
            }
            count(if from_file { "read" } else { "open" }, 0);
        }
        "raw" => {
            let call = vector.get("call");
            let record = Record::from(vector.get("record").four());
            let mut state = State { table: vector.get("table").bytes(), record };
            let listing = vector.get("listing").bytes();
            if vector.find("elsewhere").is_some() && show::answers_otherwise(&state, &listing, call) {
                count(OTHERWISE, 0);
            } else {
                state.compare(&listing, call)?;
                count(call.get("op").text(), call.get("answer").four()[0]);
            }
        }
        "paths" => {
            for item in vector.get("items").list() {
                count(PATHS.0, paths::compare(item)?);
            }
        }
        other => return Err(format!("no vector {other}")),
    }
    Ok(())
}

/// A file of this crate or of the repository, by its name below this crate's folder.
fn beside(name: &str) -> String {
    format!("{}/{name}", env!("CARGO_MANIFEST_DIR"))
}

fn read(file: &str) -> Result<String, String> {
    fs::read_to_string(file).map_err(|error| format!("{file}: {error}"))
}

fn replay_file(file: &str) -> Result<Counts, String> {
    let mut counts = Counts::new();
    for (number, line) in read(file)?.lines().enumerate() {
        replay(line, &mut counts).map_err(|difference| format!("{file}:{}: {difference}", number + 1))?;
    }
    let apart = counts.remove(&(OTHERWISE.to_string(), 0));
    if counts.is_empty() {
        return Err(format!("{file}: no calls"));
    }
    let mut names: BTreeMap<&str, u64> = BTreeMap::new();
    for ((name, _), count) in &counts {
        *names.entry(name).or_default() += count;
    }
    let each: Vec<String> = names.iter().map(|(name, count)| format!("{name} {count}")).collect();
    println!("vectors: {} calls, all as they say: {}", counts.values().sum::<u64>(), each.join(", "));
    if let Some(calls) = apart {
        println!("  and {calls} with {OTHERWISE}");
    }
    Ok(counts)
}

/// A file of the repository, which has each of the nine calls. How often each was compared.
fn replay_own(name: &str) -> Result<Counts, String> {
    let counts = replay_file(&beside(name))?;
    match CALLS.iter().find(|call| !counts.keys().any(|(name, _)| name == *call)) {
        Some(call) => Err(format!("{name}: no call {call}")),
        None => Ok(counts),
    }
}

/// A file of the repository that is there for some calls, and has each number that they can give.
fn replay_numbers(name: &str, calls: &[(&str, &[u64])]) -> Result<(), String> {
    has_numbers(name, &replay_own(name)?, calls)
}

/// Whether a file has each number of some calls.
fn has_numbers(name: &str, counts: &Counts, calls: &[(&str, &[u64])]) -> Result<(), String> {
    for (call, numbers) in calls {
        let mut each = Vec::new();
        for number in *numbers {
            let count = counts.get(&(call.to_string(), *number));
            each.push(format!("{} with {number}", count.ok_or(format!("{name}: no {call} with {number}"))?));
        }
        println!("  {call}: {}", each.join(", "));
    }
    Ok(())
}

fn worked_rows(file: &str) -> Result<Rows, String> {
    let mut rows = Rows::default();
    for (number, line) in read(file)?.lines().enumerate() {
        parse(line).and_then(|vector| rows.read(&vector)).map_err(|error| format!("{file}:{}: {error}", number + 1))?;
    }
    rows.covers().map_err(|error| format!("{file}: {error}"))?;
    Ok(rows)
}

fn compare() -> Result<(), String> {
    let worked = beside("worked.jsonl");
    let (page, definition) = (beside("../../docs/WORKED-CALLS.md"), beside("../../docs/DEFINITION.md"));
    match env::args().nth(1).as_deref() {
        Some("--rows") => worked_rows(&worked)?.print(),
        Some(file) => drop(replay_file(file)?),
        None => {
            replay_own("calls.jsonl")?;
            replay_own("worked.jsonl")?;
            replay_numbers("kept.jsonl", &KEPT)?;
            replay_numbers("show.jsonl", &[SHOWN])?;
            replay_numbers("content.jsonl", &CONTENT)?;
            replay_numbers("itself.jsonl", &[ITSELF])?;
            replay_numbers("least.jsonl", &[LEAST])?;
            has_numbers("paths.jsonl", &replay_file(&beside("paths.jsonl"))?, &[PATHS])?;
            replay_numbers("charge.jsonl", &CHARGE)?;
            has_numbers("edges.jsonl", &replay_file(&beside("edges.jsonl"))?, &EDGES)?;
            let rows = worked_rows(&worked)?;
            rows.stand_in(&read(&page)?).map_err(|error| format!("{page}: {error}"))?;
            rows.cited_in(&read(&definition)?).map_err(|error| format!("{definition}: {error}"))?;
            println!("worked calls: {} rows, in the page as in the vectors", rows.len());
            let (keep, read_rows) = worked_kept::compare(&read(&page)?).map_err(|error| format!("{page}: {error}"))?;
            println!("worked kept files: {keep} rows of writing, {read_rows} of reading, all as the page says");
            let shown = worked_show::compare(&read(&page)?).map_err(|error| format!("{page}: {error}"))?;
            println!("worked showings: {shown} rows, all as the page says");
            let least = worked_least::compare(&read(&page)?).map_err(|error| format!("{page}: {error}"))?;
            println!("worked least numbers: {least} rows, all as the page says");
            let formats = beside("../../docs/FORMATS.md");
            let (refused, length) = page::compare(&read(&formats)?).map_err(|error| format!("{formats}: {error}"))?;
            println!("kept files in the page: {refused} refused as it says, one of {length} bytes read as it says");
        }
    }
    Ok(())
}

fn main() -> ExitCode {
    match compare() {
        Ok(()) => ExitCode::SUCCESS,
        Err(difference) => {
            println!("{difference}");
            ExitCode::FAILURE
        }
    }
}
