//! The worked calls: each call of worked.jsonl that has an `id` is a row of docs/WORKED-CALLS.md. The entries that a
//! vector states are encoded here and held against the table's bytes, and the row is rendered from the vector and held
//! against the page.
use crate::json::Json;
use std::collections::{BTreeMap, BTreeSet};

/// What each call can give, by document 01 and change request #103: a query's yes and no, and the numbers of the
/// others, 0 for accepted. Each by the name in its rows' ids.
const CAN_GIVE: [(&str, &[&str]); 11] = [
    ("open", &["0", "1"]),
    ("exists", &["yes", "no", "1", "2", "3"]),
    ("is_file", &["yes", "no", "1", "2", "3"]),
    ("is_dir", &["yes", "no", "1", "2", "3"]),
    ("write", &["0", "1", "2", "3", "4", "5", "8", "11", "13"]),
    ("mkdir", &["0", "1", "2", "3", "4", "5", "6", "7", "11", "13"]),
    ("unlink", &["0", "1", "2", "3", "4", "5", "8", "11", "13"]),
    ("rmdir", &["0", "1", "2", "3", "4", "5", "7", "9", "11", "13"]),
    ("rename", &["0", "1", "2", "3", "4", "5", "7", "8", "9", "10", "11", "12", "13"]),
    ("append", &["0", "1", "2", "3", "4", "5", "8", "11", "13", "17"]),
    (INSIDE, &["0", "1", "2", "3", "5", "11", "13", "18"]),
];

/// The call `write_at` in ids.
const INSIDE: &str = "inside";

/// The head of every table of rows in the page.
const HEAD: &str = "| id | listing | table before | call | where it matters | answer | charge | entries after | why |";

/// Document 01's listing L: path, kind, mtime and size of each record.
pub const L: [(&[u8], u8, f64, u64); 4] =
    [(b"a", 1, 1.0, 0), (b"a/f", 2, 2.0, 5), (b"l", 3, 0.0, 0), (b"z", 2, 0.0, 0)];

/// What is taken as given where a row does not say it.
const ENTRY_SIZE: u64 = 40;
const ROOM: u64 = 512;

/// What an entry is charged for its body, by change request #107: the length rounded up to a multiple of this.
const UNIT: u64 = 16;

/// The table's bytes and record by document 01 and change request #107, for entries that a vector states.
fn encoded(entries: &Json, room: usize, entry_size: u64) -> (Vec<u8>, [u64; 4]) {
    let mut table = Vec::new();
    let mut charge = 0;
    for entry in entries.list() {
        let (key, body) = (entry.get("key").bytes(), entry.get("body").bytes());
        table.extend((key.len() as u16).to_le_bytes());
        table.extend((entry.get("kind").number() as u16).to_le_bytes());
        table.extend((body.len() as u32).to_le_bytes());
        table.extend(entry.get("mtime").number().to_le_bytes());
        table.extend(entry.get("size").number().to_le_bytes());
        table.extend(&key);
        table.extend(&body);
        charge += 256 + key.len() as u64 + entry_size + (body.len() as u64).next_multiple_of(UNIT);
    }
    let record = [table.len() as u64, entries.list().len() as u64, charge, entry_size];
    table.resize(room.max(table.len()), 0);
    (table, record)
}

/// Whether a table is what a vector states of it: its entries and their record, or without entries what it was before.
pub fn stated(entries: Option<&Json>, before: &[u8], after: &[u8], record: [u64; 4]) -> Result<(), String> {
    let Some(entries) = entries else {
        return if before == after {
            Ok(())
        } else {
            Err("the table changes, and the vector states no entries".into())
        };
    };
    let (table, numbers) = encoded(entries, after.len(), record[3]);
    if table == after && numbers == record {
        Ok(())
    } else {
        Err(format!("the table has other entries than {entries:?}"))
    }
}

/// A number with a comma before each three digits.
fn number(value: u64) -> String {
    let digits = value.to_string();
    let mut text = String::new();
    for (at, digit) in digits.chars().enumerate() {
        if at > 0 && (digits.len() - at).is_multiple_of(3) {
            text.push(',');
        }
        text.push(digit);
    }
    text
}

/// Bytes as text: `{k×250}` for a unit of one or two bytes that stands there so often, `{c1}` for a byte that is no
/// visible ASCII.
fn text(bytes: &[u8]) -> String {
    let shown = |unit: &[u8]| -> String {
        unit.iter()
            .map(|b| if b.is_ascii_graphic() { (*b as char).to_string() } else { format!("{{{b:02x}}}") })
            .collect()
    };
    let mut out = String::from("`");
    let mut at = 0;
    'bytes: while at < bytes.len() {
        for size in [1, 2] {
            let unit = &bytes[at..bytes.len().min(at + size)];
            let often = bytes[at..].chunks(size).take_while(|chunk| *chunk == unit).count();
            if often >= 10 {
                out += &format!("{{{}×{often}}}", shown(unit));
                at += size * often;
                continue 'bytes;
            }
        }
        out += &shown(&bytes[at..at + 1]);
        at += 1;
    }
    out + "`"
}

fn path(bytes: &[u8]) -> String {
    if bytes.is_empty() { "the empty path".into() } else { text(bytes) }
}

/// The f64 of the bits, or the bits of a NaN.
fn mtime(bits: u64) -> String {
    let time = f64::from_bits(bits);
    if time.is_nan() { format!("bits {bits:x}") } else { format!("{time:?}") }
}

fn entry(entry: &Json) -> String {
    let key = path(&entry.get("key").bytes());
    let (body, time) = (entry.get("body").bytes(), mtime(entry.get("mtime").number()));
    match entry.get("kind").number() {
        1 if body.is_empty() => format!("{key} own, no data, {time}"),
        1 => format!("{key} own {}, {time}", text(&body)),
        2 => format!("{key} reference {}, {time}, size {}", path(&body), number(entry.get("size").number())),
        3 => format!("{key} directory, {time}"),
        4 => format!("{key} deleted"),
        kind => panic!("no kind {kind}"),
    }
}

fn entries(list: &Json) -> String {
    let each: Vec<String> = list.list().iter().map(entry).collect();
    if each.is_empty() { "none".into() } else { each.join("; ") }
}

/// A listing as the page names it: L, or its paths, `x/` a directory, `x@` a link, `x` a file, with all mtimes and
/// sizes 0.
fn listing(vector: &Json) -> Result<String, String> {
    if let Some(words) = vector.find("listing_is") {
        return Ok(words.text().into());
    }
    let bytes = vector.get("listing").bytes();
    let mut rest = bytes.get(9..).ok_or("a listing without a head")?;
    let mut records = Vec::new();
    while !rest.is_empty() {
        let size = u16::from_le_bytes([rest[0], rest[1]]) as usize;
        let word = |at: usize| u64::from_le_bytes(rest[at..at + 8].try_into().expect("eight bytes"));
        records.push((&rest[19..19 + size], rest[2], f64::from_bits(word(3)), word(11)));
        rest = &rest[19 + size..];
    }
    if records == L {
        return Ok("L".into());
    }
    if records.is_empty() {
        return Ok("empty".into());
    }
    let mut names = Vec::new();
    for (path, kind, mtime, size) in records {
        if mtime.to_bits() != 0 || size != 0 {
            return Err("a listing other than L has an mtime or a size".into());
        }
        let mark = ["/", "", "@"][kind as usize - 1];
        names.push(text(&[path, mark.as_bytes()].concat()));
    }
    Ok(names.join(" "))
}

/// A number that may be as large as 64 bits allow: a limit, or the offset of a writing inside.
fn large(value: u64) -> String {
    let below = value.wrapping_neg();
    if (1..1000).contains(&below) { format!("2^64 − {below}") } else { number(value) }
}

/// A call with its arguments.
fn call(call: &Json) -> String {
    let op = match call.get("op").text() {
        "write_at" => "write inside",
        op => op,
    };
    let paths: Vec<String> = call.get("paths").list().iter().map(|p| path(&p.bytes())).collect();
    let mut words = format!("{op} {}", paths.join(" to "));
    if let Some(data) = call.find("data").map(Json::bytes) {
        words += &if data.is_empty() { ", no data".into() } else { format!(", data {}", text(&data)) };
    }
    if let Some(lent) = call.find("lent").map(Json::bytes).filter(|lent| !lent.is_empty()) {
        words += &format!(", lent {}", text(&lent));
    }
    if let Some(at) = call.find("offset") {
        words += &format!(", offset {}", large(at.number()));
    }
    for flag in ["parents", "exist_ok"] {
        if call.find(flag).is_some_and(Json::flag) {
            words += &format!(", {flag}");
        }
    }
    if let Some(bits) = call.find("mtime") {
        words += &format!(", mtime {}", mtime(bits.number()));
    }
    words
}

/// The rows that vectors state, and what they cover.
#[derive(Default)]
pub struct Rows {
    rows: BTreeMap<String, String>,
    order: Vec<String>,
    given: BTreeSet<(String, String)>,
}

impl Rows {
    fn add(&mut self, op: &str, outcome: String, id: &Json, cells: [String; 8]) -> Result<(), String> {
        let id = id.text();
        let row = format!("| {id} | {} |", cells.join(" | "));
        if id.rsplit_once('-').is_none_or(|(front, _)| front != op) || row.matches('|').count() != 10 {
            return Err(format!("{row} is no row of {op}"));
        }
        if self.rows.insert(id.into(), row).is_some() {
            return Err(format!("two rows {id}"));
        }
        self.order.push(id.into());
        self.given.insert((op.into(), outcome));
        Ok(())
    }

    /// The rows of a vector: an opening, the calls of a run that have an `id`, or a raw call.
    pub fn read(&mut self, vector: &Json) -> Result<(), String> {
        match vector.get("t").text() {
            "open" => self.opening(vector),
            "run" => {
                let room = vector.get("room").number();
                let mut start = String::from("empty");
                for each in vector.get("calls").list() {
                    if each.find("id").is_some() {
                        self.row(vector, each, &start, room, vector.get("e").number())?;
                    }
                    if each.find("entries").is_some() {
                        start = match each.find("id") {
                            Some(id) => format!("after {}", id.text()),
                            None if start == "empty" => format!("after {}", call(each)),
                            None => format!("{start}; {}", call(each)),
                        };
                    }
                }
                Ok(())
            }
            "raw" => {
                let table = vector.get("table").bytes();
                let record = vector.get("record").four();
                let (start, entry_size) = match vector.find("given") {
                    Some(words) => (format!("given: {}", words.text()), ENTRY_SIZE),
                    None => {
                        stated(vector.find("entries"), &[], &table, record)?;
                        (format!("given: {}", entries(vector.get("entries"))), record[3])
                    }
                };
                self.row(vector, vector.get("call"), &start, table.len() as u64, entry_size)
            }
            _ => Ok(()),
        }
    }

    fn opening(&mut self, vector: &Json) -> Result<(), String> {
        let accepted = vector.get("no").number() == 0;
        let (answer, charge, after) = if accepted { ("0", "0", "none") } else { ("1 (0, 0)", "", "as before") };
        let words = format!("open, E {}", number(vector.get("e").number()));
        let room = format!("table {}", number(vector.get("room").number()));
        let cells = ["", "any bytes", &words, &room, answer, charge, after, vector.get("why").text()];
        self.add("open", vector.get("no").number().to_string(), vector.get("id"), cells.map(String::from))
    }

    fn row(&mut self, vector: &Json, made: &Json, start: &str, room: u64, entry_size: u64) -> Result<(), String> {
        let op = made.get("op").text();
        let [refusal, named, length, value] = made.get("answer").four();
        let query = matches!(op, "exists" | "is_file" | "is_dir");
        if (vector.find("given").is_some() && refusal != 1)
            || (vector.find("listing_is").is_some() && !matches!(refusal, 1 | 2))
        {
            return Err("only a table or a listing that is refused is told in words".into());
        }
        let (outcome, answer) = match (refusal, op) {
            (0, _) if query => (["no", "yes"][value as usize].into(), ["no", "yes"][value as usize].into()),
            (0, "write" | "append" | "write_at") => ("0".into(), format!("0, value {}", number(value))),
            (0, _) => ("0".into(), "0".into()),
            _ => (refusal.to_string(), format!("{refusal} ({named}, {})", number(length))),
        };
        let mut matters = Vec::new();
        if entry_size != ENTRY_SIZE {
            matters.push(format!("E {}", number(entry_size)));
        }
        if let Some(limit) = made.find("limit").map(Json::number).filter(|limit| *limit != u64::MAX) {
            matters.push(format!("limit {}", large(limit)));
        }
        if room != ROOM {
            matters.push(format!("table {}", number(room)));
        }
        if let Some(work) = made.find("work").map(Json::number).filter(|work| *work != room) {
            matters.push(format!("work {}", number(work)));
        }
        let cells = [
            listing(vector)?,
            start.into(),
            call(made),
            matters.join(", "),
            answer,
            number(made.get("record").four()[2]),
            made.find("entries").map_or("as before".into(), entries),
            made.get("why").text().into(),
        ];
        self.add(if op == "write_at" { INSIDE } else { op }, outcome, made.get("id"), cells)
    }

    /// Every number that a call can give has a row, and no row has another one.
    pub fn covers(&self) -> Result<(), String> {
        let can: BTreeSet<(String, String)> = CAN_GIVE
            .iter()
            .flat_map(|(op, outcomes)| outcomes.iter().map(|outcome| (op.to_string(), outcome.to_string())))
            .collect();
        if let Some((op, outcome)) = can.difference(&self.given).next() {
            return Err(format!("no row has {op} with {outcome}"));
        }
        match self.given.difference(&can).next() {
            Some((op, outcome)) => Err(format!("a row has {op} with {outcome}, which it cannot give")),
            None => Ok(()),
        }
    }

    /// The page's rows are these, each once: no other, and none missing.
    pub fn stand_in(&self, page: &str) -> Result<(), String> {
        let mut found = BTreeSet::new();
        let mut lines = page.lines().enumerate();
        while let Some((_, line)) = lines.next() {
            if line != HEAD {
                continue;
            }
            lines.next();
            for (at, line) in lines.by_ref().take_while(|(_, line)| line.starts_with('|')) {
                let id = line.split('|').nth(1).map_or("", str::trim);
                match self.rows.get(id) {
                    None => return Err(format!("line {}: no vector has the row\n{line}", at + 1)),
                    Some(row) if row != line => {
                        return Err(format!("line {}: the page has\n{line}\nand the vector\n{row}", at + 1));
                    }
                    Some(_) if !found.insert(id) => return Err(format!("line {}: {id} stands there twice", at + 1)),
                    Some(_) => {}
                }
            }
        }
        match self.rows.iter().find(|(id, _)| !found.contains(id.as_str())) {
            Some((_, row)) => Err(format!("missing is the row\n{row}")),
            None => Ok(()),
        }
    }

    /// The rows that another page cites are there.
    pub fn cited_in(&self, page: &str) -> Result<(), String> {
        let part = |c: char| c.is_ascii_alphanumeric() || "_-".contains(c);
        for word in page.split(|c| !part(c)) {
            let Some((op, number)) = word.rsplit_once('-') else { continue };
            let is_id = CAN_GIVE.iter().any(|(name, _)| *name == op) && number.bytes().all(|b| b.is_ascii_digit());
            if is_id && !self.rows.contains_key(word) {
                return Err(format!("no row is {word}"));
            }
        }
        Ok(())
    }

    pub fn len(&self) -> usize {
        self.rows.len()
    }

    /// The rows as the page has them, in the order of the vectors.
    pub fn print(&self) {
        let mut last = "";
        for id in &self.order {
            let op = id.rsplit_once('-').map_or("", |(op, _)| op);
            if op != last {
                println!("\n{HEAD}\n{}|", "|---".repeat(9));
            }
            last = op;
            println!("{}", self.rows[id]);
        }
    }
}

#[cfg(test)]
mod tests {
    use super::*;
    use crate::json::parse;

    #[test]
    fn words_of_the_page() {
        assert_eq!([0, 999, 1000, 16_777_216].map(number), ["0", "999", "1,000", "16,777,216"]);
        assert_eq!(path(b""), "the empty path");
        assert_eq!(text(b"a/f"), "`a/f`");
        assert_eq!(text(b"a/kkkkkkkkkkk/\xc1"), "`a/{k×11}/{c1}`");
        assert_eq!(text(b"x/x/x/x/x/x/x/x/x/x/x"), "`{x/×10}x`");
        assert_eq!([1.0f64.to_bits(), 0, 0x7ff8_0000_0000_0001].map(mtime), ["1.0", "0.0", "bits 7ff8000000000001"]);
        assert_eq!([0, 1 << 40, u64::MAX].map(large), ["0", "1,099,511,627,776", "2^64 − 1"]);
        assert_eq!([999, 1000].map(|below| large(u64::MAX - below + 1)), ["2^64 − 999", "18,446,744,073,709,550,616"]);
    }

    const CALLS: &str = r#"{"t":"run","listing":"52444c010000000000","e":40,"room":512,"calls":[
        {"op":"unlink","paths":["61"],"limit":"300","work":512,"answer":[0,0,0,0],"record":[25,1,297,40],
         "entries":[{"key":"61","kind":4,"mtime":"0","size":"0","body":""}]},
        {"id":"unlink-1","op":"unlink","paths":["61"],"limit":"300","work":511,"answer":[5,0,1,0],
         "record":[25,1,297,40],"why":"why"}]}"#;
    const ROW: &str =
        "| unlink-1 | empty | after unlink `a` | unlink `a` | limit 300, work 511 | 5 (0, 1) | 297 | as before | why |";

    #[test]
    fn rows_are_held_to_the_page() {
        let mut rows = Rows::default();
        rows.read(&parse(CALLS).unwrap()).unwrap();
        assert_eq!(rows.rows["unlink-1"], ROW);
        let page = format!("# Page\n\n{HEAD}\n|---|\n{ROW}\n\nText.\n");
        assert_eq!(rows.stand_in(&page), Ok(()));
        let other = page.replace("297", "298");
        assert!(rows.stand_in(&other).unwrap_err().contains("the vector"));
        assert!(rows.stand_in(&page.replace(ROW, "")).unwrap_err().contains("missing"));
        let more = page.replace(ROW, &format!("{ROW}\n{}", ROW.replace("unlink-1", "unlink-2")));
        assert!(rows.stand_in(&more).unwrap_err().contains("no vector"));
        assert!(rows.stand_in(&page.replace(ROW, &format!("{ROW}\n{ROW}"))).unwrap_err().contains("twice"));
        assert_eq!(rows.cited_in("An unlink (unlink-1) or a read-only write-up."), Ok(()));
        assert!(rows.cited_in("(rename-7, unlink-1)").unwrap_err().contains("rename-7"));
        assert!(rows.covers().unwrap_err().contains("no row has"));
        assert!(rows.read(&parse(CALLS).unwrap()).unwrap_err().contains("two rows"));
    }

    #[test]
    fn entries_are_held_to_the_bytes() {
        let entries = parse(r#"[{"key":"61","kind":4,"mtime":"0","size":"0","body":""}]"#).unwrap();
        let mut table = vec![0; 30];
        table[..4].copy_from_slice(&[1, 0, 4, 0]);
        table[24] = b'a';
        assert_eq!(stated(Some(&entries), &[], &table, [25, 1, 297, 40]), Ok(()));
        assert!(stated(Some(&entries), &[], &table, [25, 1, 298, 40]).is_err());
        table[29] = 1;
        assert!(stated(Some(&entries), &[], &table, [25, 1, 297, 40]).is_err());
        assert!(stated(None, &[0], &[1], [0; 4]).is_err());
    }

    #[test]
    fn bodies_are_charged_in_units_of_16() {
        for (length, charge) in [(0, 297), (1, 313), (16, 313), (17, 329), (32, 329), (33, 345)] {
            let body = "00".repeat(length);
            let entries = format!(r#"[{{"key":"61","kind":1,"mtime":"0","size":"0","body":"{body}"}}]"#);
            let (table, record) = encoded(&parse(&entries).unwrap(), 0, 40);
            assert_eq!((table.len(), record), (25 + length, [25 + length as u64, 1, charge, 40]));
        }
    }
}
