//! The rows of docs/WORKED-CALLS.md that show a directory. They have no vectors: each is read from the page and put to the
//! library, which must answer and leave what the row says.
use crate::{
    SHOWN, four,
    rows::{UNCHANGED, bytes, number, numbers, rows},
    worked::L,
};
use overlay::{raw, unpack};

const TITLE: &str = "## show a directory";
const HEAD: &str = "| id | listing | entries | record | path | output | answer | output after | why |";

/// What stands between backquotes.
pub fn quoted(text: &str) -> Result<&str, String> {
    let inner = text.strip_prefix('`').and_then(|rest| rest.strip_suffix('`'));
    inner.filter(|inner| !inner.contains('`')).ok_or(format!("{text:?} is not in backquotes"))
}

/// The bytes of a listing: `L`, `empty`, `no bytes`, or paths, `x/` a directory, `x@` a link, `x` a file, with all mtimes
/// and sizes 0.
pub fn listing(text: &str) -> Result<Vec<u8>, String> {
    let mut records = Vec::new();
    match text {
        "no bytes" => return Ok(Vec::new()),
        "empty" => {}
        "L" => records.extend(L),
        _ => {
            for word in text.split(' ') {
                let word = quoted(word)?;
                let (path, kind) = match (word.strip_suffix('/'), word.strip_suffix('@')) {
                    (Some(path), _) => (path, 1),
                    (_, Some(path)) => (path, 3),
                    _ => (word, 2),
                };
                records.push((path.as_bytes(), kind, 0.0, 0));
            }
        }
    }
    let mut out = b"RDL\x01\x00".to_vec();
    out.extend((records.len() as u32).to_le_bytes());
    for (path, kind, mtime, size) in records {
        out.extend((path.len() as u16).to_le_bytes());
        out.push(kind);
        out.extend(mtime.to_bits().to_le_bytes());
        out.extend(size.to_le_bytes());
        out.extend(path);
    }
    Ok(out)
}

/// The bytes of entries: `none`, or keys with what each is, with all mtimes and sizes 0. An own file has no data, or so
/// many bytes `x`.
pub fn entries(text: &str) -> Result<Vec<u8>, String> {
    let mut out = Vec::new();
    for entry in text.split("; ").filter(|_| text != "none") {
        let (key, is) = entry.split_once(' ').ok_or(format!("{entry:?} is no entry"))?;
        let own = is.strip_prefix("own, ").and_then(|rest| rest.strip_suffix(" bytes"));
        let (kind, body): (u16, String) = match is {
            "own" => (1, String::new()),
            "directory" => (3, String::new()),
            "deleted" => (4, String::new()),
            _ if own.is_some() => (1, "x".repeat(number(own.unwrap_or_default())? as usize)),
            _ => (2, quoted(is.strip_prefix("reference ").ok_or(format!("{is:?} is no kind"))?)?.to_owned()),
        };
        let key = quoted(key)?;
        out.extend((key.len() as u16).to_le_bytes());
        out.extend(kind.to_le_bytes());
        out.extend((body.len() as u32).to_le_bytes());
        out.extend([0; 16]);
        out.extend(key.bytes());
        out.extend(body.bytes());
    }
    Ok(out)
}

/// A refused answer: the number, with path and length behind it.
pub fn refused(text: &str) -> Result<[u64; 4], String> {
    let (refusal, rest) = text.split_once(" (").ok_or(format!("{text:?} is no answer"))?;
    let [path, length] = numbers::<2>(rest.trim_end_matches(')'), ", ")?;
    Ok([number(refusal)?, path, length, 0])
}

/// Puts a row to the library. The number that it has.
fn show(cells: &[&str]) -> Result<u64, String> {
    let &[_, listed, held, record, path, room, answer, after, _] = cells else { return Err("not nine cells".into()) };
    let (listing, table, record) = (listing(listed)?, entries(held)?, numbers::<4>(record, ", ")?);
    let path = if path == "the empty path" { "" } else { quoted(path)? };
    let mut output = vec![0x77; number(room)? as usize];
    let (wanted, left) = match answer.strip_prefix("0, value ") {
        Some(value) => {
            let rest = after.strip_prefix("the names ").ok_or("no names after an accepted showing")?;
            let (names, behind) = rest.split_once(", then ").unwrap_or((rest, "none"));
            let (names, behind, value) = (bytes(names)?, bytes(behind)?, number(value)?);
            if names.len() as u64 != value {
                return Err(format!("the names have {} bytes in the page", names.len()));
            }
            ([0, 0, 0, value], [names, behind].concat())
        }
        None if after == UNCHANGED => (refused(answer)?, output.clone()),
        None => return Err("a refused showing leaves the output as it was".into()),
    };
    let given = four(unpack(raw::show(&listing, &table, &record, path.as_bytes(), &mut output)));
    if given != wanted || output != left {
        return Err(format!("the library gives {given:?} and leaves {output:02x?}"));
    }
    Ok(wanted[0])
}

/// How many rows the page has.
pub fn compare(page: &str) -> Result<usize, String> {
    rows(page, TITLE, HEAD, SHOWN, show)
}

#[cfg(test)]
mod tests {
    use super::*;

    #[test]
    fn cells() {
        assert_eq!(listing("no bytes"), Ok(vec![]));
        assert_eq!(listing("empty"), Ok(b"RDL\x01\0\0\0\0\0".to_vec()));
        assert_eq!(listing("L").map(|bytes| bytes.len()), Ok(9 + 4 * 19 + 1 + 3 + 1 + 1));
        let two = [b"RDL\x01\0\x02\0\0\0\x01\0\x01", &[0; 16][..], b"a\x03\0\x03", &[0; 16], b"a/l"].concat();
        assert_eq!(listing("`a/` `a/l@`"), Ok(two));
        let one = [&b"\x01\0\x02\0\x01\0\0\0"[..], &[0; 16], b"nz"].concat();
        assert_eq!(entries("`n` reference `z`"), Ok(one.clone()));
        assert_eq!(entries("`n` reference `z`; `q` deleted").map(|bytes| bytes.len()), Ok(one.len() + 25));
        assert_eq!(entries("`n` own, 2 bytes"), Ok([&b"\x01\0\x01\0\x02\0\0\0"[..], &[0; 16], b"nxx"].concat()));
        assert_eq!((entries("none"), refused("5 (0, 3)")), (Ok(vec![]), Ok([5, 0, 3, 0])));
        for wrong in ["", "a", "`a", "`a`  `b`", "`a` b", "Empty"] {
            assert!(listing(wrong).is_err(), "{wrong}");
        }
        for wrong in ["", "`a`", "a own", "`a` link", "`a` reference z", "`a` own; ", "`a` own, x bytes"] {
            assert!(entries(wrong).is_err(), "{wrong}");
        }
        for wrong in ["5", "5 (0)", "5 (0, x)", "x (0, 0)"] {
            assert!(refused(wrong).is_err(), "{wrong}");
        }
    }

    #[test]
    fn rows_are_held_to_the_library() {
        let page = include_str!("../../../docs/WORKED-CALLS.md");
        assert_eq!(compare(page), Ok(20));
        let (front, section) = page.split_at(page.find(TITLE).expect("the section"));
        let changed = |from: &str, to: &str| {
            assert!(section.contains(from), "{from}");
            compare(&[front, &section.replacen(from, to, 1)].concat()).unwrap_err()
        };
        assert!(changed("the names `01 00 61,", "the names `01 00 62,").contains("the library gives"));
        assert!(changed("| 0, value 6 |", "| 0, value 7 |").contains("6 bytes in the page"));
        assert!(changed(", then `2 × 00`", ", then `3 × 00`").contains("the library gives"));
        assert!(changed("| 13 (0, 0) |", "| 13 (0, 1) |").contains("the library gives"));
        assert!(changed("| 5 (0, 1) |", "| 4 (0, 1) |").contains("the library gives"));
        assert!(changed("| show-2 |", "| show-1 |").contains("twice"));
        assert!(changed("| show-2 |", "| keep-2 |").contains("no id of show"));
        assert!(changed(TITLE, "## another").contains("no section"));
        let kept = page.lines().filter(|line| !line.starts_with("| show-") || !line.contains("| 13 ("));
        let without: String = kept.map(|line| format!("{line}\n")).collect();
        assert_eq!(compare(&without), Err(format!("{TITLE}: no row has 13")));
    }
}
