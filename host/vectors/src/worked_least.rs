//! The rows of docs/WORKED-CALLS.md that tell what would let a rename through. They have no vectors: each is read from
//! the page and put to the library, which must answer and write what the row says.
use crate::{
    four,
    rows::{UNCHANGED, number, numbers, rows},
    worked_show::{entries, listing, quoted, refused},
};
use overlay::{raw, unpack};

const TITLE: &str = "## what would let a rename through";
const HEAD: &str = "| id | listing | entries | record | source | destination | answer | limit | length | why |";

/// The numbers that it can give.
const NUMBERS: (&str, &[u64]) = ("least", &[0, 1, 2, 3]);

/// Each of the two numbers before the call.
const BEFORE: u64 = 77;

fn path(text: &str) -> Result<&str, String> {
    if text == "the empty path" { Ok("") } else { quoted(text) }
}

/// Puts a row to the library. The number that it has.
fn least(cells: &[&str]) -> Result<u64, String> {
    let &[_, listed, held, record, source, destination, answer, limit, length, _] = cells else {
        return Err("not ten cells".into());
    };
    let (listing, table, record) = (listing(listed)?, entries(held)?, numbers::<4>(record, ", ")?);
    let (source, destination) = (path(source)?, path(destination)?);
    let (wanted, left) = match (answer, limit, length) {
        ("0", "none", "none") => ([0; 4], [0; 2]),
        ("0", limit, length) => ([0, 0, 0, 1], [number(limit)?, number(length)?]),
        (answer, UNCHANGED, UNCHANGED) => (refused(answer)?, [BEFORE; 2]),
        _ => return Err("refused, it leaves the two numbers as they were".into()),
    };
    let mut least = [BEFORE; 2];
    let (from, to) = (source.as_bytes(), destination.as_bytes());
    let given = four(unpack(raw::least_rename(&listing, &table, &record, from, to, &mut least)));
    if given != wanted || least != left {
        return Err(format!("the library gives {given:?} and writes {least:?}"));
    }
    Ok(wanted[0])
}

/// How many rows the page has.
pub fn compare(page: &str) -> Result<usize, String> {
    rows(page, TITLE, HEAD, NUMBERS, least)
}

#[test]
fn rows_are_held_to_the_library() {
    let page = include_str!("../../../docs/WORKED-CALLS.md");
    assert_eq!(compare(page), Ok(20));
    let (front, section) = page.split_at(page.find(TITLE).expect("the section"));
    let changed = |from: &str, to: &str| {
        assert!(section.contains(from), "{from}");
        compare(&[front, &section.replacen(from, to, 1)].concat()).unwrap_err()
    };
    assert!(changed("| 0 | 1,208 | 107 |", "| 0 | 1,207 | 107 |").contains("the library gives"));
    assert!(changed("| 0 | 1,208 | 107 |", "| 0 | 1,208 | 106 |").contains("the library gives"));
    assert!(changed("| 0 | 610 | 52 |", "| 0 | 610 | 51 |").contains("the library gives"));
    assert!(changed("| 0 | none | none |", "| 0 | 0 | 0 |").contains("the library gives"));
    assert!(changed("| 0 | 0 | 0 |", "| 0 | none | none |").contains("the library gives"));
    assert!(changed("| 3 (1, 0) | as it was | as it was |", "| 3 (1, 0) | none | none |").contains("as they were"));
    assert!(changed("| 3 (1, 0) |", "| 3 (0, 0) |").contains("the library gives"));
    assert!(changed("| least-2 |", "| least-1 |").contains("twice"));
}
