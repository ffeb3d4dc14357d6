//! Rows that the program reads from a page: what stands in their cells, and each row of a section put to the library.
use crate::page::section;
use std::collections::BTreeSet;

/// What a row says of each thing that a refused call leaves.
pub const UNCHANGED: &str = "as it was";

/// A number, with or without a comma before each three digits.
pub fn number(text: &str) -> Result<u64, String> {
    text.replace(',', "").parse().map_err(|_| format!("{text:?} is no number"))
}

/// So many numbers, with this between them.
pub fn numbers<const N: usize>(text: &str, between: &str) -> Result<[u64; N], String> {
    let each = text.split(between).map(number).collect::<Result<Vec<u64>, String>>()?;
    each.try_into().map_err(|_| format!("{text:?} is not {N} numbers"))
}

/// The bytes of a cell: `none`, or in backquotes groups in hexadecimal with commas between them, where `8 × 00` is eight
/// bytes 00.
pub fn bytes(text: &str) -> Result<Vec<u8>, String> {
    if text == "none" {
        return Ok(Vec::new());
    }
    let wrong = || format!("{text:?} is neither bytes nor none");
    let byte = |word: &str| match word.as_bytes() {
        [high, low] if high.is_ascii_hexdigit() && low.is_ascii_hexdigit() => {
            u8::from_str_radix(word, 16).map_err(|_| wrong())
        }
        _ => Err(wrong()),
    };
    let inner = text.strip_prefix('`').and_then(|rest| rest.strip_suffix('`')).ok_or_else(wrong)?;
    let mut all = Vec::new();
    for group in inner.split(", ") {
        match group.split_once(" × ") {
            Some((times, unit)) => all.extend(vec![byte(unit)?; number(times)? as usize]),
            None => all.extend(group.split(' ').map(byte).collect::<Result<Vec<u8>, String>>()?),
        }
    }
    Ok(all)
}

/// Puts every row of a section to the library: its ids are those of the call, each once, and each number that the call
/// can give has a row. How many rows there are.
pub fn rows(
    page: &str,
    title: &str,
    head: &str,
    (call, can_give): (&str, &[u64]),
    put: fn(&[&str]) -> Result<u64, String>,
) -> Result<usize, String> {
    let mut lines = section(page, title)?.filter(|line| line.starts_with('|'));
    let line_below = format!("{}|", "|---".repeat(head.matches('|').count() - 1));
    if lines.next() != Some(head) || lines.next() != Some(&line_below) {
        return Err(format!("{title}: no table with the head\n{head}"));
    }
    let (mut ids, mut given) = (BTreeSet::new(), BTreeSet::new());
    for line in lines {
        let inner = line.strip_prefix('|').and_then(|rest| rest.strip_suffix('|')).unwrap_or(line);
        let cells: Vec<&str> = inner.split('|').map(str::trim).collect();
        let is_id = cells[0]
            .strip_prefix(call)
            .and_then(|rest| rest.strip_prefix('-'))
            .is_some_and(|id| id.parse::<u64>().is_ok_and(|number| number > 0));
        if !is_id || !ids.insert(cells[0]) {
            return Err(format!("{line}\nhas no id of {call}, or one that stands there twice"));
        }
        given.insert(put(&cells).map_err(|error| format!("{line}\n{error}"))?);
    }
    if ids.is_empty() {
        return Err(format!("{title}: no rows"));
    }
    if let Some(number) = can_give.iter().find(|number| !given.contains(number)) {
        return Err(format!("{title}: no row has {number}"));
    }
    match given.iter().find(|number| !can_give.contains(number)) {
        Some(number) => Err(format!("{title}: a row has {number}, which {call} cannot give")),
        None => Ok(ids.len()),
    }
}

#[cfg(test)]
mod tests {
    use super::*;

    #[test]
    fn cells() {
        assert_eq!(bytes("none"), Ok(vec![]));
        assert_eq!(bytes("`01 00, 3 × 00, 7a`"), Ok(vec![1, 0, 0, 0, 0, 0x7a]));
        for wrong in ["", "`", "``", "01", "`1`", "`+1`", "`01,00`", "`01  00`", "`x × 00`", "`2 × 0`"] {
            assert!(bytes(wrong).is_err(), "{wrong}");
        }
        assert_eq!(numbers("25, 1, 1,297, 40", ", "), Ok([25, 1, 1297, 40]));
        assert_eq!(numbers("9 and 16,777,216", " and "), Ok([9, 16_777_216]));
        assert!(numbers::<4>("25, 1, 297", ", ").is_err());
    }
}
