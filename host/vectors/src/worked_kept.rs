//! The rows of docs/WORKED-CALLS.md that write and read kept files. They have no vectors: each is read from the page and
//! put to the library, which must answer and leave what the row says.
use crate::{
    KEPT, four,
    rows::{UNCHANGED, bytes, number, numbers, rows},
};
use overlay::{raw, unpack};

const WRITE: &str = "## write a kept file";
const WRITE_HEAD: &str = "| id | listing | table | record | output | answer | output after | why |";
const READ: &str = "## read a kept file";
const READ_HEAD: &str = "| id | file | buffer | answer | listing at | record | table after | why |";

/// Puts a row of the writer to the library. The number that it has.
fn write(cells: &[&str]) -> Result<u64, String> {
    let &[_, listing, table, record, output, answer, after, _] = cells else { return Err("not eight cells".into()) };
    let (listing, table, record) = (bytes(listing)?, bytes(table)?, numbers::<4>(record, ", ")?);
    let mut output = vec![0x77; number(output)? as usize];
    let (wanted, left) = match answer.strip_prefix("0, value ") {
        Some(value) => {
            let rest = after.strip_prefix("the file ").ok_or("no file after an accepted writing")?;
            let (file, behind) = rest.split_once(", then ").unwrap_or((rest, "none"));
            let (file, behind, value) = (bytes(file)?, bytes(behind)?, number(value)?);
            if file.len() as u64 != value {
                return Err(format!("the file has {} bytes in the page", file.len()));
            }
            ([0, 0, 0, value], [file, behind].concat())
        }
        None if after == UNCHANGED => ([number(answer)?, 0, 0, 0], output.clone()),
        None => return Err("a refused writing leaves the output as it was".into()),
    };
    let given = four(unpack(raw::write_kept(&listing, &table, &record, &mut output)));
    if given != wanted || output != left {
        return Err(format!("the library gives {given:?} and leaves {output:02x?}"));
    }
    Ok(wanted[0])
}

/// Puts a row of the reader to the library. The number that it has.
fn read(cells: &[&str]) -> Result<u64, String> {
    let &[_, file, buffer, answer, place, record, after, _] = cells else { return Err("not eight cells".into()) };
    let (file, answer) = (bytes(file)?, number(answer)?);
    let before = vec![0xaa; number(buffer)? as usize];
    // Numbers that no reading gives.
    let (old_record, old_place) = ([u64::MAX; 4], [u64::MAX; 2]);
    let wanted = match answer {
        0 => (numbers::<4>(record, ", ")?, numbers::<2>(place, " and ")?, bytes(after)?),
        _ if [place, record, after] == [UNCHANGED; 3] => (old_record, old_place, before.clone()),
        _ => return Err("a refused reading leaves all as it was".into()),
    };
    let (mut record, mut place, mut table) = (old_record, old_place, before);
    let given = four(unpack(raw::read_kept(&file, &mut table, &mut record, &mut place)));
    if given != [answer, 0, 0, 0] || (record, place) != (wanted.0, wanted.1) || table != wanted.2 {
        let start = &table[..table.len().min(64)];
        return Err(format!("the library gives {given:?} {place:?} {record:?} and leaves, first, {start:02x?}"));
    }
    Ok(answer)
}

/// How many rows of the writer and of the reader the page has.
pub fn compare(page: &str) -> Result<(usize, usize), String> {
    let [keep_gives, read_gives] = KEPT;
    Ok((rows(page, WRITE, WRITE_HEAD, keep_gives, write)?, rows(page, READ, READ_HEAD, read_gives, read)?))
}

#[cfg(test)]
mod tests {
    use super::*;

    #[test]
    fn rows_are_held_to_the_library() {
        let page = include_str!("../../../docs/WORKED-CALLS.md");
        assert_eq!(compare(page), Ok((13, 15)));
        let changed = |from: &str, to: &str| {
            assert!(page.contains(from), "{from}");
            compare(&page.replacen(from, to, 1)).unwrap_err()
        };
        assert!(changed("| 0, value 47 | the file `4f", "| 0, value 47 | the file `4e").contains("the library gives"));
        assert!(changed("| 0, value 22 |", "| 0, value 23 |").contains("22 bytes in the page"));
        assert!(changed("| 9 and 9 |", "| 9 and 8 |").contains("the library gives"));
        assert!(changed("| 16 | as it was |", "| 13 | as it was |").contains("the library gives"));
        assert!(changed("7a, 5 × 00`", "7a, 4 × 00`").contains("the library gives"));
        assert!(changed("| keep-2 |", "| keep-1 |").contains("twice"));
        assert!(changed("| read-2 |", "| keep-2 |").contains("no id of read"));
        assert!(changed(WRITE, "## another").contains("no section"));
        let without = |number: &str| -> String {
            let kept = page.lines().filter(|line| !line.contains(number) || !line.starts_with("| read-"));
            kept.map(|line| format!("{line}\n")).collect()
        };
        assert_eq!(compare(&without("| 13 |")), Err(format!("{READ}: no row has 13")));
        assert_eq!(compare(&without("")), Err(format!("{READ}: no rows")));
    }
}
