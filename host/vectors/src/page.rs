//! The kept files that docs/FORMATS.md shows: each row of its table of refused ones is read by the library, which must
//! answer the number beside it; the file that is shown byte by byte must be read as the page says, and written again.
use overlay::{OverlayMut, OverlayRef, Record, Refusal};

/// The sections of the page, by their heads.
const SHOWN: &str = "### A kept file of 67 bytes";
const REFUSED: &str = "### Refused with 14 and 15";

/// The lines of a section, up to the next head.
pub fn section<'p>(page: &'p str, head: &str) -> Result<impl Iterator<Item = &'p str>, String> {
    let (_, behind) = page.split_once(&format!("\n{head}\n")).ok_or(format!("no section {head}"))?;
    Ok(behind.lines().take_while(|line| !line.starts_with('#')))
}

/// Bytes in hexadecimal, with commas, semicolons and spaces between them, as far as they go.
fn bytes(text: &str) -> Vec<u8> {
    let words = text.split([' ', ',', ';']).filter(|word| !word.is_empty());
    words.map_while(|word| (word.len() == 2).then(|| u8::from_str_radix(word, 16).ok()).flatten()).collect()
}

/// Reads a file into a buffer of 64 bytes: where the listing stands, and the record.
fn read(file: &[u8]) -> Result<(Vec<u8>, Record, Vec<u8>), Refusal> {
    let (mut table, mut record, mut work) = (vec![0xaa; 64], Record::default(), Vec::new());
    let listing = OverlayMut::new(&mut table, &mut record, &mut work).read_kept(file)?.to_vec();
    Ok((listing, record, table))
}

/// The rows of the table of refused files: bytes, number, what is wrong.
fn refused(page: &str) -> Result<usize, String> {
    let mut rows = 0;
    for line in section(page, REFUSED)?.filter(|line| line.starts_with("| `") || line.starts_with("| no byte")) {
        let columns: Vec<&str> = line.split('|').map(str::trim).collect();
        let file = bytes(columns[1].trim_matches('`'));
        let number = read(&file).map_err(|refusal| refusal.number().to_string());
        if number != Err(columns[2].to_string()) {
            return Err(format!("{line}\ngives {number:?}"));
        }
        rows += 1;
    }
    if rows == 0 { Err("no row of a refused file".into()) } else { Ok(rows) }
}

/// The file that is shown: in each line an offset, then bytes up to the words.
fn shown(page: &str) -> Result<usize, String> {
    let mut file = Vec::new();
    for line in section(page, SHOWN)?.skip_while(|line| *line != "```").skip(1).take_while(|line| *line != "```") {
        let Some((offset, rest)) = line.trim_start().split_once("  ") else { continue };
        if offset.parse() != Ok(file.len()) {
            return Err(format!("{line}\nstands behind {} bytes", file.len()));
        }
        file.extend(bytes(rest));
    }
    let (listing, record, table) = read(&file).map_err(|refusal| format!("the file that is shown: {refusal}"))?;
    let wanted = Record { used: 25, count: 1, charge: 297, entry_size: 40 };
    let again = OverlayRef::new(&table, record).keep(&listing);
    if (listing.as_slice(), record) != (&file[9..38], wanted) || again.as_ref() != Ok(&file) {
        return Err(format!("the file that is shown gives {record:?}"));
    }
    Ok(file.len())
}

/// How many refused files the page shows, and how many bytes the file has that it shows whole.
pub fn compare(page: &str) -> Result<(usize, usize), String> {
    Ok((refused(page)?, shown(page)?))
}
