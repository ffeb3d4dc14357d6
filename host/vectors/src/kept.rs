//! The vectors of kept files: a file that is read, and the call `keep`, which writes one.
use crate::{State, four, json::Json, sha256};
use overlay::{raw, unpack};

/// Writes the state's table with the listing to an output filled with 0x77, and compares what is answered and written.
pub fn keep(state: &State, listing: &[u8], call: &Json) -> Result<(), String> {
    let mut output = vec![0x77; call.get("out").number() as usize];
    let record: [u64; 4] = state.record.into();
    let answer = four(unpack(raw::write_kept(listing, &state.table, &record, &mut output)));
    let sha = sha256::hex(&output);
    if (answer, sha.as_str()) != (call.get("answer").four(), call.get("out_sha").text()) {
        return Err(format!("{call:?}\ngives {answer:?} {sha}"));
    }
    if answer[0] != 0 && output.iter().any(|byte| *byte != 0x77) {
        return Err(format!("{call:?}\nis refused and changes the output"));
    }
    let written = &output[..answer[3] as usize];
    if call.find("file").is_some_and(|file| file.bytes() != written) {
        return Err(format!("{call:?}\nwrites {written:02x?}"));
    }
    Ok(())
}

/// Reads the vector's `file` into a buffer of `room` bytes filled with 0xAA, and compares what is answered and left; a
/// vector without an answer is accepted. The state after it.
pub fn read(vector: &Json) -> Result<State, String> {
    let file = vector.get("file").bytes();
    let mut table = vec![0xaa; vector.get("room").number() as usize];
    // Numbers that no reading gives.
    let old = ([u64::MAX; 4], [u64::MAX; 2]);
    let (mut record, mut place) = old;
    let answer = four(unpack(raw::read_kept(&file, &mut table, &mut record, &mut place)));
    let told = || format!("{vector:?}\ngives {answer:?} {place:?} {record:?}");
    if answer != vector.find("answer").map_or([0; 4], Json::four) {
        return Err(told());
    }
    if answer[0] != 0 {
        let unchanged = (record, place) == old && table.iter().all(|byte| *byte == 0xaa);
        return if unchanged { Ok(State { table, record: record.into() }) } else { Err(told()) };
    }
    let sha = sha256::hex(&table);
    if (record, sha.as_str()) != (vector.get("record").four(), vector.get("sha").text()) {
        return Err(format!("{} {sha}", told()));
    }
    same_listing(vector, &file, place).map_err(|wrong| format!("{}\n{wrong}", told()))?;
    let listing = &file[place[0] as usize..][..place[1] as usize];
    let mut again = vec![0x77; file.len()];
    let written = four(unpack(raw::write_kept(listing, &table, &record, &mut again)));
    if written != [0, 0, 0, file.len() as u64] || again != file {
        return Err(format!("{}\nand written again {written:?} {again:02x?}", told()));
    }
    Ok(State { table, record: record.into() })
}

/// The place is the one that the vector has, or that of its listing.
fn same_listing(vector: &Json, file: &[u8], place: [u64; 2]) -> Result<(), String> {
    let [start, length] = place.map(|number| number as usize);
    let part = file.get(start..).and_then(|rest| rest.get(..length)).ok_or("the place is not in the file")?;
    let same = match vector.find("place") {
        Some(wanted) => wanted.list().iter().map(Json::number).eq(place),
        None => vector.get("listing").bytes() == part,
    };
    if same { Ok(()) } else { Err("the listing stands elsewhere".into()) }
}
