//! The call `show` of the vectors, which shows a directory.
use crate::{State, four, json::Json};
use overlay::{raw, unpack};

/// What a vector says and what the library may answer instead, by their numbers, on a table that no call builds and on
/// which the request leaves the answer open: a path without an entry below a listed link that a directory entry covers.
const OTHERWISE: (u64, u64) = (5, 4);

/// Shows the path in an output filled with 0x77: the answer, and the output after it.
fn shown(state: &State, listing: &[u8], call: &Json) -> ([u64; 4], Vec<u8>) {
    let mut output = vec![0x77; call.get("out").number() as usize];
    let record: [u64; 4] = state.record.into();
    let path = call.get("paths").list()[0].bytes();
    (four(unpack(raw::show(listing, &state.table, &record, &path, &mut output))), output)
}

/// Shows the path, and compares what is answered and written.
pub fn show(state: &State, listing: &[u8], call: &Json) -> Result<(), String> {
    let (answer, output) = shown(state, listing, call);
    let mut wanted = vec![if answer[0] == 0 { 0 } else { 0x77 }; output.len()];
    let written = call.get("written").bytes();
    let fits = wanted.get_mut(..written.len()).map(|front| front.copy_from_slice(&written)).is_some();
    if answer != call.get("answer").four() || !fits || output != wanted {
        return Err(format!("{call:?}\ngives {answer:?} and leaves {output:02x?}"));
    }
    Ok(())
}

/// Whether the library gives the other answer that is allowed, with the output as it was.
pub fn answers_otherwise(state: &State, listing: &[u8], call: &Json) -> bool {
    let (answer, output) = shown(state, listing, call);
    let [number, path, length, value] = call.get("answer").four();
    (number, answer) == (OTHERWISE.0, [OTHERWISE.1, path, length, value]) && output.iter().all(|byte| *byte == 0x77)
}
