//! The call `least` of the vectors, which tells what would let a rename through.
use crate::{State, four, json::Json};
use overlay::{raw, unpack};

/// The two numbers before the call; no rename needs them.
const BEFORE: [u64; 2] = [u64::MAX, u64::MAX];

/// The limit and the length that a vector has, or none: never one without the other.
fn numbers(call: &Json) -> Result<Option<[u64; 2]>, String> {
    match [call.get("least_limit"), call.get("least_room")] {
        [Json::Null, Json::Null] => Ok(None),
        [Json::Null, _] | [_, Json::Null] => Err(format!("{call:?}\nhas one number without the other")),
        both => Ok(Some(both.map(Json::number))),
    }
}

/// Asks for the two numbers, and compares what is answered and written, and that nothing else is changed. Where a
/// vector has numbers, the value must be 1; its own answer has 0 there.
pub fn least(state: &State, listing: &[u8], call: &Json) -> Result<(), String> {
    let [number, path, length, value] = call.get("answer").four();
    let (wanted, left) = match (number, numbers(call)?) {
        (0, Some(both)) => ([0, path, length, 1], both),
        (0, None) => ([0, path, length, 0], [0, 0]),
        (_, None) => ([number, path, length, value], BEFORE),
        (_, Some(_)) => return Err(format!("{call:?}\nis refused and has numbers")),
    };
    let (table, record, mut least) = (state.table.clone(), <[u64; 4]>::from(state.record), BEFORE);
    let paths: Vec<Vec<u8>> = call.get("paths").list().iter().map(Json::bytes).collect();
    let answer = four(unpack(raw::least_rename(listing, &table, &record, &paths[0], &paths[1], &mut least)));
    if answer != wanted || least != left {
        return Err(format!("{call:?}\ngives {answer:?} {least:?}"));
    }
    if table != state.table || record != <[u64; 4]>::from(state.record) {
        return Err(format!("{call:?}\nchanges table or record"));
    }
    Ok(())
}

#[cfg(test)]
mod tests {
    use crate::{Counts, replay};

    #[test]
    fn numbers_are_held_to_the_library() {
        let file = include_str!("../least.jsonl");
        let numbers = r#""least_limit":"2751","least_room":221"#;
        let line = file.lines().find(|line| line.contains(numbers)).expect("a run with these numbers");
        let changed = |to: &str| replay(&line.replacen(numbers, to, 1), &mut Counts::new());
        assert_eq!(changed(numbers), Ok(()));
        for other in [("\"2750\"", "221"), ("\"2752\"", "221"), ("\"2751\"", "220"), ("\"0\"", "0"), ("null", "null")] {
            let difference = changed(&format!(r#""least_limit":{},"least_room":{}"#, other.0, other.1)).unwrap_err();
            assert!(difference.contains("gives [0, 0, 0, 1] [2751, 221]"), "{difference}");
        }
        assert!(changed(r#""least_limit":"2751","least_room":null"#).unwrap_err().contains("without the other"));

        let none = r#""paths":["","62"],"answer":[0,0,0,0],"least_limit":null,"least_room":null"#;
        let line = file.lines().find(|line| line.contains(none)).expect("a run with none for the root");
        let given = none.replace("null", "0");
        let difference = replay(&line.replacen(none, &given, 1), &mut Counts::new()).unwrap_err();
        assert!(difference.contains("gives [0, 0, 0, 0] [0, 0]"), "{difference}");
    }
}
