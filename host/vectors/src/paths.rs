//! Strings of bytes in the vectors, each with 0 if it is a path and with 3 if it is none.
use crate::{four, json::Json};
use overlay::{EMPTY_LISTING, raw, unpack};

/// Asks over an empty table and an empty listing whether something is visible at the string, and compares: nothing is
/// but the root. The item's number.
pub fn compare(item: &Json) -> Result<u64, String> {
    let [path, number] = item.list() else { return Err(format!("{item:?}\nis no string with its number")) };
    let (path, number) = (path.bytes(), number.number());
    let answer = four(unpack(raw::exists(EMPTY_LISTING, &[], &[0, 0, 0, 40], &path)));
    if answer != [number, 0, 0, path.is_empty().into()] {
        return Err(format!("{item:?}\ngives {answer:?}"));
    }
    Ok(number)
}

#[cfg(test)]
mod tests {
    use crate::{Counts, replay};

    #[test]
    fn strings_are_held_to_the_library() {
        let items = |items: &str| replay(&format!(r#"{{"t":"paths","items":[{items}]}}"#), &mut Counts::new());
        assert_eq!(items(r#"["",0],["61",0],["c3a9",0],["eda080",3],["c3",3]"#), Ok(()));
        for (item, gives) in
            [(r#"["61",3]"#, "[0, 0, 0, 0]"), (r#"["c3",0]"#, "[3, 0, 0, 0]"), (r#"["",3]"#, "[0, 0, 0, 1]")]
        {
            let difference = items(item).unwrap_err();
            assert!(difference.ends_with(&format!("gives {gives}")), "{difference}");
        }
        assert!(items(r#"["61"]"#).unwrap_err().ends_with("is no string with its number"));
    }
}
