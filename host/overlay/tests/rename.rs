//! Moving a path onto itself: accepted where something is visible, whatever the limit and the room, with every byte of
//! table and record as it was and the work buffer all 0; refused as any rename where a path by itself is; in scripts
//! too.
use overlay::{Mkdir, Overlay, OverlayMut, Record, Refusal, Script};

const FREE: u64 = u64::MAX;

/// `a` directory, `a/f` file of 5 bytes, `a/l` and `l` links, `z` file of no bytes.
fn listing() -> Vec<u8> {
    let mut bytes = b"RDL\x01\x00\x05\x00\x00\x00".to_vec();
    for (path, kind, size) in [("a", 1, 0u64), ("a/f", 2, 5), ("a/l", 3, 0), ("l", 3, 0), ("z", 2, 0)] {
        bytes.extend([path.len() as u8, 0, kind]);
        bytes.extend([0; 8]);
        bytes.extend(size.to_le_bytes());
        bytes.extend(path.as_bytes());
    }
    bytes
}

/// What a move of the path onto itself answers, at this limit, on copies of table and record. Accepted or refused, it
/// changes neither; accepted, it leaves the work buffer all 0, and refused, as it was.
fn onto_itself(plan: &Overlay, path: &str, limit: u64) -> Result<(), Refusal> {
    let (mut table, mut record, mut work) = (plan.table().to_vec(), plan.record(), vec![0x77; plan.table().len()]);
    let answer = OverlayMut::new(&mut table, &mut record, &mut work).rename(&listing(), path, path, limit);
    assert_eq!((&table[..], record), (plan.table(), plan.record()), "{path}");
    let byte = if answer.is_ok() { 0 } else { 0x77 };
    assert!(work.iter().all(|left| *left == byte), "{path}");
    answer
}

#[test]
fn accepted_whatever_the_limit() {
    let mut plan = Overlay::open(512, 40).unwrap();
    let check = |plan: &Overlay, paths: &[&str]| {
        for path in paths {
            for limit in [0, 1, plan.record().charge, FREE] {
                assert_eq!(onto_itself(plan, path, limit), Ok(()), "{path} at {limit}");
            }
        }
    };
    check(&plan, &["a", "a/f", "z"]);
    plan.write_bytes(&listing(), "n", b"hi", 1.0, FREE).unwrap();
    plan.mkdir(&listing(), "d", Mkdir::default(), 1.0, FREE).unwrap();
    plan.rename(&listing(), "a/f", "d/g", FREE).unwrap();
    check(&plan, &["a", "d", "d/g", "n", "z"]);
}

#[test]
fn refused_as_any_rename() {
    let mut plan = Overlay::open(512, 40).unwrap();
    plan.unlink(&listing(), "z", FREE).unwrap();
    for (path, refusal) in [
        ("", Refusal::LinkOrRoot { path: 0, len: 0 }),
        ("l", Refusal::LinkOrRoot { path: 1, len: 1 }),
        ("a/l", Refusal::LinkOrRoot { path: 1, len: 3 }),
        ("l/x", Refusal::LinkOrRoot { path: 1, len: 3 }),
        ("z/n", Refusal::NotFound { path: 1, len: 3 }),
        ("z", Refusal::NotFound { path: 0, len: 1 }),
        ("q", Refusal::NotFound { path: 0, len: 1 }),
        ("a/", Refusal::MalformedPath { path: 0 }),
    ] {
        for limit in [0, FREE] {
            assert_eq!(onto_itself(&plan, path, limit), Err(refusal), "{path} at {limit}");
        }
    }
}

/// A table buffer that the entries fill, one that has no bytes, and a work buffer that is too short.
#[test]
fn whatever_the_room() {
    let full = Overlay::run_new(26, 40, &listing(), &written()).unwrap().0;
    assert_eq!(full.record(), Record { used: 26, count: 1, charge: 313, entry_size: 40 });
    assert_eq!(onto_itself(&full, "n", 0), Ok(()));
    assert_eq!(onto_itself(&full, "a", 0), Ok(()));
    assert_eq!(onto_itself(&Overlay::open(0, 0).unwrap(), "z", 0), Ok(()));

    let ((mut table, mut record), mut work) = (full.into_parts(), [0; 25]);
    let mut lent = OverlayMut::new(&mut table, &mut record, &mut work);
    assert_eq!(lent.rename(&listing(), "n", "n", FREE), Err(Refusal::MalformedTable));
}

fn written() -> Script {
    let mut script = Script::new();
    script.write_bytes("n", b"x", 1.0, FREE);
    script
}

#[test]
fn in_a_script() {
    let mut script = written();
    script.rename("n", "n", 0);
    script.rename("a", "a", 0);
    script.rename("q", "q", FREE);
    let (plan, rows) = Overlay::run_new(26, 40, &listing(), &script).unwrap();
    let answers: Vec<_> = rows.iter().map(|row| (row.answer, row.charge)).collect();
    assert_eq!(answers, [(Ok(1), 313), (Ok(0), 313), (Ok(0), 313), (Err(Refusal::NotFound { path: 0, len: 1 }), 313)]);
    let before = Overlay::run_new(26, 40, &listing(), &written()).unwrap().0;
    assert_eq!((plan.table(), plan.record()), (before.table(), before.record()));
}
