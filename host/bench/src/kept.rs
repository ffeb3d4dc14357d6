//! How long it takes to write a kept file and to read one, by the size of listing and table, beside one plain pass over
//! the file's bytes. Listing and entries are those of the other measurements; the table buffer is half full.

use std::hint::black_box;

use differential::{
    listing::bytes,
    side::{charge, encoded},
};
use overlay::{KEPT_ENTRY_SIZE, KEPT_OVERHEAD, OverlayMut, OverlayRef, Record};

use crate::{listing, named, pass, short, table, timed};

pub fn rows(sizes: &[usize]) {
    println!(
        "| size | file, bytes | write, us | ns per byte | growth | read, us | ns per byte | growth | plain pass, us |"
    );
    println!("|---|---|---|---|---|---|---|---|---|");
    let mut last: Option<(f64, f64)> = None;
    for size in sizes {
        let lent = bytes(&listing(*size));
        let room = (*size).max(4 << 10);
        let entries = table(room);
        let mut held = encoded(&entries);
        let record = Record {
            used: held.len() as u64,
            count: entries.len() as u64,
            charge: charge(&entries, KEPT_ENTRY_SIZE),
            entry_size: KEPT_ENTRY_SIZE,
        };
        held.resize(room, 0);
        let plan = OverlayRef::new(&held, record);
        let mut file = vec![0; KEPT_OVERHEAD + lent.len() + record.used as usize];
        let rounds = ((16 << 20) / size).clamp(5, 200);
        let write = timed(rounds, || {
            assert_eq!(black_box(plan).keep_into(black_box(&lent), &mut file), Ok(file.len()), "the file is written");
        });
        let (mut buffer, mut again, mut work) = (vec![1; room], Record::default(), Vec::new());
        let read = timed(rounds, || {
            let mut plan = OverlayMut::new(&mut buffer, &mut again, &mut work);
            assert_eq!(plan.read_kept(black_box(&file)), Ok(&lent[..]), "the file is read");
        });
        assert!(buffer == held && again == record, "the same table");
        let growth =
            |now: f64, before: Option<f64>| before.map_or(String::new(), |before| format!("x {}", short(now / before)));
        println!(
            "| {} | {} | {} | {:.2} | {} | {} | {:.2} | {} | {} |",
            named(*size),
            file.len(),
            short(write),
            1000.0 * write / file.len() as f64,
            growth(write, last.map(|(write, _)| write)),
            short(read),
            1000.0 * read / file.len() as f64,
            growth(read, last.map(|(_, read)| read)),
            short(pass(&[&file], rounds.max(20))),
        );
        last = Some((write, read));
    }
}
