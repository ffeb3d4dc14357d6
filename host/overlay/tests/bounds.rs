//! "A listing has at most 16 MiB"; "The buffer is at most 16 MiB": each at the bound and with one byte more. Opening is
//! in the vectors; here are listings, and calls on tables.
use overlay::raw::{self, Lent};

const BOUND: usize = 16 << 20;

/// A listing of `length` bytes: empty directories side by side, their names of eight digits but for the last one's.
fn listing(length: usize) -> Vec<u8> {
    let count = (length - 9) / 27;
    let mut bytes = b"RDL\x01\x00".to_vec();
    bytes.extend((count as u32).to_le_bytes());
    for i in 1..=count {
        let mut name = format!("{i:08}");
        if i == count {
            name.push_str(&"x".repeat(length - 9 - 27 * count));
        }
        bytes.extend((name.len() as u16).to_le_bytes());
        bytes.push(1);
        bytes.extend([0; 16]);
        bytes.extend(name.bytes());
    }
    assert_eq!(bytes.len(), length);
    bytes
}

#[test]
fn a_listing_has_at_most_16_mib() {
    let (largest, larger) = (listing(BOUND), listing(BOUND + 1));
    assert!(raw::check_listing(&largest));
    assert!(!raw::check_listing(&larger));
    let (table, record) = ([0; 100], [0, 0, 0, 40]);
    assert_eq!(raw::is_dir(&largest, &table, &record, b"00000001"), 1 << 16);
    assert_eq!(raw::is_dir(&larger, &table, &record, b"00000001"), 2);
}

#[test]
fn a_table_buffer_has_at_most_16_mib() {
    for (length, number) in [(BOUND, 0), (BOUND + 1, 1)] {
        let (mut table, mut record, mut work) = (vec![0; length], [0, 0, 0, 40], vec![0x77; length]);
        assert_eq!(raw::check_table(&table, &record), number == 0);
        let mut lent = Lent { table: &mut table, record: &mut record, work: &mut work };
        assert_eq!(raw::mkdir(overlay::EMPTY_LISTING, &mut lent, b"d", false, false, 0, 297), number);
        assert_eq!(record, if number == 0 { [25, 1, 297, 40] } else { [0, 0, 0, 40] });
        assert_eq!(table.iter().all(|byte| *byte == 0), number != 0);
        assert!(work.iter().all(|byte| *byte == if number == 0 { 0 } else { 0x77 }));
    }
}
