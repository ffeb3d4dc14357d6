//! The port gives the sample: every script of sample.bin is replayed, and must leave the report and the entries there.

use std::rc::Rc;

use differential::{
    monty_fs::entry_size,
    port::Port,
    side::{Answer, Call, Op, Side, encoded},
};

/// Bytes that are taken one part after another.
struct Reader<'a>(&'a [u8]);

impl<'a> Reader<'a> {
    fn take(&mut self, length: usize) -> &'a [u8] {
        let (part, rest) = self.0.split_at(length);
        self.0 = rest;
        part
    }

    /// A number of `width` bytes.
    fn number(&mut self, width: usize) -> u64 {
        self.take(width).iter().rev().fold(0, |number, byte| number << 8 | u64::from(*byte))
    }

    fn length(&mut self, width: usize) -> usize {
        self.number(width) as usize
    }

    fn text(&mut self, length: usize) -> String {
        String::from_utf8(self.take(length).to_vec()).expect("a path in UTF-8")
    }

    /// A step of a script: the call and its mtime.
    fn step(&mut self) -> (Call, u64) {
        let (kind, flags) = (self.number(1), self.number(1));
        let (first, second) = (self.length(2), self.length(4));
        let (mtime, limit) = (self.number(8), self.number(8));
        let path = self.text(first);
        let op = match kind {
            1 => Op::Write { data: self.take(second).to_vec() },
            2 => Op::Mkdir { parents: flags & 1 != 0, exist_ok: flags & 2 != 0 },
            3 => Op::Unlink,
            4 => Op::Rmdir,
            5 => Op::Rename { to: self.text(second) },
            _ => panic!("no kind {kind}"),
        };
        (Call::new(op, &path).at(limit), mtime)
    }

    /// A row of a report: the answer and the charge.
    fn row(&mut self) -> (Answer, u64) {
        let (number, path) = (self.number(8) as u8, self.number(8) as u8);
        (Answer { number, path, value: self.number(8) }, self.number(8))
    }
}

/// Replays one list; the number of its calls.
fn replay(sample: &mut Reader) -> u64 {
    let lengths = [(); 4].map(|()| sample.length(4));
    let [listing, script, report, table] = lengths.map(|length| sample.take(length));
    let (mut script, mut report) = (Reader(script), Reader(report));
    let mut port = Port::new(&Rc::new(listing.to_vec()), entry_size(), 1 << 12);
    assert_eq!(script.take(4), b"TSC1");
    let count = script.number(4);
    for _ in 0..count {
        let (call, mtime) = script.step();
        assert_eq!((port.call(&call, mtime), port.charge()), report.row(), "{call}");
    }
    assert!(script.0.is_empty() && report.0.is_empty(), "bytes behind the last call");
    assert_eq!(encoded(&port.entries()), table);
    count
}

#[test]
fn the_port_gives_the_sample() {
    let mut sample = Reader(include_bytes!("../sample.bin"));
    assert_eq!((entry_size(), sample.take(4)), (40, &b"TSS1"[..]));
    let calls: u64 = (0..sample.number(4)).map(|_| replay(&mut sample)).sum();
    assert!(sample.0.is_empty(), "bytes behind the last list");
    assert_eq!(calls, 250);
}
