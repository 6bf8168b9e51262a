//! A plain program that opens a transaction log of scripts' producers or connectors' tasks, with std's ordered maps and no proof: the
//! yardstick for an opening. `plain_opening LOG` reads the log whole, walks its frames, keeps what answers a coordinator's three
//! questions (the epoch of each producer, the end of each part, the committed transactions), and panics where a commit isn't under
//! its producer's epoch or is there already, a script's isn't numbered by its place, or a span doesn't begin where its part ended.
//! It makes nothing of a damaged log.
use std::collections::{BTreeMap, BTreeSet};

/// The bytes of one body that are still to be read.
struct Reader<'a>(&'a [u8]);

impl<'a> Reader<'a> {
    fn bytes(&mut self, count: usize) -> &'a [u8] {
        let (taken, rest) = self.0.split_at(count);
        self.0 = rest;
        taken
    }

    fn byte(&mut self) -> u8 {
        self.bytes(1)[0]
    }

    fn u32(&mut self) -> u32 {
        u32::from_be_bytes(self.bytes(4).try_into().unwrap())
    }

    fn u64(&mut self) -> u64 {
        u64::from_be_bytes(self.bytes(8).try_into().unwrap())
    }

    fn name(&mut self) -> Vec<u8> {
        let length = self.u32() as usize;
        self.bytes(length).to_vec()
    }

    fn producer(&mut self) -> Producer {
        match self.byte() {
            2 => Producer::Task(self.name(), self.u32()),
            3 => Producer::Script(self.u32()),
            kind => panic!("a producer of kind {kind}"),
        }
    }

    fn part(&mut self) -> Part {
        match self.byte() {
            1 => Part::Script(self.u32()),
            2 => Part::File(self.name(), self.name()),
            kind => panic!("a part of kind {kind}"),
        }
    }
}

#[derive(Clone, PartialEq, Eq, PartialOrd, Ord)]
enum Producer {
    Task(Vec<u8>, u32),
    Script(u32),
}

#[derive(PartialEq, Eq, PartialOrd, Ord)]
enum Part {
    Script(u32),
    File(Vec<u8>, Vec<u8>),
}

/// A transaction: its number stands first, which keeps those of a table in the order of their making.
#[derive(PartialEq, Eq, PartialOrd, Ord)]
struct Tag {
    number: u64,
    epoch: u64,
    producer: Producer,
}

/// The epochs, ends and transactions of the entries so far, and their number.
#[derive(Default)]
struct Opened {
    epochs: BTreeMap<Producer, u64>,
    ends: BTreeMap<Part, u64>,
    committed: BTreeSet<Tag>,
    entries: u64,
}

impl Opened {
    fn take_body(&mut self, body: &[u8]) {
        let mut from = Reader(body);
        for _ in 0..from.u32() {
            match from.byte() {
                1 => *self.epochs.entry(from.producer()).or_insert(0) += 1,
                2 => self.take_commit(&mut from),
                kind => panic!("an entry of kind {kind}"),
            }
            self.entries += 1;
        }
        assert!(from.0.is_empty(), "bytes behind the entries");
    }

    fn take_commit(&mut self, from: &mut Reader<'_>) {
        let producer = from.producer();
        let (epoch, number) = (from.u64(), from.u64());
        assert_eq!(Some(&epoch), self.epochs.get(&producer), "another epoch");
        let is_script = matches!(producer, Producer::Script(_));
        assert!(self.committed.insert(Tag { number, epoch, producer }), "a transaction that is there");
        assert!(!is_script || number == self.entries, "another place");
        from.u64();
        for _ in 0..from.u32() {
            let end = self.ends.entry(from.part()).or_insert(0);
            let span = (from.u64(), from.u64());
            assert!(span.0 == *end && span.1 > span.0, "a span that doesn't go on");
            *end = span.1;
        }
    }
}

fn main() {
    let path = std::env::args().nth(1).expect("the path of a log");
    let log = std::fs::read(path).expect("a log");
    let mut opened = Opened::default();
    let mut frames = Reader(&log[16..]);
    while frames.byte() == 1 {
        let length = frames.u32() as usize;
        opened.take_body(frames.bytes(length));
    }
}
