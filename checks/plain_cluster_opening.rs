//! A plain program that opens what a run of a cluster left, with std's ordered maps and no proof: the yardstick for an
//! opening of all eight files. `plain_cluster_opening FOLDER` reads them as docs/FORMATS.md has them: of a log on two
//! sides the made one with the greatest number, its frames behind open gates one by one, each body field by field, and
//! the keys and values of its records. It keeps what answers a cluster's questions, and prints how much that is. It
//! panics where an entry isn't under its producer's epoch, a transaction is committed twice, a span doesn't begin where
//! its part ended, a task set lacks a task, or a marker has nothing to mark. It makes nothing of damaged files.
#![allow(dead_code)] // of what is kept only counts are asked for here

use std::collections::{BTreeMap, BTreeSet};
use std::fs::File;
use std::io::{BufReader, Read};
use std::path::Path;

mod plain_fields;
use plain_fields::{number, offset_of, Members, Part, Producer, Reader, Tag};

/// What is said of a connector. Tasks wait until a commit makes them the task set; a fence stands with its offset, its
/// number of tasks, the generation that it is for, and the length of the transaction list at its writing.
#[derive(Default)]
struct Connector {
    config: Option<Members>,
    target: Option<String>,
    generation: Option<u64>,
    count: u32,
    tasks: BTreeMap<u32, Members>,
    waiting: BTreeMap<u32, Members>,
    fences: Vec<(u64, u32, Option<u64>, u64)>,
}

/// Offsets that a transaction stored, the place in the list where it was committed, and how it is marked.
#[derive(Default)]
struct Stored {
    offsets: Vec<(Part, u64)>,
    place: Option<u64>,
    mark: Option<bool>,
}

/// Records that a transaction added to a topic, the offset of the first, and how it is marked.
struct Batch {
    first: u64,
    values: Vec<Vec<u8>>,
    mark: Option<bool>,
}

impl Batch {
    fn end(&self) -> u64 {
        self.first + self.values.len() as u64
    }
}

/// What answers a cluster's questions. An offset has its place, so that what waits for a marker undoes no later one.
#[derive(Default)]
struct Opened {
    connectors: BTreeMap<String, Connector>,
    statuses: BTreeMap<String, Members>,
    entries: u64,
    epochs: BTreeMap<Producer, u64>,
    committed: BTreeSet<Tag>,
    parts: BTreeMap<Part, (u64, Option<u64>)>,
    offsets: BTreeMap<Part, (u64, Option<u64>)>,
    stored: BTreeMap<Tag, Stored>,
    topics: BTreeMap<String, Vec<Batch>>,
    unmarked: BTreeMap<Tag, Vec<(String, usize)>>,
}

impl Opened {
    fn take_configs(&mut self, from: &mut Reader<'_>) {
        for _ in 0..from.u32() {
            let (offset, stamp, key, value) = from.record();
            self.take_config(offset, stamp, &key, value);
        }
    }

    fn take_config(&mut self, offset: u64, stamp: u64, key: &str, value: Option<Members>) {
        let words = ["connector-", "task-", "commit-", "target-state-", "tasks-fencing-"];
        let (word, rest) = words.iter().find_map(|word| Some((*word, key.strip_prefix(word)?))).expect("a key");
        let (name, index) = if word == "task-" { rest.rsplit_once('-').expect("an index") } else { (rest, "") };
        let at = self.connectors.entry(name.to_string()).or_default();
        match (word, value) {
            ("connector-", config) => at.config = config,
            ("task-", Some(task)) => drop(at.waiting.insert(number(index), task)),
            ("commit-", Some(tasks)) => {
                (at.generation, at.count) = (Some(offset), number(&tasks["tasks"]));
                assert!((0..at.count).all(|index| at.waiting.contains_key(&index)), "a task set without a task");
                at.tasks.append(&mut at.waiting);
            }
            ("target-state-", None) => at.target = None,
            ("target-state-", Some(mut state)) => at.target = state.remove("state.v2").or(state.remove("state")),
            ("tasks-fencing-", Some(fence)) => {
                at.fences.push((offset, number(&fence["task-count"]), at.generation, stamp));
            }
            _ => panic!("a tombstone at {key}"),
        }
    }

    fn take_statuses(&mut self, from: &mut Reader<'_>) {
        for _ in 0..from.u32() {
            let (_, _, key, status) = from.record();
            let item = key.strip_prefix("status-").expect("a key").to_string();
            self.statuses.insert(item, status.expect("a status"));
        }
    }

    fn take_offsets(&mut self, from: &mut Reader<'_>) {
        let (is_mark, tag) = (from.byte() == 2, from.tag());
        if is_mark {
            self.stored.get_mut(&tag).expect("offsets to mark").mark = Some(from.byte() == 1);
            return;
        }
        let stored = self.stored.entry(tag).or_default();
        for _ in 0..from.u32() {
            let (_, _, key, value) = from.record();
            stored.offsets.push(offset_of(&key, &value.expect("an offset")));
        }
    }

    fn take_entries(&mut self, from: &mut Reader<'_>) {
        for _ in 0..from.u32() {
            match from.byte() {
                1 => *self.epochs.entry(from.producer()).or_insert(0) += 1,
                2 => self.take_commit(from),
                3 => self.take_set(from),
                kind => panic!("an entry of kind {kind}"),
            }
            self.entries += 1;
        }
    }

    fn take_commit(&mut self, from: &mut Reader<'_>) {
        let (tag, _generation) = (from.tag(), from.u64());
        self.judge_epoch(&tag.producer, tag.epoch);
        for _ in 0..from.u32() {
            let (_, end) = self.parts.entry(from.part()).or_insert((0, None));
            assert_eq!(end.unwrap_or(0), from.u64(), "a span that doesn't go on");
            *end = Some(from.u64());
        }
        if let Some(stored) = self.stored.get_mut(&tag) {
            stored.place = Some(self.entries);
            if stored.mark.is_some() {
                self.offsets.extend(stored.offsets.drain(..).map(|(part, to)| (part, (self.entries, Some(to)))));
            }
        }
        assert!(self.committed.insert(tag), "a transaction that is there");
    }

    fn take_set(&mut self, from: &mut Reader<'_>) {
        let (producer, epoch) = (from.producer(), from.u64());
        self.judge_epoch(&producer, epoch);
        for _ in 0..from.u32() {
            let part = from.part();
            let to = (from.byte() == 1).then(|| from.u64());
            self.parts.insert(part.clone(), (to.unwrap_or(0), to));
            self.offsets.insert(part, (self.entries, to));
        }
    }

    fn judge_epoch(&self, producer: &Producer, epoch: u64) {
        assert_eq!(epoch, self.epochs.get(producer).copied().unwrap_or(0), "another epoch");
    }

    fn take_data(&mut self, from: &mut Reader<'_>) {
        let (is_mark, tag) = (from.byte() == 2, from.tag());
        if is_mark {
            let mark = Some(from.byte() == 1);
            for (topic, place) in self.unmarked.remove(&tag).expect("batches to mark") {
                self.topics.get_mut(&topic).unwrap()[place].mark = mark;
            }
            return;
        }
        let topic = from.name();
        let (_part, _from, _to) = (from.part(), from.u64(), from.u64());
        let values = (0..from.u32()).map(|_| from.text().to_vec()).collect();
        let batches = self.topics.entry(topic.clone()).or_default();
        self.unmarked.entry(tag).or_default().push((topic, batches.len()));
        batches.push(Batch { first: batches.last().map_or(0, Batch::end), values, mark: None });
    }

    fn print(&self) {
        let sets = self.connectors.values().filter(|connector| connector.generation.is_some());
        println!("connectors {} tasks {}", sets.clone().count(), sets.map(|connector| connector.count).sum::<u32>());
        println!("statuses {}", self.statuses.len());
        println!("producers {} epochs {}", self.epochs.len(), self.epochs.values().sum::<u64>());
        let ends: u64 = self.parts.values().filter_map(|(_, end)| *end).sum();
        println!("parts {} ends {ends} commits {}", self.parts.len(), self.committed.len());
        let offsets: u64 = self.offsets.values().filter_map(|(_, to)| *to).sum();
        println!("offsets {} sum {offsets} waiting {}", self.offsets.len(), self.stored.len());
        for (name, batches) in &self.topics {
            let committed = batches.iter().filter(|batch| batch.mark == Some(true)).map(|batch| batch.values.len());
            let (end, committed) = (batches.last().map_or(0, Batch::end), committed.sum::<usize>());
            println!("topic {name} records {end} committed {committed}");
        }
    }
}

/// A file of a log of this kind and its number, if it is made.
fn made(path: &Path, kind: u8) -> Option<(u64, BufReader<File>)> {
    let mut file = BufReader::with_capacity(1 << 16, File::open(path).expect("a log"));
    let mut header = Vec::new();
    file.by_ref().take(16).read_to_end(&mut header).expect("a header");
    if header.len() < 2 || header[0] == 0 {
        return None;
    }
    assert_eq!(header[1..8], [b'C', b'W', b'L', 1, kind, 0, 0], "another header");
    Some((u64::from_be_bytes(header[8..].try_into().unwrap()), file))
}

fn next<const N: usize>(file: &mut BufReader<File>) -> [u8; N] {
    let mut bytes = [0; N];
    file.read_exact(&mut bytes).expect("a frame");
    bytes
}

/// Takes each body of a log, and prints how many there are and how long the log is.
fn read_log(folder: &Path, kind: u8, name: &str, sides: &[&str], mut take: impl FnMut(&mut Reader<'_>)) {
    let (mut frames, mut length, mut body) = (0, 17, Vec::new());
    let sides = sides.iter().filter_map(|side| made(&folder.join(side), kind));
    if let Some((_, mut file)) = sides.max_by_key(|(number, _)| *number) {
        while next(&mut file) != [0] {
            body.resize(u32::from_be_bytes(next(&mut file)) as usize, 0);
            file.read_exact(&mut body).expect("a body");
            let mut from = Reader(&body);
            take(&mut from);
            assert!(from.0.is_empty(), "bytes behind the last field");
            (frames, length) = (frames + 1, length + 5 + body.len());
        }
    }
    println!("log {name} frames {frames} bytes {length}");
}

fn main() {
    let path = std::env::args().nth(1).expect("the folder of the logs");
    let (folder, mut all) = (Path::new(&path), Opened::default());
    read_log(folder, 1, "config", &["config_a", "config_b"], |from| all.take_configs(from));
    read_log(folder, 2, "offsets", &["offsets_a", "offsets_b"], |from| all.take_offsets(from));
    read_log(folder, 3, "status", &["status_a", "status_b"], |from| all.take_statuses(from));
    read_log(folder, 4, "transactions", &["txn"], |from| all.take_entries(from));
    read_log(folder, 5, "batches", &["batches"], |from| all.take_data(from));
    all.stored.retain(|_, stored| stored.mark.is_none());
    all.print();
}
