//! What plain_cluster_opening.rs reads of a body: its fields, and of its records the keys and values, which are JSON.
//! It panics at what is none of these.
use std::collections::BTreeMap;

#[derive(PartialEq, Eq, PartialOrd, Ord)]
pub enum Producer {
    Leader,
    Task(String, u32),
    Script(u32),
}

#[derive(Clone, PartialEq, Eq, PartialOrd, Ord)]
pub enum Part {
    Script(u32),
    File(String, String),
    Sequence(String, u32),
    Sink(String, String),
}

/// A transaction: its number stands first, which keeps those of a table in the order of their making.
#[derive(PartialEq, Eq, PartialOrd, Ord)]
pub struct Tag {
    pub number: u64,
    pub epoch: u64,
    pub producer: Producer,
}

/// What a value says, each text or number under the name of its member; what is null is left out.
pub type Members = BTreeMap<String, String>;

/// The bytes of one body, or of one text, that are still to be read.
pub struct Reader<'a>(pub &'a [u8]);

impl<'a> Reader<'a> {
    pub fn bytes(&mut self, count: usize) -> &'a [u8] {
        let (taken, rest) = self.0.split_at(count);
        self.0 = rest;
        taken
    }

    pub fn byte(&mut self) -> u8 {
        self.bytes(1)[0]
    }

    pub fn u32(&mut self) -> u32 {
        u32::from_be_bytes(self.bytes(4).try_into().unwrap())
    }

    pub fn u64(&mut self) -> u64 {
        u64::from_be_bytes(self.bytes(8).try_into().unwrap())
    }

    pub fn text(&mut self) -> &'a [u8] {
        let length = self.u32() as usize;
        self.bytes(length)
    }

    pub fn name(&mut self) -> String {
        std::str::from_utf8(self.text()).expect("a name").to_string()
    }

    pub fn producer(&mut self) -> Producer {
        match self.byte() {
            1 => Producer::Leader,
            2 => Producer::Task(self.name(), self.u32()),
            3 => Producer::Script(self.u32()),
            kind => panic!("a producer of kind {kind}"),
        }
    }

    pub fn part(&mut self) -> Part {
        match self.byte() {
            1 => Part::Script(self.u32()),
            2 => Part::File(self.name(), self.name()),
            3 => Part::Sequence(self.name(), self.u32()),
            4 => Part::Sink(self.name(), self.name()),
            kind => panic!("a part of kind {kind}"),
        }
    }

    pub fn tag(&mut self) -> Tag {
        let (producer, epoch) = (self.producer(), self.u64());
        Tag { number: self.u64(), epoch, producer }
    }

    /// A record's offset, stamp, key and value, which a tombstone lacks.
    pub fn record(&mut self) -> (u64, u64, String, Option<Members>) {
        let (offset, stamp, key) = (self.u64(), self.u64(), self.name());
        let value = (self.byte() == 1).then(|| members(self.text()));
        (offset, stamp, key, value)
    }

    /// Reads JSON under a name, as the program writes it, without blanks.
    fn json(&mut self, name: String, into: &mut Members) {
        match self.byte() {
            b'"' => drop(into.insert(name, self.quoted())),
            b'[' => self.list(into, |_| String::new()),
            b'{' => self.list(into, Reader::member),
            b'n' => assert_eq!(self.bytes(3), b"ull"),
            digit => {
                let more = self.0.iter().take_while(|byte| byte.is_ascii_digit()).count();
                into.insert(name, String::from_utf8([&[digit], self.bytes(more)].concat()).unwrap());
            }
        }
    }

    fn list(&mut self, into: &mut Members, name: impl Fn(&mut Self) -> String) {
        while !matches!(self.0[0], b']' | b'}') {
            let name = name(self);
            self.json(name, into);
            if self.0[0] == b',' {
                self.byte();
            }
        }
        self.byte();
    }

    fn member(&mut self) -> String {
        assert_eq!(self.byte(), b'"');
        let name = self.quoted();
        assert_eq!(self.byte(), b':');
        name
    }

    /// A text up to its last quote.
    fn quoted(&mut self) -> String {
        let mut text = Vec::new();
        loop {
            match self.byte() {
                b'"' => return String::from_utf8(text).expect("a text"),
                b'\\' => text.push(self.escaped()),
                byte => text.push(byte),
            }
        }
    }

    fn escaped(&mut self) -> u8 {
        match self.byte() {
            b'b' => 8,
            b'f' => 12,
            b'n' => b'\n',
            b'r' => b'\r',
            b't' => b'\t',
            b'u' => u8::from_str_radix(std::str::from_utf8(self.bytes(4)).unwrap(), 16).expect("a control character"),
            byte => byte,
        }
    }
}

fn members(text: &[u8]) -> Members {
    let (mut from, mut members) = (Reader(text), Members::new());
    from.json(String::new(), &mut members);
    assert!(from.0.is_empty(), "bytes behind a value");
    members
}

pub fn number<T: std::str::FromStr>(text: &str) -> T {
    text.parse().ok().expect("a number")
}

/// The part that a key of the offset log names, and the offset that its value tells.
pub fn offset_of(key: &str, value: &Members) -> (Part, u64) {
    let mut key = members(key.as_bytes());
    let connector = key.remove("").expect("a connector");
    if let Some(topic) = key.remove("kafka_topic") {
        return (Part::Sink(connector, topic), number(&value["kafka_offset"]));
    }
    let part = match key.remove("filename") {
        Some(feed) => Part::File(connector, feed),
        None => Part::Sequence(connector, number(&key["sequence"])),
    };
    (part, number(&value["position"]))
}
