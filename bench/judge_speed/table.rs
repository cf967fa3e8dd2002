//! Reads the two tables, record by record. Any fault ends the reader by a panic.

use crate::agenda::{Event, Value};
use crate::program::{Kind, Program, Tag};
use std::collections::{HashMap, VecDeque};
use std::fs::File;
use std::io::{BufRead, BufReader, Read};

/// The records of a file.
pub struct Records {
    input: BufReader<File>,
    record: Vec<u8>,
    /// Where the fields of the record end.
    ends: Vec<usize>,
    /// All that is left, where a quote or a carriage return was seen.
    odd: Option<VecDeque<(Vec<u8>, Vec<usize>)>>,
}

impl Records {
    /// Reads the header too, which is to be this one.
    pub fn open(path: &str, header: &str) -> Records {
        let file = File::open(path).expect("a table");
        let mut input = BufReader::with_capacity(1 << 16, file);
        let start = input.fill_buf().expect("bytes");
        if start.starts_with(b"\xEF\xBB\xBF") {
            input.consume(3);
        }
        let mut records = Records {
            input,
            record: Vec::new(),
            ends: Vec::new(),
            odd: None,
        };
        assert!(records.next(), "a header");
        assert_eq!(records.ends.len(), header.split(',').count());
        for (at, word) in header.split(',').enumerate() {
            assert_eq!(records.field(at), word.as_bytes());
        }
        records
    }

    /// Whether there is a further record, which is then the one whose fields are told.
    pub fn next(&mut self) -> bool {
        while self.odd.is_none() {
            self.record.clear();
            self.ends.clear();
            let read = self.input.read_until(b'\n', &mut self.record);
            if read.expect("bytes") == 0 {
                return false;
            }
            let ended = self.record.pop_if(|byte| *byte == b'\n');
            let mut is_odd = false;
            for (at, byte) in self.record.iter().enumerate() {
                match byte {
                    b',' => self.ends.push(at),
                    b'"' | b'\r' => is_odd = true,
                    _ => {}
                }
            }
            self.ends.push(self.record.len());
            if is_odd {
                self.record.extend(ended);
                self.input.read_to_end(&mut self.record).expect("bytes");
                self.odd = Some(odd_records(&self.record));
            } else if !self.record.is_empty() {
                return true;
            }
        }
        let next = self.odd.as_mut().and_then(VecDeque::pop_front);
        let found = next.is_some();
        (self.record, self.ends) = next.unwrap_or_default();
        found
    }

    pub fn field(&self, at: usize) -> &[u8] {
        let start = if at == 0 { 0 } else { self.ends[at - 1] + 1 };
        &self.record[start..self.ends[at]]
    }

    fn is_empty(&self, fields: &[usize]) -> bool {
        fields.iter().all(|at| self.field(*at).is_empty())
    }
}

/// The records of a text that may have quotes, each with a byte behind each field.
fn odd_records(text: &[u8]) -> VecDeque<(Vec<u8>, Vec<usize>)> {
    let (mut records, mut record, mut ends) = (VecDeque::new(), Vec::new(), Vec::new());
    let (mut is_quoted, mut is_start, mut is_empty) = (false, true, true);
    let mut bytes = text.iter().copied().peekable();
    while let Some(byte) = bytes.next() {
        let was_start = std::mem::take(&mut is_start);
        match byte {
            b'"' if is_quoted && bytes.next_if_eq(&b'"').is_none() => is_quoted = false,
            b'"' if was_start => is_quoted = true,
            b',' | b'\r' | b'\n' if !is_quoted => {
                is_start = true;
                if byte == b',' || !is_empty {
                    ends.push(record.len());
                    record.push(b',');
                }
                if byte != b',' && !is_empty {
                    records.push_back((std::mem::take(&mut record), std::mem::take(&mut ends)));
                }
                is_empty = byte != b',';
                continue;
            }
            _ => record.push(byte),
        }
        is_empty = false;
    }
    if !is_empty {
        ends.push(record.len());
        records.push_back((record, ends));
    }
    records
}

pub fn number(field: &[u8], limit: u64) -> u64 {
    assert!(!field.is_empty());
    let number = field.iter().fold(0u64, |number, byte| {
        assert!(byte.is_ascii_digit());
        number
            .checked_mul(10)
            .and_then(|n| n.checked_add(u64::from(byte - b'0')))
            .expect("a number")
    });
    assert!(number <= limit);
    number
}

pub fn value(field: &[u8]) -> Value {
    if field.is_empty() {
        return None;
    }
    let digits = field.strip_prefix(b"-").unwrap_or(field);
    let size = number(digits, 1 << 63);
    let signed = if digits.len() < field.len() {
        0i64.checked_sub_unsigned(size)
    } else {
        i64::try_from(size).ok()
    };
    assert!(signed.is_some());
    signed
}

fn tag(records: &Records, first: usize) -> Tag {
    let time = number(records.field(first), 1_000_000_000_000_000_000);
    Tag {
        time,
        micro: number(records.field(first + 1), 1_000_000_000),
    }
}

#[derive(Clone, Copy)]
pub enum Step {
    Start,
    Read(usize, Value),
    Write(usize, Value),
    Schedule(usize, Value, u64),
    Stop,
    End,
}

pub struct Row {
    pub worker: u32,
    pub tag: Tag,
    pub reaction: usize,
    pub step: Step,
}

/// The numbers of a program's names.
pub struct Names<'a> {
    pub reactions: HashMap<&'a [u8], usize>,
    pub things: HashMap<&'a [u8], usize>,
    /// The reaction of the last row, which is often that of the next.
    last: (&'a [u8], usize),
}

impl<'a> Names<'a> {
    pub fn of(program: &'a Program) -> Names<'a> {
        let reactions = program
            .reactions
            .iter()
            .map(|reaction| reaction.name.as_bytes());
        let things = program.things.iter().map(|thing| thing.name.as_bytes());
        let first = program.reactions.first();
        Names {
            reactions: reactions.zip(0..).collect(),
            things: things.zip(0..).collect(),
            last: (first.map_or(b"", |reaction| reaction.name.as_bytes()), 0),
        }
    }

    fn reaction(&mut self, name: &[u8]) -> usize {
        if self.last.0 != name {
            let (name, number) = self.reactions.get_key_value(name).expect("a reaction");
            self.last = (name, *number);
        }
        self.last.1
    }

    pub fn row(&mut self, records: &Records) -> Row {
        assert_eq!(records.ends.len(), 8);
        let worker = number(records.field(1), u64::from(u32::MAX)) as u32;
        let thing = || self.things[records.field(5)];
        let value = || value(records.field(6));
        let (step, empty): (_, &[usize]) = match records.field(0) {
            b"start" => (Step::Start, &[5, 6, 7]),
            b"read" => (Step::Read(thing(), value()), &[7]),
            b"write" => (Step::Write(thing(), value()), &[7]),
            b"schedule" => (
                Step::Schedule(thing(), value(), delay(records.field(7))),
                &[],
            ),
            b"stop" => (Step::Stop, &[5, 6, 7]),
            b"end" => (Step::End, &[5, 6, 7]),
            _ => panic!("no event"),
        };
        assert!(records.is_empty(empty));
        Row {
            worker,
            tag: tag(records, 2),
            reaction: self.reaction(records.field(4)),
            step,
        }
    }
}

fn delay(field: &[u8]) -> u64 {
    if field.is_empty() {
        0
    } else {
        number(field, 1_000_000_000_000_000_000)
    }
}

/// The events of physical actions, and the stop.
pub fn read_externals(program: &Program, names: &Names<'_>, path: &str) -> (Vec<Event>, Tag) {
    let mut records = Records::open(path, "kind,time,microstep,name,value");
    let (mut events, mut stop) = (Vec::new(), None);
    while records.next() {
        assert_eq!(records.ends.len(), 5);
        let tag = tag(&records, 1);
        match records.field(0) {
            b"event" => {
                let thing = &program.things[names.things[records.field(3)]];
                assert!(matches!(thing.kind, Kind::Action { physical: true, .. }));
                events.push((tag, thing.source, value(records.field(4))));
            }
            b"stop" => assert!(records.is_empty(&[3, 4]) && stop.replace(tag).is_none()),
            _ => panic!("no kind"),
        }
    }
    events.sort_unstable();
    assert!(
        events.is_sorted_by(|a, b| (a.0, a.1) != (b.0, b.1)),
        "one event at a tag"
    );
    (events, stop.expect("a stop"))
}
