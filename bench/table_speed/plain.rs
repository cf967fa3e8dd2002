//! A plain Rust reader of trace tables, which `bench/run table` runs beside `read_trace`. No test,
//! and no part of the gate.
//!
//! It takes fields cut at commas, and no quotes. The names are gathered before the clock starts.
//! What is no row ends it by a panic.

use std::collections::HashMap;
use std::hint::black_box;
use std::time::Instant;
use std::{env, fs};

/// The least time of so many runs is told.
const RUNS: u32 = 5;

const MAX_TIME: u64 = 1_000_000_000_000_000_000;
const MAX_MICRO: u64 = 1_000_000_000;

#[derive(Clone, Copy, PartialEq)]
enum Name {
    Port(u32),
    Action(u32),
}

#[derive(Clone, Copy, PartialEq)]
enum Value {
    Bare,
    Int(i64),
}

#[derive(Clone, Copy, PartialEq)]
enum Step {
    Start,
    Read(Name, Value),
    Write(Name, Value),
    Schedule(Name, Value, u64),
    Stop,
    End,
}

#[derive(Clone, Copy, PartialEq)]
struct Row {
    time: u64,
    microstep: u32,
    worker: u32,
    reaction: u32,
    step: Step,
}

/// The numbers of names.
struct Names<'a> {
    reactions: HashMap<&'a [u8], u32>,
    things: HashMap<&'a [u8], Name>,
}

fn main() {
    let path = env::args().nth(1).expect("plain FILE");
    let text = fs::read(path).expect("a table");
    let names = gather(&text);
    let mut least = u128::MAX;
    let mut count = 0;
    for _ in 0..RUNS {
        let start = Instant::now();
        let rows = read(&names, &text);
        least = least.min(start.elapsed().as_nanos());
        count = black_box(rows).len();
    }
    let speed = text.len() as u128 * 1_000 / least;
    println!("plain {} ms {speed} MB/s", least / 1_000_000);
    println!("rows {count} of {} bytes", std::mem::size_of::<Row>());
    for line in fs::read_to_string("/proc/self/status")
        .expect("a status")
        .lines()
    {
        if line.starts_with("VmHWM") {
            println!("text {} kB, {line}", text.len() / 1_024);
        }
    }
}

/// The records of a text, one after another.
struct Records<'a> {
    text: &'a [u8],
    at: usize,
    ends: Vec<usize>,
}

impl<'a> Records<'a> {
    fn new(text: &'a [u8]) -> Records<'a> {
        Records {
            text,
            at: 0,
            ends: Vec::new(),
        }
    }

    /// The next record that isn't empty, and where its fields end.
    fn next(&mut self) -> Option<(&'a [u8], &[usize])> {
        while self.at < self.text.len() {
            let start = self.at;
            self.ends.clear();
            let mut at = start;
            while at < self.text.len() {
                match self.text[at] {
                    b',' => self.ends.push(at - start),
                    b'\n' => break,
                    b'"' => panic!("a quote"),
                    _ => {}
                }
                at += 1;
            }
            self.ends.push(at - start);
            self.at = at + 1;
            if at > start {
                return Some((&self.text[start..at], &self.ends));
            }
        }
        None
    }
}

fn field<'a>(record: &'a [u8], ends: &[usize], at: usize) -> &'a [u8] {
    let start = if at == 0 { 0 } else { ends[at - 1] + 1 };
    &record[start..ends[at]]
}

/// All names of a table, each kind numbered from 0.
fn gather(text: &[u8]) -> Names<'_> {
    let mut names = Names {
        reactions: HashMap::new(),
        things: HashMap::new(),
    };
    let mut records = Records::new(text);
    records.next();
    while let Some((record, ends)) = records.next() {
        let number = names.reactions.len() as u32;
        names
            .reactions
            .entry(field(record, ends, 4))
            .or_insert(number);
        let number = names.things.len() as u32;
        let name = match field(record, ends, 0) {
            b"schedule" => Name::Action(number),
            _ => Name::Port(number),
        };
        names.things.entry(field(record, ends, 5)).or_insert(name);
    }
    names
}

/// The rows of a table.
fn read(names: &Names<'_>, text: &[u8]) -> Vec<Row> {
    let mut rows = Vec::new();
    let mut records = Records::new(text);
    records.next();
    while let Some((record, ends)) = records.next() {
        assert_eq!(ends.len(), 8);
        rows.push(read_row(names, record, ends).expect("a row"));
    }
    rows
}

fn read_row(names: &Names<'_>, record: &[u8], ends: &[usize]) -> Option<Row> {
    Some(Row {
        time: read_number(field(record, ends, 2), MAX_TIME)?,
        microstep: read_number(field(record, ends, 3), MAX_MICRO)? as u32,
        worker: read_number(field(record, ends, 1), u32::MAX as u64)? as u32,
        reaction: *names.reactions.get(field(record, ends, 4))?,
        step: read_step(names, record, ends)?,
    })
}

fn read_step(names: &Names<'_>, record: &[u8], ends: &[usize]) -> Option<Step> {
    let name = || names.things.get(field(record, ends, 5)).copied();
    let value = || read_value(field(record, ends, 6));
    match field(record, ends, 0) {
        b"start" => Some(Step::Start),
        b"read" => Some(Step::Read(name()?, value()?)),
        b"write" => Some(Step::Write(name()?, value()?)),
        b"schedule" => {
            let delay = read_delay(field(record, ends, 7))?;
            Some(Step::Schedule(name()?, value()?, delay))
        }
        b"stop" => Some(Step::Stop),
        b"end" => Some(Step::End),
        _ => None,
    }
}

fn read_number(field: &[u8], limit: u64) -> Option<u64> {
    if field.is_empty() {
        return None;
    }
    let mut number = 0u64;
    for byte in field {
        if !byte.is_ascii_digit() {
            return None;
        }
        number = number
            .checked_mul(10)?
            .checked_add(u64::from(byte - b'0'))?;
    }
    (number <= limit).then_some(number)
}

fn read_delay(field: &[u8]) -> Option<u64> {
    if field.is_empty() {
        Some(0)
    } else {
        read_number(field, MAX_TIME)
    }
}

fn read_value(field: &[u8]) -> Option<Value> {
    if field.is_empty() {
        return Some(Value::Bare);
    }
    let (negative, digits) = match field.strip_prefix(b"-") {
        Some(rest) => (true, rest),
        None => (false, field),
    };
    if digits.is_empty() {
        return None;
    }
    let mut number = 0i64;
    for byte in digits {
        if !byte.is_ascii_digit() {
            return None;
        }
        let digit = i64::from(byte - b'0');
        number = number.checked_mul(10)?;
        number = if negative {
            number.checked_sub(digit)?
        } else {
            number.checked_add(digit)?
        };
    }
    Some(Value::Int(number))
}
