//! A plain Rust judge, which `bench/run judge` runs beside `lftrace judge`: what a programmer writes
//! who wants its answers and no proof. No test, and no part of the gate.
//!
//! It reads the trace as a stream, keeps the runs of one tag and what is due later, and answers
//! where the last row was read. A program that is refused, or a table with a fault, ends it with
//! status 2 and no such line as `lftrace` has.

mod agenda;
mod program;
mod table;
mod tree;

use agenda::{Agenda, Event, Value};
use program::{Kind, Program, Tag, read_program};
use std::collections::HashMap;
use std::{env, fs, panic, process};
use table::{Names, Records, Row, Step, read_externals};

const RULES: [&str; 11] = [
    "",
    "late",
    "after-stop",
    "order",
    "undeclared",
    "unended",
    "collision",
    "not-run",
    "not-triggered",
    "too-early",
    "wrong-read",
];

/// What breaks a rule.
#[derive(Clone, Copy)]
struct Breach {
    rule: usize,
    line: usize,
    tag: Tag,
    reaction: usize,
}

/// A run of the tag whose rows are read.
#[derive(Default)]
struct Run {
    reaction: usize,
    start: usize,
    end: usize,
    /// How many inputs it read, how many are present, and how many it read with their values.
    reads: usize,
    present: usize,
    matched: usize,
}

struct Open {
    tag: Tag,
    reaction: usize,
    start: usize,
    run: usize,
}

/// What was last seen at a source, a port, a reaction or an input: the number of the tag at which
/// it was tells whether it counts.
#[derive(Clone, Copy, Default)]
struct Seen<T> {
    at: usize,
    what: T,
}

struct Judge<'a> {
    program: &'a Program,
    agenda: Agenda<'a>,
    stop: Tag,
    /// The greatest tag so far, and how many there were.
    tag: Tag,
    number: usize,
    open: HashMap<u32, Open>,
    runs: Vec<Run>,
    /// The runs in order of their ends.
    ended: Vec<usize>,
    written: Vec<(usize, Value)>,
    present: Vec<(usize, Value)>,
    ran: Vec<Seen<usize>>,
    triggered: Vec<usize>,
    occurred: Vec<usize>,
    written_at: Vec<Seen<usize>>,
    read: Vec<Seen<Value>>,
    end_before: Vec<Seen<usize>>,
    run_count: usize,
    tag_count: usize,
    row_breach: Option<Breach>,
    tag_breach: Option<Breach>,
}

impl<'a> Judge<'a> {
    fn new(program: &'a Program, events: Vec<Event>, stop: Tag) -> Judge<'a> {
        Judge {
            program,
            agenda: Agenda::new(program, events),
            stop,
            tag: Tag::default(),
            number: 1,
            open: HashMap::new(),
            runs: Vec::new(),
            ended: Vec::new(),
            written: Vec::new(),
            present: Vec::new(),
            ran: vec![Seen::default(); program.reactions.len()],
            triggered: vec![0; program.reactions.len()],
            occurred: vec![0; program.sources.len()],
            written_at: vec![Seen::default(); program.things.len()],
            read: vec![Seen::default(); program.slots],
            end_before: vec![Seen::default(); program.reactions.len()],
            run_count: 0,
            tag_count: 0,
            row_breach: None,
            tag_breach: None,
        }
    }

    fn row(&mut self, line: usize, row: &Row) {
        if let Step::Stop = row.step {
            self.stop = self.stop.min(row.tag.after(0));
        }
        if self.row_breach.is_none() {
            let rule = self.take(line, row);
            self.row_breach = rule.map(|rule| Breach {
                rule,
                line,
                tag: row.tag,
                reaction: row.reaction,
            });
        }
        // After a breach, and by it, what is open may still end.
        if self.row_breach.is_some()
            && let Step::End = row.step
            && self.is_open(row)
        {
            self.open.remove(&row.worker);
        }
    }

    fn is_open(&self, row: &Row) -> bool {
        let open = self.open.get(&row.worker);
        open.is_some_and(|open| open.tag == row.tag && open.reaction == row.reaction)
    }

    /// Takes a row, or gives the first of the rules 1 to 4 that it breaks.
    fn take(&mut self, line: usize, row: &Row) -> Option<usize> {
        if row.tag < self.tag {
            return Some(1);
        }
        if row.tag > self.stop {
            return Some(2);
        }
        if row.tag > self.tag {
            self.finish_until(row.tag);
            self.tag = row.tag;
        }
        if let Step::Start = row.step {
            return self.start(line, row);
        }
        if !self.is_open(row) {
            return Some(3);
        }
        let is_declared = match row.step {
            Step::Read(thing, value) => self.read(row.reaction, thing, value),
            Step::Write(thing, value) => self.write(row.reaction, thing, value),
            Step::Schedule(thing, value, extra) => self.schedule(row, thing, value, extra),
            Step::Start | Step::Stop | Step::End => true,
        };
        if let Step::End = row.step {
            let run = self.open.remove(&row.worker)?.run;
            self.runs[run].end = line;
            self.ended.push(run);
        }
        (!is_declared).then_some(4)
    }

    fn start(&mut self, line: usize, row: &Row) -> Option<usize> {
        if self.ran[row.reaction].at == self.number || self.open.contains_key(&row.worker) {
            return Some(3);
        }
        let run = self.runs.len();
        self.ran[row.reaction] = Seen {
            at: self.number,
            what: run,
        };
        self.runs.push(Run {
            reaction: row.reaction,
            start: line,
            ..Run::default()
        });
        let open = Open {
            tag: row.tag,
            reaction: row.reaction,
            start: line,
            run,
        };
        self.open.insert(row.worker, open);
        None
    }

    /// Takes a read row, if the reaction has the input and hasn't read it.
    fn read(&mut self, reaction: usize, thing: usize, value: Value) -> bool {
        let inputs = &self.program.reactions[reaction].inputs;
        let Ok(at) = inputs.binary_search_by_key(&thing, |(thing, _)| *thing) else {
            return false;
        };
        let read = &mut self.read[inputs[at].1];
        if read.at == self.number {
            return false;
        }
        *read = Seen {
            at: self.number,
            what: value,
        };
        self.runs[self.ran[reaction].what].reads += 1;
        true
    }

    fn has_effect(&self, reaction: usize, thing: usize) -> bool {
        let effects = &self.program.reactions[reaction].effects;
        effects.binary_search(&thing).is_ok()
    }

    fn write(&mut self, reaction: usize, thing: usize, value: Value) -> bool {
        let is_port = matches!(self.program.things[thing].kind, Kind::Port { .. });
        if !is_port || !self.has_effect(reaction, thing) {
            return false;
        }
        let seen = &mut self.written_at[thing];
        if seen.at == self.number {
            self.written[seen.what].1 = value;
        } else {
            *seen = Seen {
                at: self.number,
                what: self.written.len(),
            };
            self.written.push((thing, value));
        }
        true
    }

    fn schedule(&mut self, row: &Row, thing: usize, value: Value, extra: u64) -> bool {
        let action = &self.program.things[thing];
        match action.kind {
            Kind::Action {
                physical: false,
                minimum,
            } if self.has_effect(row.reaction, thing) => {
                let tag = row.tag.after(minimum + extra);
                self.agenda.put((tag, action.source, value));
                true
            }
            _ => false,
        }
    }

    /// Judges the tag whose rows were read, and those before the later one at which something is due.
    fn finish_until(&mut self, later: Tag) {
        if !self.runs.is_empty() {
            self.finish(self.tag);
        }
        while let Some(tag) = self.agenda.next(self.stop)
            && tag < later
            && self.tag_breach.is_none()
        {
            self.finish(tag);
        }
    }

    fn finish(&mut self, tag: Tag) {
        if self.tag_breach.is_none() {
            let breach = self.first_breach(tag);
            self.tag_breach = breach.map(|(rule, reaction)| Breach {
                rule,
                line: 0,
                tag,
                reaction,
            });
        }
        self.run_count += self.runs.len();
        self.tag_count += usize::from(!self.runs.is_empty());
        self.number += 1;
        self.runs.clear();
        self.ended.clear();
        self.written.clear();
    }

    /// The first of the rules 6 to 10 that is broken at a tag, and the least reaction.
    fn first_breach(&mut self, tag: Tag) -> Option<(usize, usize)> {
        self.find_present(tag);
        for (source, _) in &self.present {
            if std::mem::replace(&mut self.occurred[*source], self.number) == self.number {
                return Some((6, 0));
            }
        }
        if let Some(reaction) = self.least_missing() {
            return Some((7, reaction));
        }
        if let Some(reaction) = self.least(|run| self.triggered[run.reaction] != self.number) {
            return Some((8, reaction));
        }
        if self.may_be_early()
            && let Some(reaction) = self.least_early()
        {
            return Some((9, reaction));
        }
        self.least(|run| run.present != run.matched || run.reads != run.matched)
            .map(|reaction| (10, reaction))
    }

    fn least(&self, breaks: impl Fn(&Run) -> bool) -> Option<usize> {
        let broken = self.runs.iter().filter(|run| breaks(run));
        broken.map(|run| run.reaction).min()
    }

    /// Finds what is present at a tag, and puts what is delayed on the agenda.
    fn find_present(&mut self, tag: Tag) {
        self.present.clear();
        self.agenda.take(tag, self.stop, &mut self.present);
        for (thing, value) in &self.written {
            let Kind::Port { feeds } = &self.program.things[*thing].kind else {
                continue;
            };
            for (delays, source) in feeds {
                if *delays == Tag::default() {
                    self.present.push((*source, *value));
                } else {
                    self.agenda.put((tag.plus(*delays), *source, *value));
                }
            }
        }
    }

    /// Marks the reactions that are triggered, counts what the runs were to read, and gives the
    /// least reaction that is triggered and has no run.
    fn least_missing(&mut self) -> Option<usize> {
        let mut least: Option<usize> = None;
        for (source, value) in &self.present {
            for reader in &self.program.sources[*source].readers {
                let ran = self.ran[reader.reaction];
                if reader.triggers {
                    self.triggered[reader.reaction] = self.number;
                }
                if ran.at == self.number {
                    let Some(slot) = reader.slot else { continue };
                    let read = self.read[slot];
                    let run = &mut self.runs[ran.what];
                    run.present += 1;
                    run.matched += usize::from(read.at == self.number && read.what == *value);
                } else if reader.triggers {
                    least = Some(least.unwrap_or(reader.reaction).min(reader.reaction));
                }
            }
        }
        least
    }

    /// Whether a run of a lesser level ended after the start of one of a greater level. If none
    /// did, no run is too early.
    fn may_be_early(&self) -> bool {
        let level = |run: &Run| self.program.reactions[run.reaction].level;
        let mut ended = self
            .ended
            .iter()
            .rev()
            .map(|run| &self.runs[*run])
            .peekable();
        let mut least = usize::MAX;
        self.runs.iter().rev().any(|run| {
            while let Some(later) = ended.next_if(|later| later.end > run.start) {
                least = least.min(level(later));
            }
            least < level(run)
        })
    }

    fn least_early(&mut self) -> Option<usize> {
        let mut least: Option<usize> = None;
        for run in 0..self.runs.len() {
            let Run {
                reaction, start, ..
            } = self.runs[run];
            if self.end_before(reaction) > start {
                least = Some(least.unwrap_or(reaction).min(reaction));
            }
        }
        least
    }

    /// The greatest line at which a run ended that precedes a reaction.
    fn end_before(&mut self, reaction: usize) -> usize {
        if self.end_before[reaction].at != self.number {
            let mut greatest = 0;
            for before in &self.program.reactions[reaction].before {
                let ran = self.ran[*before];
                if ran.at == self.number {
                    greatest = greatest.max(self.runs[ran.what].end);
                }
                greatest = greatest.max(self.end_before(*before));
            }
            self.end_before[reaction] = Seen {
                at: self.number,
                what: greatest,
            };
        }
        self.end_before[reaction].what
    }

    /// The first breach, once all rows were taken.
    fn end(&mut self) -> Option<Breach> {
        let unended = self.open.values().min_by_key(|open| open.start);
        let unended = unended.map(|open| Breach {
            rule: 5,
            line: open.start,
            tag: open.tag,
            reaction: open.reaction,
        });
        let first = self
            .row_breach
            .into_iter()
            .chain(unended)
            .min_by_key(|breach| breach.line);
        if first.is_none() {
            self.finish_until(Tag {
                time: u64::MAX,
                micro: u64::MAX,
            });
        }
        first.or(self.tag_breach)
    }
}

fn tell(program: &Program, breach: &Breach) {
    let name = &program.reactions[breach.reaction].name;
    let Breach {
        rule,
        line,
        tag: Tag { time, micro },
        ..
    } = breach;
    let rule_name = RULES[*rule];
    let tag = format!("time={time} microstep={micro}");
    match rule {
        1..=5 => println!("broken rule={rule} {rule_name} line={line} {tag} reaction={name}"),
        6 => println!("broken rule=6 collision {tag} (outside the profile)"),
        _ => println!("broken rule={rule} {rule_name} {tag} reaction={name}"),
    }
}

/// Judges the rows of a file, up to the least stop that is known before.
fn judge<'a>(program: &'a Program, events: Vec<Event>, stop: Tag, path: &str) -> Judge<'a> {
    let mut judge = Judge::new(program, events, stop);
    let mut names = Names::of(program);
    let header = "event,worker,time,microstep,reaction,name,value,delay";
    let mut records = Records::open(path, header);
    let mut line = 1;
    while records.next() {
        line += 1;
        judge.row(line, &names.row(&records));
    }
    judge
}

fn main() {
    panic::set_hook(Box::new(|fault| {
        eprintln!("fault {fault}");
        process::exit(2);
    }));
    let paths: Vec<_> = env::args().skip(1).collect();
    let [program, externals, trace] = &paths[..] else {
        panic!("plain PROGRAM EXTERNALS TRACE");
    };
    let program = read_program(&String::from_utf8_lossy(
        &fs::read(program).expect("a program"),
    ));
    let (events, stop) = read_externals(&program, &Names::of(&program), externals);
    let mut judged = judge(&program, events, stop, trace);
    let mut breach = judged.end();
    if judged.row_breach.is_some() && judged.stop < stop {
        // A stop row below a breach may put rows above it after the stop.
        let (events, _) = read_externals(&program, &Names::of(&program), externals);
        judged = judge(&program, events, judged.stop, trace);
        breach = judged.end();
    }
    match breach {
        None => println!(
            "accepted runs={} tags={}",
            judged.run_count, judged.tag_count
        ),
        Some(breach) => tell(&program, &breach),
    }
    process::exit(i32::from(breach.is_some()));
}
