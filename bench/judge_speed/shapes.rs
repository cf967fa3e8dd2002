//! Makes the programs and tables that `bench/run judge` measures: `shapes FOLDER ROWS SHAPE` writes
//! `program.lf`, `externals.csv` and `trace.csv` into the folder, and tells how many rows the trace
//! has. With the word `again` after these it writes another recording of the same runs,
//! `again.csv`. No test, and no part of the gate.
//!
//! A shape is a program and how its runs are recorded; what is present and what must run is found
//! by running the program. Each run reads its inputs, writes each of its ports once and schedules
//! each of its actions.

mod agenda;
mod program;
mod tree;

use agenda::{Agenda, Event, Value};
use program::{Kind, Program, Tag, read_program};
use std::collections::BTreeSet;
use std::fs::File;
use std::io::{self, BufWriter, Write};
use std::{env, fs};

/// A program, and how its runs are recorded.
struct Shape {
    program: String,
    /// So many runs of one level start before the first of them ends, each on its own worker.
    workers: usize,
    /// Whether the first run of a tag is the last to end: no other is to wait for it.
    holds_first: bool,
    /// How often an action is scheduled in a run, each time with a further nanosecond of delay.
    schedules: u64,
    /// How many physical actions take turns, with an event each microsecond.
    physical: u64,
}

fn shape(name: &str) -> Option<Shape> {
    Some(Shape {
        program: program_of(name)?,
        workers: match name {
            "dense" | "timers" | "equal" | "token" => 1,
            "wide" => 64,
            "together" => 10_000,
            _ => 4,
        },
        holds_first: name == "overlaps",
        schedules: if name == "schedules" { 10_000 } else { 1 },
        physical: if name == "events" { 100 } else { 0 },
    })
}

fn program_of(name: &str) -> Option<String> {
    let none = |_| String::new();
    Some(match name {
        "dense" => "main reactor { timer t(0, 1 ns)  reaction(t) {= =} }\n".to_string(),
        "wide" => {
            let reactions = lines(0..10_000, |_| "reaction(t) {= =}".to_string());
            format!("main reactor {{\ntimer t(0, 1 ms)\n{reactions}}}\n")
        }
        "sparse" => {
            let times = |k| format!("a = {} us, b = {} us", 10_007 + k, 15_007 + k);
            parts(TWO_TIMERS, 5_000, times, "")
        }
        "pipelines" => pipelines(),
        "events" => parts(KEY, 100, none, ""),
        "mixed" => mixed(),
        "triggers" => many_inputs("y", |_| "y".to_string(), &list("x"), ""),
        "reads" => many_inputs(&list("y"), |k| format!("y{k}"), "t", &list("x")),
        "together" => parts(TIMED, 9_999, none, "timer t(0, 1 ms)  reaction(t) {= =}\n"),
        "schedules" => SCHEDULES.to_string(),
        "timers" => timers(|k| format!("{k} ns, 10 us")),
        "equal" => timers(|_| "0, 1 ns".to_string()),
        "token" => token(),
        "overlaps" => {
            let more = "timer t(0, 1 us)  reaction(t) {= =}\n";
            parts(TWO_REACTIONS, 4_999, |k| format!("offset = {k} us"), more)
        }
        _ => return None,
    })
}

const TWO_TIMERS: &str = "\
reactor Part(a: time = 1 us, b: time = 1 us) {
  timer s(0, a)  timer t(0, b)
  reaction(s) {= =}
  reaction(t) {= =}
}
";

const KEY: &str = "\
reactor Part { physical action key: int  output y: int  reaction(key) -> y {= =} }
";

const TIMED: &str = "reactor Part { timer t(0, 1 ms)  reaction(t) {= =} }\n";

const TWO_REACTIONS: &str = "\
reactor Part(offset: time = 0) {
  timer t(offset, 4999 us)
  reaction(t) {= =}
  reaction(t) {= =}
}
";

const SCHEDULES: &str = "\
main reactor {
  timer t(0, 20 us)  logical action later(1 us): int
  reaction(t) -> later {= =}
  reaction(later) {= =}
}
";

const STAGES: &str = "\
reactor Source(period: time = 1 ms) {
  timer t(0, period)  output y: int
  reaction(t) -> y {= =}
}
reactor Part { input x: int  output y: int  reaction(x) -> y {= =} }
";

const MIXED: &str = "\
reactor Part {
  input x: int  input y: int  output out: int  output late: int
  logical action again: int  timer t(0, 1 ms)
  reaction(t, x) y -> out, again {= =}
  reaction(again) -> late {= =}
}
";

const RING: &str = "\
reactor First { input x: int  output y: int  reaction(startup, x) -> y {= =} }
reactor Part { input x: int  output y: int  reaction(x) -> y {= =} }
";

fn lines(numbers: std::ops::Range<u64>, line: impl Fn(u64) -> String) -> String {
    numbers.map(|k| line(k) + "\n").collect()
}

/// A thousand names.
fn list(prefix: &str) -> String {
    let names: Vec<_> = (0..1_000).map(|k| format!("{prefix}{k}")).collect();
    names.join(", ")
}

/// A main reactor with so many instances of one reactor, and more.
fn parts(part: &str, count: u64, times: impl Fn(u64) -> String, more: &str) -> String {
    let instances = lines(0..count, |k| format!("p{k} = new Part({})", times(k)));
    format!("{part}main reactor {{\n{instances}{more}}}\n")
}

/// Ten pipelines of ten stages. The first connection is delayed, and then each second one.
fn pipelines() -> String {
    let connect = |line, stage| {
        let next = stage + 1;
        let delay = match stage % 2 {
            0 => String::new(),
            _ => format!(" after {} us", 10 * stage),
        };
        format!("p{line}_{stage}.y -> p{line}_{next}.x{delay}")
    };
    let main = lines(0..10, |line| {
        let period = 1_000 + line;
        let stages = lines(0..9, |stage| format!("p{line}_{stage} = new Part()"));
        let connections = lines(0..8, |stage| connect(line, stage));
        format!(
            "s{line} = new Source(period = {period} us)\n{stages}\
             s{line}.y -> p{line}_0.x after 100 us\n{connections}"
        )
    });
    format!("{STAGES}main reactor {{\n{main}}}\n")
}

/// Forty instances that read and write ports with and without delay, and schedule.
fn mixed() -> String {
    let connections = lines(0..39, |k| {
        let next = k + 1;
        format!("p{k}.out -> p{next}.y\np{k}.late -> p{next}.x after 1 ms")
    });
    parts(MIXED, 40, |_| String::new(), &connections)
}

/// An instance with a thousand inputs, and one that writes what is connected to them.
fn many_inputs(
    outputs: &str,
    output: impl Fn(u64) -> String,
    triggers: &str,
    uses: &str,
) -> String {
    let declared = outputs.replace(", ", "  output ");
    let inputs = lines(0..1_000, |k| format!("input x{k}: int"));
    let connections = lines(0..1_000, |k| format!("from.{} -> to.x{k}", output(k)));
    format!(
        "reactor From {{\ntimer t(0, 1 ms)  output {declared}\nreaction(t) -> {outputs} {{= =}}\n}}\n\
         reactor To {{\n{inputs}timer t(0, 1 ms)\nreaction({triggers}) {uses} {{= =}}\n}}\n\
         main reactor {{\nfrom = new From()  to = new To()\n{connections}}}\n"
    )
}

/// One reaction with ten thousand timers.
fn timers(times: impl Fn(u64) -> String) -> String {
    let timers = lines(0..10_000, |k| format!("timer t{k}({})", times(k)));
    let names: Vec<_> = (0..10_000).map(|k| format!("t{k}")).collect();
    let triggers = names.join(", ");
    format!("main reactor {{\n{timers}reaction({triggers}) {{= =}}\n}}\n")
}

/// A ring of 9,999 instances, in which one message goes round.
fn token() -> String {
    let ring = lines(0..9_997, |k| format!("p{k}.y -> p{}.x after 1 us", k + 1));
    let more = format!(
        "first = new First()\nfirst.y -> p0.x after 1 us\n\
         {ring}p9997.y -> first.x after 1 us\n"
    );
    parts(RING, 9_998, |_| String::new(), &more)
}

/// What is written to a thing at a tag, or scheduled: the same in each recording.
fn value_at(tag: Tag, thing: usize) -> i64 {
    (tag.time + tag.micro) as i64 % 1_000_003 * 7 - 1_000 + thing as i64
}

/// What is present at a tag, and which reactions are still to run there, by level.
struct Now {
    tag: Tag,
    values: Vec<(Tag, Value)>,
    due: BTreeSet<(usize, usize)>,
    rows: usize,
    text: Vec<u8>,
}

impl Now {
    fn put(&mut self, program: &Program, source: usize, value: Value) {
        self.values[source] = (self.tag, value);
        for reader in &program.sources[source].readers {
            if reader.triggers {
                self.due
                    .insert((program.reactions[reader.reaction].level, reader.reaction));
            }
        }
    }

    fn row(&mut self, event: &str, worker: usize, reaction: &str, rest: &str) -> io::Result<()> {
        self.rows += 1;
        let Tag { time, micro } = self.tag;
        writeln!(
            self.text,
            "{event},{worker},{time},{micro},{reaction},{rest}"
        )
    }
}

struct Recorder<'a> {
    program: &'a Program,
    agenda: Agenda<'a>,
    shape: &'a Shape,
    rows: usize,
    runs: usize,
}

const NEVER: Tag = Tag {
    time: u64::MAX,
    micro: 0,
};

impl Recorder<'_> {
    /// The runs of a tag.
    fn run_tag(&mut self, now: &mut Now) -> io::Result<()> {
        let mut present = Vec::new();
        self.agenda.take(now.tag, NEVER, &mut present);
        for (source, value) in present {
            now.put(self.program, source, value);
        }
        let mut held = None;
        while let Some((level, _)) = now.due.first().copied() {
            let mut open: Vec<(usize, usize)> = Vec::new();
            while open.len() < self.shape.workers
                && let Some((_, reaction)) = now.due.first().copied().filter(|due| due.0 == level)
            {
                now.due.pop_first();
                let worker = self.runs % self.shape.workers;
                self.runs += 1;
                self.start(now, worker, reaction)?;
                open.push((worker, reaction));
            }
            if self.shape.holds_first && held.is_none() {
                held = Some(open.remove(0));
            }
            for (worker, reaction) in open {
                now.row("end", worker, &self.program.reactions[reaction].name, ",,")?;
            }
        }
        if let Some((worker, reaction)) = held {
            now.row("end", worker, &self.program.reactions[reaction].name, ",,")?;
        }
        Ok(())
    }

    /// All rows of a run but its end.
    fn start(&mut self, now: &mut Now, worker: usize, number: usize) -> io::Result<()> {
        let program = self.program;
        let reaction = &program.reactions[number];
        now.row("start", worker, &reaction.name, ",,")?;
        for (thing, _) in &reaction.inputs {
            let thing = &program.things[*thing];
            let (at, value) = now.values[thing.source];
            if at == now.tag {
                let value = value.map(|value| value.to_string()).unwrap_or_default();
                let read = format!("{},{value},", thing.name);
                now.row("read", worker, &reaction.name, &read)?;
            }
        }
        for number in &reaction.effects {
            let value = value_at(now.tag, *number);
            let thing = &program.things[*number];
            let effect = format!("{},{value},", thing.name);
            match &thing.kind {
                Kind::Port { feeds } => {
                    now.row("write", worker, &reaction.name, &effect)?;
                    self.write(now, feeds, value);
                }
                Kind::Action { minimum, .. } => {
                    for extra in 0..self.shape.schedules {
                        let delay = if extra == 0 {
                            String::new()
                        } else {
                            extra.to_string()
                        };
                        let effect = format!("{effect}{delay}");
                        now.row("schedule", worker, &reaction.name, &effect)?;
                        let tag = now.tag.after(minimum + extra);
                        self.agenda.put((tag, thing.source, Some(value)));
                    }
                }
            }
        }
        Ok(())
    }

    fn write(&mut self, now: &mut Now, feeds: &[(Tag, usize)], value: i64) {
        for (delays, source) in feeds {
            if *delays == Tag::default() {
                now.put(self.program, *source, Some(value));
            } else {
                let tag = now.tag.plus(*delays);
                self.agenda.put((tag, *source, Some(value)));
            }
        }
    }

    /// Writes the rows of whole tags, one tag at the least, and gives the last tag.
    fn record(&mut self, limit: usize, out: &mut impl Write) -> io::Result<Tag> {
        writeln!(out, "event,worker,time,microstep,reaction,name,value,delay")?;
        let mut last = Tag::default();
        let mut now = Now {
            tag: last,
            values: vec![(NEVER, None); self.program.sources.len()],
            due: BTreeSet::new(),
            rows: 0,
            text: Vec::new(),
        };
        while let Some(tag) = self.agenda.next(NEVER) {
            now.tag = tag;
            self.run_tag(&mut now)?;
            if self.rows > 0 && self.rows + now.rows > limit {
                break;
            }
            out.write_all(&now.text)?;
            last = tag;
            self.rows += std::mem::take(&mut now.rows);
            now.text.clear();
        }
        Ok(last)
    }
}

/// The events of physical actions, by tag.
fn physical_events(program: &Program, shape: &Shape, count: u64) -> Vec<Event> {
    let is_physical = |kind: &Kind| matches!(kind, Kind::Action { physical: true, .. });
    let things = program
        .things
        .iter()
        .filter(|thing| is_physical(&thing.kind));
    let sources: Vec<_> = things.map(|thing| thing.source).collect();
    let event = |k: u64| {
        let tag = Tag {
            time: 1_000 * (k + 1),
            micro: 0,
        };
        (
            tag,
            sources[(k % shape.physical) as usize],
            Some(k as i64 * 11 - 500),
        )
    };
    (0..count).map(event).collect()
}

/// Records into a file, and gives the last tag and the number of rows.
fn record(
    program: &Program,
    shape: &Shape,
    events: &[Event],
    limit: usize,
    path: &str,
) -> io::Result<(Tag, usize)> {
    let agenda = Agenda::new(program, events.to_vec());
    let mut recorder = Recorder {
        program,
        agenda,
        shape,
        rows: 0,
        runs: 0,
    };
    let mut out = BufWriter::new(File::create(path)?);
    let stop = recorder.record(limit, &mut out)?;
    out.flush()?;
    Ok((stop, recorder.rows))
}

fn write_externals(program: &Program, events: &[Event], stop: Tag, path: &str) -> io::Result<()> {
    let mut out = BufWriter::new(File::create(path)?);
    writeln!(out, "kind,time,microstep,name,value")?;
    for (Tag { time, micro }, source, value) in events.iter().filter(|event| event.0 <= stop) {
        let thing = program
            .things
            .iter()
            .find(|thing| thing.source == *source)
            .expect("an action");
        writeln!(
            out,
            "event,{time},{micro},{},{}",
            thing.name,
            value.unwrap_or_default()
        )?;
    }
    writeln!(out, "stop,{},{},,", stop.time, stop.micro)?;
    out.flush()
}

fn main() -> io::Result<()> {
    let words: Vec<_> = env::args().skip(1).collect();
    let (folder, rows, name, again) = match &words[..] {
        [folder, rows, name] => (folder, rows, name, false),
        [folder, rows, name, again] if again == "again" => (folder, rows, name, true),
        _ => panic!("shapes FOLDER ROWS SHAPE [again]"),
    };
    let mut shape = shape(name).expect("a shape");
    let limit: usize = rows.parse().expect("a number of rows");
    let program = read_program(&shape.program);
    let events = match shape.physical {
        0 => Vec::new(),
        _ => physical_events(&program, &shape, limit as u64 / 4 + 1),
    };
    if again {
        // More runs are open at a time, and other workers have them.
        shape.workers += 3;
        record(
            &program,
            &shape,
            &events,
            limit,
            &format!("{folder}/again.csv"),
        )?;
        return Ok(());
    }
    fs::create_dir_all(folder)?;
    fs::write(format!("{folder}/program.lf"), &shape.program)?;
    let (stop, rows) = record(
        &program,
        &shape,
        &events,
        limit,
        &format!("{folder}/trace.csv"),
    )?;
    write_externals(&program, &events, stop, &format!("{folder}/externals.csv"))?;
    println!("{rows}");
    Ok(())
}
