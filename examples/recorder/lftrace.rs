//! `lftrace.h` in Rust: records what the workers of a reactor runtime do, as the two tables that lftrace reads.
//!
//! Each worker has rows of its own, and each row takes the next number of one counter: the rows are written in this
//! order. `lftrace.h` says why a relaxed counter is enough. A worker locks its rows for one push. No code of a reaction
//! runs there, so [`Log::save_front`] and [`Log::flush`] can be called while workers hang.
//!
//! A run of any length is written while it runs, as one log of both tables, which `lftrace follow` reads: [`Log::follow`]
//! before the workers begin, [`Log::flush`] where the runtime goes on to the next tag, and [`Log::finish`] in place of
//! [`Log::save`].

#![allow(dead_code)] // a runtime may need a part of it

use std::fs::{self, File};
use std::io::{self, BufWriter, Error, Write};
use std::path::{Path, PathBuf};
use std::sync::atomic::{AtomicBool, AtomicU64, Ordering::Relaxed};
use std::sync::{Arc, Mutex, MutexGuard, OnceLock, PoisonError};

/// Nanoseconds since the first tag, and the microstep.
pub type Tag = (u64, u32);
/// `None`: present without a value.
pub type Value = Option<i64>;
/// A reaction, port or action: its place in the list of names.
pub type Name = usize;

/// The most rows that are kept, and the most of a table that lftrace reads.
const MOST: u64 = if cfg!(test) { 4_000 } else { 4_000_000 };

const TRACE_HEADER: &str = "event,worker,time,microstep,reaction,name,value,delay";
const EXTERNALS_HEADER: &str = "kind,time,microstep,name,value";

#[derive(Clone, Copy)]
enum Step {
    Start(Tag, Name),
    Read(Name, Value),
    Write(Name, Value),
    Schedule(Name, Value, u64),
    Stop,
    End,
    Event(Tag, Name, Value),
}

/// The steps of a worker, each with the number of its row.
type Rows = Vec<(u64, Step)>;

pub struct Log {
    names: Vec<String>,
    order: AtomicU64,
    /// Rows that aren't kept any more, since they are in the followed log.
    written: AtomicU64,
    /// A row wasn't kept, since `MOST` were.
    is_lost: AtomicBool,
    workers: Mutex<Vec<(u32, Arc<Mutex<Rows>>)>>,
    followed: OnceLock<Mutex<Followed>>,
}

/// A worker, or a thread that makes events.
pub struct Worker<'log> {
    log: &'log Log,
    rows: Arc<Mutex<Rows>>,
}

/// An open run.
pub struct Run<'worker, 'log>(&'worker mut Worker<'log>);

impl Log {
    pub fn new(names: Vec<String>) -> Log {
        let (order, written, is_lost) = Default::default();
        Log { names, order, written, is_lost, workers: Mutex::default(), followed: OnceLock::new() }
    }

    /// Each worker has a number of its own.
    pub fn worker(&self, number: u32) -> Worker<'_> {
        let mut workers = locked(&self.workers);
        let place = workers.iter().position(|worker| worker.0 == number).unwrap_or_else(|| {
            workers.push((number, Arc::default()));
            workers.len() - 1
        });
        Worker { log: self, rows: Arc::clone(&workers[place].1) }
    }

    /// The rows so far, with those that aren't kept. A watchdog sees by it that nothing moves.
    pub fn rows(&self) -> u64 {
        self.order.load(Relaxed)
    }

    /// Writes both tables, or none, after all workers have ended. The stop is the last tag that the execution may
    /// have: its timeout; the tag at which it ended, if no event was left; any later tag, if the code asked for the
    /// end.
    ///
    /// Each table is written beside its place and then moved there, the trace last. So no reader finds half a table,
    /// or a trace with the external inputs of another run.
    pub fn save(&self, trace: &Path, externals: &Path, stop: Tag) -> io::Result<()> {
        self.place_tables(false, trace, externals, stop)
    }

    /// The same for a run that hangs, or has more rows than lftrace reads: the rows so far, up to the first that isn't
    /// there whole. Runs may be open. `examples/pipeline/front` cuts such tables at their last whole tag.
    ///
    /// Any thread may call it, while workers run or hang, and they may go on. Don't take a lock of the runtime to find
    /// the stop: any later tag will do.
    pub fn save_front(&self, trace: &Path, externals: &Path, stop: Tag) -> io::Result<()> {
        self.place_tables(true, trace, externals, stop)
    }

    /// The rows go to `out` from now on, as one log of both tables, and aren't kept once they are there. It is called
    /// before the workers begin. A pipe that nobody reads any more is an error of `finish`.
    pub fn follow(&self, out: impl Write + Send + 'static) {
        let mut out = BufWriter::with_capacity(1 << 16, Box::new(out) as Box<dyn Write + Send>);
        let state = writeln!(out, "{TRACE_HEADER}").and_then(|()| out.flush());
        let _ = self.followed.set(Mutex::new(Followed { state, printer: Printer::default(), out: [out] }));
    }

    /// Writes the rows that are there, up to the first that isn't. The thread that goes on to the next tag calls it:
    /// all runs of the tag have ended, so their rows are there. Any other thread may call it too, as a watchdog does.
    /// While one writes, the others go on at once. Who writes waits for `out`: for the reader, if it is a pipe.
    pub fn flush(&self) {
        if let Some(Ok(mut followed)) = self.followed.get().map(Mutex::try_lock) {
            followed.write(self);
        }
    }

    /// In place of `save`, after all workers have ended: writes the rows that are left, and the stop. An error says why
    /// the log ends before: no row is missing of those that it has.
    pub fn finish(&self, stop: Tag) -> io::Result<()> {
        let followed = self.followed.get().ok_or_else(|| Error::other("no log is followed"))?;
        followed.lock().map_err(|_| Error::other("a write panicked"))?.finish(self, stop)
    }

    fn place_tables(&self, is_front: bool, trace: &Path, externals: &Path, stop: Tag) -> io::Result<()> {
        if self.followed.get().is_some() {
            let way = if is_front { "flush writes what is there" } else { "finish ends it" };
            return Err(Error::other(format!("the log is followed: {way}")));
        }
        let (trace_part, externals_part) = (part(trace), part(externals));
        let saved = self.write_tables(is_front, &trace_part, &externals_part, stop).and_then(|()| {
            let _ = fs::remove_file(trace);
            fs::rename(&externals_part, externals)?;
            fs::rename(&trace_part, trace)
        });
        if saved.is_err() {
            let _ = fs::remove_file(trace_part);
            let _ = fs::remove_file(externals_part);
        }
        saved
    }

    fn write_tables(&self, is_front: bool, trace: &Path, externals: &Path, stop: Tag) -> io::Result<()> {
        if !is_front {
            self.expect_none_lost()?;
        }
        let mut tables = [BufWriter::new(File::create(trace)?), BufWriter::new(File::create(externals)?)];
        writeln!(tables[0], "{TRACE_HEADER}")?;
        writeln!(tables[1], "{EXTERNALS_HEADER}")?;
        let mut printer = Printer::default();
        printer.take(self, true);
        printer.print(&self.names, &mut tables)?;
        if !is_front {
            printer.expect_whole(self)?;
        }
        write_stop(&mut tables[1], stop)?;
        tables.iter_mut().try_for_each(Write::flush)
    }

    fn expect_none_lost(&self) -> io::Result<()> {
        match (self.is_lost.load(Relaxed), self.followed.get()) {
            (false, _) => Ok(()),
            (true, None) => Err(Error::other("more rows than lftrace reads")),
            (true, Some(_)) => Err(Error::other("rows are lost: too many weren't written yet")),
        }
    }
}

/// A log that is followed.
struct Followed {
    /// An error: no more is written.
    state: io::Result<()>,
    printer: Printer,
    out: [BufWriter<Box<dyn Write + Send>>; 1],
}

impl Followed {
    fn write(&mut self, log: &Log) {
        if self.state.is_ok() {
            self.printer.take(log, false);
            let printed = self.printer.print(&log.names, &mut self.out);
            self.state = self.out[0].flush().and(printed);
            log.written.store(self.printer.next, Relaxed);
        }
    }

    fn finish(&mut self, log: &Log, stop: Tag) -> io::Result<()> {
        self.write(log);
        std::mem::replace(&mut self.state, Err(Error::other("the log has ended")))?;
        log.expect_none_lost()?;
        self.printer.expect_whole(log)?;
        write_stop(&mut self.out[0], stop)?;
        self.out[0].flush()
    }
}

/// Prints the rows of a log in the order of their numbers.
#[derive(Default)]
struct Printer {
    queues: Vec<Queue>,
    /// The number of the next row, and where the row before it was.
    next: u64,
    place: usize,
    line: Line,
}

/// The rows of a worker. Those before `first` are printed.
#[derive(Default)]
struct Queue {
    worker: u32,
    rows: Rows,
    first: usize,
    open: Option<(Tag, Name)>,
}

impl Printer {
    /// Takes the rows that are there, or copies them.
    fn take(&mut self, log: &Log, is_copy: bool) {
        for (place, (worker, rows)) in locked(&log.workers).iter().enumerate() {
            if place == self.queues.len() {
                self.queues.push(Queue { worker: *worker, ..Queue::default() });
            }
            let queue = &mut self.queues[place];
            queue.rows.drain(..queue.first);
            queue.first = 0;
            let mut rows = locked(rows);
            if is_copy {
                queue.rows.extend_from_slice(&rows);
            } else {
                queue.rows.append(&mut rows);
            }
        }
    }

    /// Prints the rows that were taken, up to the first that isn't there. Steps go to the first table and events to the
    /// last one, which is the same in a log.
    fn print(&mut self, names: &[String], tables: &mut [impl Write]) -> io::Result<()> {
        while let Some(step) = self.find() {
            let queue = &mut self.queues[self.place];
            let table = if let Step::Event(tag, action, value) = step {
                self.line.event(name_of(names, action)?, tag, value);
                tables.last_mut()
            } else {
                let run = queue.run_of(names, step)?;
                self.line.step(names, queue.worker, run, step)?;
                tables.first_mut()
            };
            table.map_or(Ok(()), |table| table.write_all(&self.line.0))?;
            queue.first += 1;
            self.next += 1;
        }
        Ok(())
    }

    /// The next row, if it is there. It is sought from the queue on where the row before it was.
    fn find(&mut self) -> Option<Step> {
        let is_next = |place: &usize| {
            let queue = &self.queues[*place];
            queue.rows.get(queue.first).is_some_and(|row| row.0 == self.next)
        };
        self.place = (self.place..self.queues.len()).chain(0..self.place).find(is_next)?;
        let queue = &self.queues[self.place];
        Some(queue.rows[queue.first].1)
    }

    fn expect_whole(&self, log: &Log) -> io::Result<()> {
        if self.next != log.rows() {
            return Err(Error::other("a row is missing: a worker still runs, or two workers have one number"));
        }
        match self.queues.iter().find_map(|queue| queue.open) {
            Some((_, reaction)) => Err(Error::other(format!("a run is still open: {}", log.names[reaction]))),
            None => Ok(()),
        }
    }
}

impl Queue {
    /// The tag and reaction of a step.
    fn run_of(&mut self, names: &[String], step: Step) -> io::Result<(Tag, Name)> {
        let run = match step {
            Step::Start(tag, reaction) => {
                if let Some((_, reaction)) = self.open.replace((tag, reaction)) {
                    let reaction = name_of(names, reaction)?;
                    return Err(Error::other(format!("{reaction} was never ended, or two workers have one number")));
                }
                self.open
            }
            Step::End => self.open.take(),
            _ => self.open,
        };
        run.ok_or_else(|| Error::other("a step outside a run"))
    }
}

/// A line of a table. Each takes the memory of the one before it.
#[derive(Default)]
struct Line(Vec<u8>);

impl Line {
    fn event(&mut self, action: &str, tag: Tag, value: Value) {
        self.0.clear();
        self.add("event,").add_tag(tag).add(action).add(",").add_value(value).add("\n");
    }

    fn step(&mut self, names: &[String], worker: u32, (tag, reaction): (Tag, Name), step: Step) -> io::Result<()> {
        let (kind, name, value, delay) = match step {
            Step::Start(..) => ("start,", None, None, 0),
            Step::Read(input, value) => ("read,", Some(input), value, 0),
            Step::Write(port, value) => ("write,", Some(port), value, 0),
            Step::Schedule(action, value, delay) => ("schedule,", Some(action), value, delay),
            Step::Stop => ("stop,", None, None, 0),
            Step::End => ("end,", None, None, 0),
            Step::Event(_, action, value) => ("event,", Some(action), value, 0),
        };
        let name = name.map_or(Ok(""), |name| name_of(names, name))?;
        self.0.clear();
        self.add(kind).add_number(worker.into()).add(",").add_tag(tag).add(name_of(names, reaction)?);
        self.add(",").add(name).add(",").add_value(value).add(",");
        if delay > 0 {
            self.add_number(delay);
        }
        self.add("\n");
        Ok(())
    }

    fn add(&mut self, text: &str) -> &mut Line {
        self.0.extend_from_slice(text.as_bytes());
        self
    }

    fn add_number(&mut self, mut number: u64) -> &mut Line {
        let (mut digits, mut first) = ([0; 20], 20);
        while number > 0 || first == 20 {
            first -= 1;
            digits[first] = b'0' + (number % 10) as u8;
            number /= 10;
        }
        self.0.extend_from_slice(&digits[first..]);
        self
    }

    fn add_tag(&mut self, (time, microstep): Tag) -> &mut Line {
        self.add_number(time).add(",").add_number(microstep.into()).add(",")
    }

    fn add_value(&mut self, value: Value) -> &mut Line {
        match value {
            None => self,
            Some(number) if number < 0 => self.add("-").add_number(number.unsigned_abs()),
            Some(number) => self.add_number(number.unsigned_abs()),
        }
    }
}

fn name_of(names: &[String], name: Name) -> io::Result<&str> {
    names.get(name).map(String::as_str).ok_or_else(|| Error::other("a row has a name that isn't in the list"))
}

fn write_stop(table: &mut impl Write, (time, microstep): Tag) -> io::Result<()> {
    writeln!(table, "stop,{time},{microstep},,")
}

/// Also if a thread panicked with the lock: its last row is whole or isn't there.
fn locked<T>(mutex: &Mutex<T>) -> MutexGuard<'_, T> {
    mutex.lock().unwrap_or_else(PoisonError::into_inner)
}

impl<'log> Worker<'log> {
    fn put(&mut self, step: Step) {
        let order = self.log.order.fetch_add(1, Relaxed);
        if order - self.log.written.load(Relaxed) < MOST {
            locked(&self.rows).push((order, step));
        } else {
            self.log.is_lost.store(true, Relaxed);
        }
    }

    /// The worker has taken the reaction, and its code doesn't run yet.
    pub fn start(&mut self, tag: Tag, reaction: Name) -> Run<'_, 'log> {
        self.put(Step::Start(tag, reaction));
        Run(self)
    }

    /// An event of a physical action, with the tag that the runtime gave it.
    pub fn event(&mut self, tag: Tag, action: Name, value: Value) {
        self.put(Step::Event(tag, action, value));
    }
}

impl Run<'_, '_> {
    /// For each trigger and use that is a port or an action and is present.
    pub fn read(&mut self, input: Name, value: Value) {
        self.0.put(Step::Read(input, value));
    }

    pub fn write(&mut self, port: Name, value: Value) {
        self.0.put(Step::Write(port, value));
    }

    /// `extra_delay` is what the code asks for, without the action's own least delay.
    pub fn schedule(&mut self, action: Name, value: Value, extra_delay: u64) {
        self.0.put(Step::Schedule(action, value, extra_delay));
    }

    pub fn stop(&mut self) {
        self.0.put(Step::Stop);
    }

    /// The code has returned, and no other worker knows it yet.
    pub fn end(self) {
        self.0.put(Step::End);
    }
}

/// The path with `.part` behind it.
fn part(path: &Path) -> PathBuf {
    let mut part = path.as_os_str().to_owned();
    part.push(".part");
    part.into()
}

#[cfg(test)] // check.rs has all other tests
mod tests {
    use super::*;

    #[test]
    fn a_row_is_missing() {
        let (log, mut printer, mut table) = (Log::new(vec!["main.key".to_string()]), Printer::default(), [vec![]]);
        let mut feeder = log.worker(0);
        feeder.event((1, 0), 0, None);
        log.order.fetch_add(1, Relaxed); // as a worker does before it pushes the row
        feeder.event((2, 0), 0, None);
        printer.take(&log, true);
        printer.print(&log.names, &mut table).unwrap();
        assert_eq!(table[0], b"event,1,0,main.key,\n");
        assert!(printer.expect_whole(&log).unwrap_err().to_string().starts_with("a row is missing: "));
    }
}
