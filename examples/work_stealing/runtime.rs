//! A work-stealing runtime for flat reactor programs, without levels.
//!
//! Each worker has a deque of reactions that are to run at the current tag; a worker whose deque is empty steals.
//! A reaction is *settled* at a tag when it has run there, or can't run there any more. Each reaction counts those
//! just before it that aren't settled. The worker that settles the last of them looks for a present trigger: it
//! puts the reaction into its deque, or settles it too. The worker that settles the last reaction of a tag begins
//! the next tag.

use crate::faults::{ticket, Fault, Random};
use crate::lftrace::{self, Log, Tag, Value};
use crate::program::{after, Program, Reaction, Signal, Trigger};
use std::collections::{BTreeMap, VecDeque};
use std::sync::atomic::{AtomicBool, AtomicI32, AtomicU64, AtomicUsize, Ordering::SeqCst};
use std::sync::{Condvar, Mutex, RwLock};
use std::thread;
use std::time::{Duration, Instant};

const FAR: Tag = (u64::MAX, 0);

/// A program without a row of a run for so long hangs.
const PATIENCE: Duration = Duration::from_secs(3);

/// Where the events of physical actions come from.
pub enum World {
    /// At most so many events of one action, with the tags that the runtime gives them.
    Live(Signal, u32),
    /// Recorded events.
    Script(Vec<(Tag, Signal, Value)>),
}

pub struct Runtime<'p> {
    program: &'p Program,
    log: &'p Log,
    /// The execution ends here at the latest.
    timeout: Tag,
    fault: Option<Fault>,
    deques: Vec<Mutex<VecDeque<usize>>>,
    /// For each reaction: how many just before it aren't settled.
    waits: Vec<AtomicI32>,
    /// For each reaction: whether it was put into a deque, or settled, at this tag. A fault needs it.
    early: Vec<AtomicBool>,
    unsettled: AtomicUsize,
    cells: Vec<Mutex<Cell>>,
    states: Vec<Mutex<i64>>,
    now: RwLock<Now>,
    agenda: Mutex<Agenda>,
    promise: Condvar,
    /// Rows that aren't of runs: events of physical actions.
    fed: AtomicU64,
    /// Whether the log is being written: its reader may be slow.
    writes: AtomicBool,
    over: AtomicBool,
}

/// What is present on a signal. The value before it and its writer are there for the faults.
#[derive(Clone, Copy, Default)]
struct Cell {
    present: Option<Value>,
    earlier: Option<Value>,
    writer: Option<usize>,
}

#[derive(Clone, Copy)]
struct Now {
    tag: Tag,
    stop: Tag,
}

struct Agenda {
    events: BTreeMap<(Tag, Signal), Value>,
    /// All events of physical actions before this tag are in.
    promised: Tag,
}

/// A reaction to run. With a fault a stolen one is still in its deque; whoever takes it from there settles it.
struct Taken {
    number: usize,
    tag: Tag,
    is_left: bool,
}

/// Ends the execution if code panics: the other workers would wait for its reaction.
struct Guard<'a>(&'a AtomicBool);

impl Drop for Guard<'_> {
    fn drop(&mut self) {
        if thread::panicking() {
            self.0.store(true, SeqCst);
        }
    }
}

impl<'p> Runtime<'p> {
    pub fn new(program: &'p Program, log: &'p Log, workers: usize, timeout: Tag, fault: Option<Fault>) -> Runtime<'p> {
        Runtime {
            program,
            log,
            timeout,
            fault,
            deques: (0..workers).map(|_| Mutex::default()).collect(),
            waits: program.reactions.iter().map(|_| AtomicI32::new(0)).collect(),
            early: program.reactions.iter().map(|_| AtomicBool::new(false)).collect(),
            unsettled: AtomicUsize::new(0),
            cells: program.place.iter().map(|_| Mutex::default()).collect(),
            states: program.instances.iter().map(|_| Mutex::default()).collect(),
            now: RwLock::new(Now { tag: (0, 0), stop: timeout }),
            agenda: Mutex::new(Agenda { events: BTreeMap::new(), promised: FAR }),
            promise: Condvar::new(),
            fed: AtomicU64::new(0),
            writes: AtomicBool::new(false),
            over: AtomicBool::new(false),
        }
    }

    /// Runs the program to its stop. `hangs` is called if no run has a row for three seconds, and doesn't return.
    pub fn run(&self, world: World, hangs: impl FnOnce() + Send) {
        if let World::Script(events) = &world {
            self.agenda.lock().unwrap().promised = events.first().map_or(FAR, |event| event.0);
        }
        let workers = self.deques.len();
        thread::scope(|scope| {
            scope.spawn(move || self.feed(self.log.worker(workers as u32), world));
            for me in 0..workers {
                scope.spawn(move || self.work(me, self.log.worker(me as u32)));
            }
            scope.spawn(move || self.watch(hangs));
        });
    }

    /// A watchdog. It takes no lock of the runtime, since who hangs may hold it. Events may go on meanwhile.
    fn watch(&self, hangs: impl FnOnce()) {
        let (mut rows, mut since) = (0, Instant::now());
        while !self.over.load(SeqCst) {
            thread::sleep(Duration::from_millis(10));
            let rows_now = self.log.rows().wrapping_sub(self.fed.load(SeqCst));
            if rows_now != rows || self.writes.load(SeqCst) {
                (rows, since) = (rows_now, Instant::now());
            } else if since.elapsed() > PATIENCE {
                return hangs();
            }
        }
    }

    fn is(&self, fault: Fault) -> bool {
        self.fault == Some(fault)
    }

    fn work(&self, me: usize, mut recorder: lftrace::Worker) {
        let _guard = Guard(&self.over);
        let mut random = Random::new(me);
        if me == 0 && !self.begin_tag(me) {
            self.next_tag(me, &mut random);
        }
        while !self.over.load(SeqCst) {
            match self.take(me, &mut random) {
                Some(taken) => self.run_reaction(me, taken, &mut recorder, &mut random),
                None => thread::sleep(Duration::from_micros(20)),
            }
        }
    }

    /// The newest reaction of its own deque, or the oldest one of another. While a reaction is in a deque its tag
    /// isn't over, so the tag is read there.
    fn take(&self, me: usize, random: &mut Random) -> Option<Taken> {
        let is_left = self.is(Fault::TakenTwice) && random.once_in(32);
        let workers = self.deques.len();
        (0..workers).find_map(|distance| {
            let mut deque = self.deques[(me + distance) % workers].lock().unwrap();
            let tag = self.now.read().unwrap().tag;
            let number = match (distance, is_left) {
                (0, _) => deque.pop_back(),
                (_, false) => deque.pop_front(),
                (_, true) => deque.front().copied(),
            }?;
            Some(Taken { number, tag, is_left: is_left && distance > 0 })
        })
    }

    fn run_reaction(&self, me: usize, taken: Taken, recorder: &mut lftrace::Worker, random: &mut Random) {
        let Taken { number, tag, is_left } = taken;
        let reaction = &self.program.reactions[number];
        let mut row = recorder.start(tag, reaction.name);
        let inputs: Vec<_> = reaction.inputs.iter().map(|signal| (*signal, self.look(me, *signal, random))).collect();
        for (signal, value) in &inputs {
            if let Some(value) = value {
                row.read(*signal, *value);
            }
        }
        let is_early = self.is(Fault::NextTagBegins) && reaction.behind.is_empty() && reaction.effects.is_empty();
        if is_early {
            self.settle(me, number, random);
        }
        let state = self.states[reaction.instance].lock().unwrap();
        let (state, _held) = (*state, self.is_kept(tag, random).then_some(state));
        let mut run = Run { runtime: self, me, tag, reaction, inputs, row, state };
        random.work();
        if self.is(Fault::Killed) && random.once_in(2048) {
            std::process::abort();
        }
        (reaction.code)(&mut run);
        random.work();
        *self.states[reaction.instance].lock().unwrap() = run.state;
        if self.is(Fault::LateEnd) {
            let is_last = self.settle_all(me, number);
            random.work();
            run.row.end();
            if is_last {
                self.next_tag(me, random);
            }
        } else {
            run.row.end(); // before another worker knows
            if !is_left && !is_early {
                self.settle(me, number, random);
            }
        }
    }

    /// With a fault: whether the lock of a state is kept, at any tag but the first.
    fn is_kept(&self, tag: Tag, random: &mut Random) -> bool {
        self.is(Fault::LockTwice) && tag > (0, 0) && random.once_in(64)
    }

    fn look(&self, me: usize, signal: Signal, random: &mut Random) -> Option<Value> {
        let cell = *self.cells[self.program.place[signal]].lock().unwrap();
        let is_foreign = cell.writer.is_some_and(|writer| writer != me);
        if self.is(Fault::StaleRead) && is_foreign && cell.present.is_some() && random.once_in(32) {
            return cell.earlier.or(cell.present);
        }
        cell.present
    }

    /// The reaction has run at this tag. If no other is left, the next tag begins.
    fn settle(&self, me: usize, number: usize, random: &mut Random) {
        if self.settle_all(me, number) {
            self.next_tag(me, random);
        }
    }

    /// Settles a reaction, and those behind it that don't run. True: no other is left at the tag.
    fn settle_all(&self, me: usize, number: usize) -> bool {
        let (mut settled, mut is_last) = (vec![number], false);
        while let Some(number) = settled.pop() {
            for &behind in &self.program.reactions[number].behind {
                let waits = self.waits[behind].fetch_sub(1, SeqCst) - 1;
                if waits == 1 && self.is(Fault::EarlyStart) {
                    self.put_early(me, behind);
                }
                if waits == 0 && !self.early[behind].swap(true, SeqCst) && !self.put(me, behind) {
                    settled.push(behind);
                }
            }
            is_last = self.unsettled.fetch_sub(1, SeqCst) == 1;
        }
        is_last
    }

    /// Puts a reaction into the worker's deque if it is triggered.
    fn put(&self, me: usize, number: usize) -> bool {
        let is_triggered = self.is_triggered(&self.program.reactions[number]);
        if is_triggered {
            self.deques[me].lock().unwrap().push_back(number);
        }
        is_triggered
    }

    fn put_early(&self, me: usize, number: usize) {
        if self.is_triggered(&self.program.reactions[number]) && !self.early[number].swap(true, SeqCst) {
            self.deques[me].lock().unwrap().push_back(number);
        }
    }

    fn is_triggered(&self, reaction: &Reaction) -> bool {
        let Now { tag, stop } = *self.now.read().unwrap();
        reaction.triggers.iter().any(|trigger| match trigger {
            Trigger::Startup => tag == (0, 0),
            Trigger::Shutdown => tag == stop,
            Trigger::Timer(timer) => timer.fires(tag),
            Trigger::Signal(signal) => self.cells[self.program.place[*signal]].lock().unwrap().present.is_some(),
        })
    }

    /// False: nothing runs at the tag.
    fn begin_tag(&self, me: usize) -> bool {
        let reactions = &self.program.reactions;
        self.unsettled.store(reactions.len(), SeqCst);
        for (wait, reaction) in self.waits.iter().zip(reactions) {
            wait.store(reaction.before, SeqCst);
        }
        self.early.iter().for_each(|early| early.store(false, SeqCst));
        let mut is_last = false;
        for number in (0..reactions.len()).filter(|number| reactions[*number].before == 0) {
            is_last |= !self.put(me, number) && self.settle_all(me, number);
        }
        !is_last
    }

    /// All reactions of the tag are settled: writes their rows if the log is followed, and begins the next tag at which
    /// one runs.
    fn next_tag(&self, me: usize, random: &mut Random) {
        self.writes.store(true, SeqCst);
        self.log.flush();
        self.writes.store(false, SeqCst);
        loop {
            self.clear(me, random);
            let Now { tag, stop } = *self.now.read().unwrap();
            if tag == stop {
                return self.over.store(true, SeqCst);
            }
            self.advance(tag, stop);
            if self.begin_tag(me) {
                return;
            }
        }
    }

    /// Goes to the next tag that has an event, as soon as all events of physical actions up to it are in.
    fn advance(&self, tag: Tag, stop: Tag) {
        let mut agenda = self.agenda.lock().unwrap();
        let timers = self.program.timers.iter().map(|timer| timer.next(tag.0)).min().unwrap_or(FAR);
        let next = loop {
            let event = agenda.events.first_key_value().map_or(FAR, |event| event.0 .0);
            let next = event.min(timers).min(stop);
            if next < agenda.promised {
                break next;
            }
            agenda = self.promise.wait(agenda).unwrap();
        };
        self.now.write().unwrap().tag = next;
        let later = agenda.events.split_off(&((next.0, next.1 + 1), 0));
        for ((_, signal), value) in std::mem::replace(&mut agenda.events, later) {
            if !(self.is(Fault::LostAtStop) && next == stop) {
                self.put_value(signal, value, None);
            }
        }
    }

    fn put_value(&self, signal: Signal, value: Value, writer: Option<usize>) {
        let mut cell = self.cells[signal].lock().unwrap();
        *cell = Cell { present: Some(value), writer, ..*cell };
    }

    fn clear(&self, me: usize, random: &mut Random) {
        for cell in &self.cells {
            let mut cell = cell.lock().unwrap();
            let is_foreign = cell.writer.is_some_and(|writer| writer != me);
            if cell.present.is_some() && !(self.is(Fault::NotCleared) && is_foreign && random.once_in(32)) {
                cell.earlier = cell.present.take();
            }
        }
    }

    fn record_event(&self, recorder: &mut lftrace::Worker, tag: Tag, action: Signal, value: Value) {
        recorder.event(tag, action, value);
        self.fed.fetch_add(1, SeqCst);
    }

    /// The world: a thread that knows nothing of tags, or replays recorded events.
    fn feed(&self, mut recorder: lftrace::Worker, world: World) {
        let (begun, mut random) = (Instant::now(), Random::new(self.deques.len()));
        match world {
            World::Live(action, count) => {
                let mut last = 0;
                for value in 0..count {
                    // Often at first, so that a short run has some.
                    thread::sleep(Duration::from_micros(random.below(if value < 8 { 1000 } else { 10_000 })));
                    if self.over.load(SeqCst) {
                        return;
                    }
                    let mut agenda = self.agenda.lock().unwrap();
                    // The time of its clock, unless a tag of that time has begun.
                    last = (begun.elapsed().as_nanos() as u64).max(self.now.read().unwrap().tag.0 + 1).max(last + 1);
                    self.record_event(&mut recorder, (last, 0), action, Some(i64::from(value)));
                    agenda.events.insert(((last, 0), action), Some(i64::from(value)));
                }
            }
            World::Script(events) => {
                for (number, (tag, action, value)) in events.iter().enumerate() {
                    thread::sleep(Duration::from_micros(random.below(300)));
                    let mut agenda = self.agenda.lock().unwrap();
                    self.record_event(&mut recorder, *tag, *action, *value);
                    agenda.events.insert((*tag, *action), *value);
                    agenda.promised = events.get(number + 1).map_or(FAR, |next| next.0);
                    self.promise.notify_one();
                }
            }
        }
    }
}

/// What the code of a reaction sees of its run. Names are those of its reactor.
pub struct Run<'a, 'log> {
    runtime: &'a Runtime<'a>,
    me: usize,
    tag: Tag,
    reaction: &'a Reaction,
    inputs: Vec<(Signal, Option<Value>)>,
    row: lftrace::Run<'a, 'log>,
    pub state: i64,
}

impl Run<'_, '_> {
    fn own(&self, name: &str) -> Signal {
        self.runtime.program.own(self.reaction.instance, name).expect("a port or action of the reactor")
    }

    fn input(&self, name: &str) -> Option<Value> {
        let signal = self.own(name);
        self.inputs.iter().find(|input| input.0 == signal).expect("an input of the reaction").1
    }

    pub fn is_present(&self, name: &str) -> bool {
        self.input(name).is_some()
    }

    /// The value of an input, 0 if it is absent or bare.
    pub fn get(&self, name: &str) -> i64 {
        self.input(name).flatten().unwrap_or(0)
    }

    /// The logical time in milliseconds.
    pub fn millis(&self) -> i64 {
        (self.tag.0 / 1_000_000) as i64
    }

    /// The milliseconds that are left up to the timeout.
    pub fn left(&self) -> i64 {
        (self.runtime.timeout.0 / 1_000_000) as i64 - self.millis()
    }

    pub fn set(&mut self, port: &str, value: impl Into<Value>) {
        let (port, value) = (self.own(port), value.into());
        self.row.write(port, value);
        self.runtime.put_value(port, value, Some(self.me));
        for delayed in &self.runtime.program.delayed[port] {
            let mut tag = after(self.tag, delayed.time, delayed.microsteps);
            if self.runtime.is(Fault::EarlyEvent) && tag.1 > 0 && (tag.0, tag.1 - 1) > self.tag {
                tag.1 -= 1;
            }
            // The last of several writes at a tag counts.
            self.runtime.agenda.lock().unwrap().events.insert((tag, delayed.to), value);
        }
    }

    /// `extra_delay` comes on top of the action's least delay.
    pub fn schedule(&mut self, action: &str, extra_delay: u64, value: impl Into<Value>) {
        let (action, value) = (self.own(action), value.into());
        self.row.schedule(action, value, extra_delay);
        let delay = self.runtime.program.least[action] + extra_delay;
        let tag = after(self.tag, delay, u32::from(delay == 0));
        self.runtime.agenda.lock().unwrap().events.insert((tag, action), value);
    }

    /// The execution ends one microstep later, unless it ends before.
    pub fn stop(&mut self) {
        self.row.stop();
        let mut now = self.runtime.now.write().unwrap();
        let microsteps = if self.runtime.is(Fault::LateStop) { 2 } else { 1 };
        now.stop = now.stop.min((self.tag.0, self.tag.1 + microsteps));
    }

    /// With a fault a number that all workers share, else 0.
    pub fn shared(&self) -> i64 {
        if self.runtime.is(Fault::SharedState) {
            ticket()
        } else {
            0
        }
    }
}
