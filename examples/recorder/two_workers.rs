//! two_workers.c in Rust: two workers run the program of two_workers.lf and record it.
//!
//!     rustc --edition 2021 -O two_workers.rs -o two_workers_rust
//!     ./two_workers_rust trace.csv externals.csv
//!     ./two_workers_rust trace.csv externals.csv careless     no reaction waits for those that precede it
//!     lftrace judge two_workers.lf externals.csv trace.csv

mod lftrace;

use lftrace::{Log, Name, Tag, Worker};
use std::sync::{Barrier, Condvar, Mutex, MutexGuard};
use std::{env, path::Path, process::exit, thread, time::Duration};

const MS: u64 = 1_000_000;
const STOP: Tag = (100 * MS, 0);

const SENSOR: Name = 0;
const FILTER_X: Name = 1;
const FILTER_T: Name = 2;
const ALARM_Y: Name = 3;
const ALARM_SHUTDOWN: Name = 4;
/// What is just before each reaction, as `lftrace show two_workers.lf` prints it.
const BEFORE: [u32; 5] = [0, 1 << SENSOR, 1 << FILTER_X, 1 << FILTER_X, 1 << ALARM_Y];

const S_READING: Name = 5;
const F_X: Name = 6;
const F_Y: Name = 7;
const A_Y: Name = 8;
const NAMES: [&str; 9] =
    ["main.s#1", "main.f#1", "main.f#2", "main.a#1", "main.a#2", "main.s.reading", "main.f.x", "main.f.y", "main.a.y"];

#[derive(Default)]
struct State {
    tag: Tag,
    stop: Tag,
    /// Sets of reactions, at the tag.
    triggered: u32,
    open: u32,
    done: u32,
    /// The state of the sensor, and two ports.
    count: i64,
    reading: i64,
    y: i64,
    over: bool,
}

impl State {
    /// Begins a tag with what is triggered there before any reaction runs.
    fn begin_tag(&mut self, tag: Tag) {
        let (time, microstep) = tag;
        let fires = |period: u64| u32::from(microstep == 0 && time % period == 0);
        let stops = u32::from(tag == self.stop);
        (self.tag, self.open, self.done) = (tag, 0, 0);
        self.triggered = fires(10 * MS) << SENSOR | fires(5 * MS) << FILTER_T | stops << ALARM_SHUTDOWN;
    }

    /// The next tag, or the end.
    fn advance(&mut self) {
        let (time, microstep) = self.tag;
        if self.tag == self.stop {
            self.over = true;
        } else if time == self.stop.0 {
            self.begin_tag((time, microstep + 1));
        } else {
            self.begin_tag((time + 5 * MS, 0));
        }
    }

    /// A reaction that may start.
    fn ready(&self, careless: bool) -> Option<Name> {
        let left = self.triggered & !self.done;
        (0..BEFORE.len()).find(|&reaction| {
            let may_start = careless || all_before(reaction) & left == 0;
            is_in(left, reaction) && !is_in(self.open, reaction) && may_start
        })
    }

    /// The reaction has run. `out` is what it wrote.
    fn settle(&mut self, reaction: Name, out: i64) {
        self.open &= !(1 << reaction);
        self.done |= 1 << reaction;
        match reaction {
            SENSOR => {
                (self.reading, self.count) = (out, out + 1);
                self.triggered |= 1 << FILTER_X;
            }
            FILTER_X => {
                self.y = out;
                self.triggered |= 1 << ALARM_Y;
            }
            ALARM_Y if self.y >= 8 => self.stop = (self.tag.0, self.tag.1 + 1),
            _ => {}
        }
    }
}

fn is_in(set: u32, reaction: Name) -> bool {
    set >> reaction & 1 == 1
}

/// All reactions that precede one, also through reactions that don't run at the tag.
fn all_before(reaction: Name) -> u32 {
    (0..BEFORE.len())
        .rev()
        .fold(BEFORE[reaction], |all, other| if is_in(all, other) { all | BEFORE[other] } else { all })
}

struct Runtime {
    state: Mutex<State>,
    change: Condvar,
    both: Barrier,
    careless: bool,
}

impl Runtime {
    fn work(&self, mut worker: Worker) {
        self.both.wait();
        let mut state = self.state.lock().unwrap();
        while !state.over {
            if let Some(reaction) = state.ready(self.careless) {
                state = self.run(&mut worker, state, reaction);
                self.change.notify_all();
            } else if state.open != 0 || state.triggered & !state.done != 0 {
                state = self.change.wait(state).unwrap();
            } else {
                state.advance();
                self.change.notify_all();
            }
        }
    }

    /// Gives up the lock while the code runs.
    fn run<'a>(
        &'a self,
        worker: &mut Worker,
        mut state: MutexGuard<'a, State>,
        reaction: Name,
    ) -> MutexGuard<'a, State> {
        let (reading, y, count) = (state.reading, state.y, state.count);
        state.open |= 1 << reaction;
        let mut run = worker.start(state.tag, reaction);
        match reaction {
            FILTER_X => run.read(F_X, Some(reading)),
            ALARM_Y => run.read(A_Y, Some(y)),
            _ => {}
        }
        drop(state);
        thread::sleep(Duration::from_micros(50));
        let out = if reaction == FILTER_X { 2 * reading } else { count };
        match reaction {
            SENSOR => run.write(S_READING, Some(out)),
            FILTER_X => run.write(F_Y, Some(out)),
            ALARM_Y if y >= 8 => run.stop(),
            _ => {}
        }
        thread::sleep(Duration::from_micros(50));
        let mut state = self.state.lock().unwrap();
        run.end(); // before the other worker knows
        state.settle(reaction, out);
        state
    }
}

fn main() {
    let words: Vec<String> = env::args().skip(1).collect();
    let (trace, externals, careless) = match &words[..] {
        [trace, externals] => (trace, externals, false),
        [trace, externals, fault] if fault == "careless" => (trace, externals, true),
        _ => {
            eprintln!("two_workers TRACE EXTERNALS [careless]");
            exit(2);
        }
    };
    let log = Log::new(NAMES.map(String::from).to_vec());
    let mut state = State { stop: STOP, ..State::default() };
    state.begin_tag((0, 0));
    let runtime = Runtime { state: Mutex::new(state), change: Condvar::new(), both: Barrier::new(2), careless };
    thread::scope(|scope| {
        for number in [0, 1] {
            let (worker, runtime) = (log.worker(number), &runtime);
            scope.spawn(move || runtime.work(worker));
        }
    });
    if let Err(why) = log.save(Path::new(trace), Path::new(externals), STOP) {
        eprintln!("not recorded: {why}");
        exit(1);
    }
}
