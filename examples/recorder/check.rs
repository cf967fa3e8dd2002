//! Checks of lftrace.rs, as check.c has them: misuse, files that may not grow, fronts of threads that run or hang; and
//! all of these of a log that is written while the threads run, and of a process that is killed meanwhile.
//!
//!     rustc --edition 2021 -O --test check.rs -o check_rust && ./check_rust

mod lftrace;

use lftrace::Log;
use std::alloc::{GlobalAlloc, Layout, System};
use std::cell::Cell;
use std::fs::{self, File};
use std::io::{self, BufRead, BufReader, Error, Write};
use std::path::Path;
use std::process::{Command, Stdio};
use std::sync::{Arc, Barrier, Mutex};
use std::thread;

/// The most rows that are kept, in a test.
const MOST: u64 = 4_000;

#[derive(Clone, Copy, PartialEq)]
enum Mistake {
    None,
    NeverEnded,
    StillOpen,
    OneNumber,
    NoName,
    TooMany,
}

const NAMES: [&str; 4] = ["main#1", "main.p", "main.a", "main.key"];

fn new_log() -> Log {
    Log::new(NAMES.map(String::from).to_vec())
}

/// Two tags, each of which is flushed if the log is followed.
fn record(log: &Log, mistake: Mistake) {
    let number = if mistake == Mistake::OneNumber { 0 } else { 7 };
    let (mut worker, mut other) = (log.worker(0), log.worker(number));
    let mut run = worker.start((5, 1), 0);
    other.event((6, 0), 3, Some(-1));
    run.read(2, None);
    run.write(1, Some(i64::MIN));
    run.schedule(2, Some(0), 9);
    run.stop();
    other.start((5, 1), 0).end();
    if mistake != Mistake::NeverEnded {
        run.end();
    }
    log.flush();
    let mut run = worker.start((6, 0), 0);
    if mistake == Mistake::NoName {
        run.write(4, None);
    }
    if mistake != Mistake::StillOpen {
        run.end();
    }
    log.flush();
    while mistake == Mistake::TooMany && log.rows() < MOST + 30 {
        other.event((7, 0), 3, None);
    }
}

/// What one of the two ways to save leaves, both tables.
fn recorded(file: &str, mistake: Mistake, is_front: bool) -> io::Result<(String, String)> {
    let log = new_log();
    record(&log, mistake);
    let path = |table: &str| std::env::temp_dir().join(format!("lftrace_{}_{file}_{table}.csv", std::process::id()));
    let (trace, externals) = (path("trace"), path("externals"));
    let save = if is_front { Log::save_front } else { Log::save };
    let saved = save(&log, &trace, &externals, (7, 8));
    let texts = saved.and_then(|()| Ok((fs::read_to_string(&trace)?, fs::read_to_string(&externals)?)));
    assert_eq!(texts.is_ok(), trace.exists() && externals.exists());
    assert!(!trace.with_extension("csv.part").exists() && !externals.with_extension("csv.part").exists());
    let _ = fs::remove_file(trace);
    let _ = fs::remove_file(externals);
    texts
}

/// A file that may have so many bytes, until a write has failed.
#[derive(Clone)]
struct Shared(Arc<Mutex<String>>, usize);

impl Shared {
    fn new(most: usize) -> Shared {
        Shared(Arc::default(), most)
    }

    fn text(&self) -> String {
        self.0.lock().unwrap().clone()
    }
}

impl Write for Shared {
    fn write(&mut self, bytes: &[u8]) -> io::Result<usize> {
        let mut text = self.0.lock().unwrap();
        let size = bytes.len().min(self.1 - text.len());
        text.push_str(std::str::from_utf8(&bytes[..size]).unwrap());
        if size == 0 && !bytes.is_empty() {
            self.1 = usize::MAX;
            return Err(Error::other("the file may not grow"));
        }
        Ok(size)
    }

    fn flush(&mut self) -> io::Result<()> {
        Ok(())
    }
}

/// What is written of a log that is followed, and why it ended.
fn logged(mistake: Mistake, most: usize) -> (String, String) {
    let (log, file) = (new_log(), Shared::new(most));
    log.follow(file.clone());
    record(&log, mistake);
    let why = log.finish((7, 8)).map_or_else(|why| why.to_string(), |()| String::new());
    assert!(log.finish((7, 8)).is_err());
    log.flush();
    (file.text(), why)
}

/// Both tables of a log.
fn split(log: &str) -> (String, String) {
    let of = |commas: usize| log.split_inclusive('\n').filter(move |line| line.matches(',').count() == commas);
    (of(7).collect(), format!("kind,time,microstep,name,value\n{}", of(4).collect::<String>()))
}

const WHOLE: &str = "event,worker,time,microstep,reaction,name,value,delay\nstart,0,5,1,main#1,,,\n\
    read,0,5,1,main#1,main.a,,\nwrite,0,5,1,main#1,main.p,-9223372036854775808,\n\
    schedule,0,5,1,main#1,main.a,0,9\nstop,0,5,1,main#1,,,\nstart,7,5,1,main#1,,,\nend,7,5,1,main#1,,,\n\
    end,0,5,1,main#1,,,\nstart,0,6,0,main#1,,,\nend,0,6,0,main#1,,,\n";

#[test]
fn tables() {
    let (trace, externals) = recorded("whole", Mistake::None, false).unwrap();
    assert_eq!(trace, WHOLE);
    assert_eq!(externals, "kind,time,microstep,name,value\nevent,6,0,main.key,-1\nstop,7,8,,\n");
}

const NEVER_ENDED: &str = "main#1 was never ended, or two workers have one number";
const STILL_OPEN: &str = "a run is still open: main#1";
const NO_NAME: &str = "a row has a name that isn't in the list";

#[test]
fn refused() {
    let why = |file, mistake| recorded(file, mistake, false).unwrap_err().to_string();
    assert_eq!(why("never", Mistake::NeverEnded), NEVER_ENDED);
    assert_eq!(why("open", Mistake::StillOpen), STILL_OPEN);
    assert_eq!(why("number", Mistake::OneNumber), NEVER_ENDED);
    assert_eq!(why("name", Mistake::NoName), NO_NAME);
    assert_eq!(why("many", Mistake::TooMany), "more rows than lftrace reads");
}

#[test]
fn fronts() {
    let front = |file, mistake| recorded(file, mistake, true).unwrap();
    assert_eq!(front("front_whole", Mistake::None).0, WHOLE);
    assert_eq!(front("front_open", Mistake::StillOpen).0, WHOLE.strip_suffix("end,0,6,0,main#1,,,\n").unwrap());
    let (trace, externals) = front("front_many", Mistake::TooMany);
    assert_eq!((trace.lines().count() + externals.lines().count()) as u64, MOST + 3);
}

/// A log has the rows of both tables. With a mistake, or where a file may not grow, it is a front without a stop.
#[test]
fn logs() {
    let (right, why) = logged(Mistake::None, usize::MAX);
    assert_eq!(why, "");
    assert_eq!(split(&right), recorded("log", Mistake::None, false).unwrap());
    let mistakes = [
        (Mistake::NeverEnded, NEVER_ENDED),
        (Mistake::StillOpen, STILL_OPEN),
        (Mistake::OneNumber, NEVER_ENDED),
        (Mistake::NoName, NO_NAME),
        (Mistake::TooMany, "rows are lost: too many weren't written yet"),
    ];
    for (mistake, wanted) in mistakes {
        let (text, why) = logged(mistake, usize::MAX);
        assert_eq!(why, wanted);
        assert!(!text.contains("stop,7,8") && (right.starts_with(&text) || mistake == Mistake::TooMany));
    }
    for most in 0..right.len() {
        let (text, why) = logged(Mistake::None, most);
        assert_eq!((&right[..most], "the file may not grow"), (text.as_str(), why.as_str()));
    }
    assert_eq!(new_log().finish((7, 8)).unwrap_err().to_string(), "no log is followed");
}

/// A number is written under a lock, so the rows of all threads are in its order, in each piece of the log.
#[test]
fn log_of_threads() {
    let (log, file, turn, all) = (new_log(), Shared::new(usize::MAX), Mutex::new(0), Barrier::new(4));
    log.follow(file.clone());
    let in_turn = |text: &str| {
        let written = text.lines().filter_map(|line| line.strip_prefix("write,")?.split(',').nth(5));
        written.zip(0..).map(|(number, turn)| assert_eq!(number, turn.to_string())).count()
    };
    thread::scope(|scope| {
        for number in 0..4 {
            let (log, turn, all) = (&log, &turn, &all);
            scope.spawn(move || {
                let mut worker = log.worker(number);
                for time in 0..2_000 {
                    if time % 100 == 0 {
                        all.wait(); // a thread that loses its processor would let the others fill the log
                    }
                    let mut run = worker.start((time, 0), 0);
                    let mut turn = turn.lock().unwrap();
                    run.write(1, Some(*turn));
                    *turn += 1;
                    drop(turn);
                    run.end();
                    log.flush();
                }
            });
        }
        while in_turn(&file.text()) < 4_000 {}
    });
    log.finish((7, 8)).unwrap();
    assert_eq!((in_turn(&file.text()), file.text().lines().count()), (8_000, 24_002));
}

/// A thread locks a lock twice in a run, and another thread saves, or looks at the log.
#[test]
fn front_of_a_hang() {
    let path = std::env::temp_dir().join(format!("lftrace_{}_hang.csv", std::process::id()));
    let externals = path.with_extension("externals");
    let hung = hang(&new_log);
    while !hung.save_front(&path, &externals, (7, 8)).is_ok_and(|()| lines(&path) > 1) {}
    assert!(fs::read_to_string(&path).unwrap().ends_with("delay\nstart,3,2,0,main#1,,,\n"));
    assert!(hung.save(&path, &externals, (7, 8)).is_err());
    let file = Shared::new(usize::MAX);
    let hung = hang(&|| {
        let log = new_log();
        log.follow(file.clone());
        log
    });
    while file.text().lines().count() < 2 {
        hung.flush();
    }
    assert!(file.text().ends_with("delay\nstart,3,2,0,main#1,,,\n"));
    let front = hung.save_front(&path, &externals, (7, 8)).unwrap_err();
    assert_eq!(front.to_string(), "the log is followed: flush writes what is there");
    assert!(hung.finish((7, 8)).is_err());
    let _ = fs::remove_file(path);
    let _ = fs::remove_file(externals);
}

fn hang(new_log: &dyn Fn() -> Log) -> &'static Log {
    let log: &Log = Box::leak(Box::new(new_log()));
    let lock: &Mutex<()> = Box::leak(Box::default());
    let mut worker = log.worker(3);
    thread::spawn(move || {
        let _held = lock.lock();
        let run = worker.start((2, 0), 0);
        drop(lock.lock());
        run.end();
    });
    log
}

fn lines(path: &Path) -> usize {
    fs::read_to_string(path).map_or(0, |text| text.lines().count())
}

/// How often each thread asked for memory.
struct Counting;

thread_local! {
    static ASKED: Cell<u64> = const { Cell::new(0) };
}

unsafe impl GlobalAlloc for Counting {
    unsafe fn alloc(&self, layout: Layout) -> *mut u8 {
        ASKED.with(|asked| asked.set(asked.get() + 1));
        unsafe { System.alloc(layout) }
    }

    unsafe fn dealloc(&self, place: *mut u8, layout: Layout) {
        unsafe { System.dealloc(place, layout) }
    }
}

#[global_allocator]
static COUNTING: Counting = Counting;

/// Ten million rows need no more memory than the first of them.
#[test]
fn log_of_many() {
    let log = new_log();
    log.follow(io::sink());
    let mut worker = log.worker(0);
    let mut asked = 0;
    for time in 0..5_000_000 {
        worker.start((time, 0), 0).end();
        if time % 100 == 0 {
            log.flush();
        }
        if time == 1_000 {
            asked = ASKED.get();
        }
    }
    assert_eq!((log.rows(), ASKED.get()), (10_000_000, asked));
    log.finish((5_000_000, 0)).unwrap();
}

/// Records until it is killed. Behind each flush it says how many tags there are.
#[test]
#[ignore = "a part of `killed`"]
fn record_on() {
    let log = new_log();
    log.follow(File::create(std::env::var("LFTRACE_KILLED").unwrap()).unwrap());
    let mut worker = log.worker(0);
    for time in 0.. {
        worker.start((time, 0), 0).end();
        log.flush();
        eprintln!("{}", time + 1);
    }
}

/// A process that is killed loses the tag at hand alone.
#[test]
fn killed() {
    let path = std::env::temp_dir().join(format!("lftrace_{}_killed.csv", std::process::id()));
    for tags in (1..1_000).step_by(50) {
        let words = ["--ignored", "--exact", "--nocapture", "record_on"];
        let mut child = Command::new(std::env::current_exe().unwrap());
        let child = child.args(words).env("LFTRACE_KILLED", &path).stdout(Stdio::null()).stderr(Stdio::piped());
        let mut child = child.spawn().unwrap();
        let mut said = BufReader::new(child.stderr.take().unwrap()).lines().map_while(Result::ok);
        said.nth(tags - 1).unwrap();
        child.kill().unwrap();
        child.wait().unwrap();
        let flushed = said.last().and_then(|last| last.parse().ok()).unwrap_or(tags);
        let text = fs::read_to_string(&path).unwrap();
        let row = |kind: &str, time: usize| format!("{kind},0,{time},0,main#1,,,\n");
        let rows = (0..flushed + 2).flat_map(|time| [row("start", time), row("end", time)]);
        let right = format!("event,worker,time,microstep,reaction,name,value,delay\n{}", rows.collect::<String>());
        assert!(right.starts_with(&text) && text.lines().count() > 2 * flushed);
    }
    fs::remove_file(path).unwrap();
}
