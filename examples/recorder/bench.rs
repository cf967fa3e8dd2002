//! What a row of a long run costs with lftrace.rs, as bench.c measures it. The tables are written into the current
//! folder and removed.
//!
//!     rustc --edition 2021 -O bench.rs -o bench_rust && ./bench_rust

mod lftrace;

use lftrace::Log;
use std::fs::{self, File};
use std::path::Path;

const RUNS: u64 = 1_000_000;
const ROWS: u64 = 4 * RUNS;
const TURNS: u32 = 5;

/// One thread in the place of four workers: a tag has 100 rows.
fn record(followed: Option<File>) -> Log {
    let log = Log::new(["main#1", "main.p"].map(String::from).to_vec());
    if let Some(file) = followed {
        log.follow(file);
    }
    let mut workers = [0, 1, 2, 3].map(|number| log.worker(number));
    for number in 0..RUNS {
        let mut run = workers[number as usize % 4].start((number / 25, 0), 0);
        run.read(1, Some(number as i64));
        run.write(1, Some(number as i64));
        run.end();
        if number % 25 == 24 {
            log.flush();
        }
    }
    log
}

/// Nanoseconds of processor time of this thread so far. The library of Rust doesn't know them, Linux does.
fn spent() -> f64 {
    let spent = fs::read_to_string("/proc/thread-self/schedstat").expect("this is Linux");
    spent.split(' ').next().and_then(|spent| spent.parse().ok()).expect("a number")
}

fn main() -> std::io::Result<()> {
    let (trace, externals) = (Path::new("bench_trace.csv"), Path::new("bench_externals.csv"));
    let mut least = [f64::MAX; 3];
    for _ in 0..TURNS {
        let begun = spent();
        let log = record(None);
        let recorded = spent();
        log.save(trace, externals, (RUNS, 0))?;
        let saved = spent();
        drop(log);
        let file = File::create(trace)?;
        let begun_log = spent();
        record(Some(file)).finish((RUNS, 0))?;
        let taken = [recorded - begun, saved - recorded, spent() - begun_log];
        for (least, taken) in least.iter_mut().zip(taken) {
            *least = least.min(taken / ROWS as f64);
        }
    }
    println!("| recording | saving | recording as a log |   ns of processor time a row, of {ROWS} rows");
    println!("| {:9.0} | {:6.0} | {:18.0} |", least[0], least[1], least[2]);
    fs::remove_file(trace)?;
    fs::remove_file(externals)
}
