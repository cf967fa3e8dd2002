//! Runs plant.lf or correction.lf on several workers and records it.
//!
//!     rustc --edition 2021 -O main.rs -o work_stealing
//!     lftrace show --lower plant.lf > shown.txt
//!     ./work_stealing plant shown.txt trace.csv externals.csv [--workers N] [--replay EXTERNALS] [--fault NAME]
//!
//! Without `--replay` another thread makes the events of the physical action. With it the events are those of a
//! table, so that two recordings can be compared.
//!
//!     ./work_stealing plant shown.txt log.csv --time 5000
//!
//! One path in place of two is that of a log, which is written while the program runs; `-` is standard output. The
//! execution ends after so many milliseconds of its time at the latest, 100 without `--time`.

#![forbid(unsafe_code)]

mod correction;
mod faults;
#[path = "../recorder/lftrace.rs"]
mod lftrace;
mod plant;
mod program;
mod runtime;

use faults::FAULTS;
use lftrace::{Log, Tag};
use program::Program;
use runtime::{Runtime, World};
use std::fs::{self, File};
use std::{env, io, path::Path, process::ExitCode};

/// The status of a run that hangs.
const HANGS: i32 = 4;

const USAGE: &str = "work_stealing plant|correction SHOWN TRACE EXTERNALS|LOG [--time MILLISECONDS] [--workers N] \
    [--replay EXTERNALS] [--fault NAME]";

/// Where a run is recorded.
enum Place<'a> {
    Tables(&'a Path, &'a Path),
    Log,
}

impl Place<'_> {
    /// Words before the options are paths. A log is written from now on.
    fn new<'a>(paths: &'a [String], log: &Log) -> Result<Place<'a>, String> {
        match paths {
            [trace, externals] => return Ok(Place::Tables(Path::new(trace), Path::new(externals))),
            [path] if path == "-" => log.follow(io::stdout()),
            [path] => log.follow(File::create(path).map_err(|fault| format!("{path}: {fault}"))?),
            _ => return Err(USAGE.to_string()),
        }
        Ok(Place::Log)
    }

    fn finish(&self, log: &Log, stop: Tag) -> io::Result<()> {
        match self {
            Place::Tables(trace, externals) => log.save(trace, externals, stop),
            Place::Log => log.finish(stop),
        }
    }

    /// The rows so far of a run that hangs.
    fn save_front(&self, log: &Log, stop: Tag) -> io::Result<()> {
        match self {
            Place::Tables(trace, externals) => log.save_front(trace, externals, stop)?,
            Place::Log => log.flush(),
        }
        Ok(())
    }
}

fn record(words: &[String]) -> Result<(), String> {
    let [name, shown, words @ ..] = words else {
        return Err(USAGE.to_string());
    };
    let paths = words.iter().take_while(|word| !word.starts_with("--")).count();
    let (paths, options) = words.split_at(paths);
    let read = |path: &str| fs::read_to_string(path).map_err(|fault| format!("{path}: {fault}"));
    let classes = match name.as_str() {
        "plant" => plant::classes(),
        "correction" => correction::classes(),
        _ => return Err(USAGE.to_string()),
    };
    let program = Program::new(&read(shown)?, &classes)?;
    let (mut millis, mut workers, mut fault, mut script) = (100, 4, None, None);
    for option in options.chunks(2) {
        match option {
            [word, number] if word == "--time" => millis = number.parse().map_err(|_| USAGE)?,
            [word, number] if word == "--workers" => workers = number.parse().map_err(|_| USAGE)?,
            [word, path] if word == "--replay" => script = Some(program.events(&read(path)?)?),
            [word, name] if word == "--fault" => {
                let known = FAULTS.iter().find(|known| known.0 == name);
                fault = Some(known.ok_or(format!("there is no fault {name}"))?.1);
            }
            _ => return Err(USAGE.to_string()),
        }
    }
    let world = match (script, program.signal("main.p.key")) {
        (None, Ok(key)) => World::Live(key, 8 * millis / 100),
        (script, _) => World::Script(script.unwrap_or_default()),
    };
    let log = Log::new(program.names.clone());
    let stop = (u64::from(millis) * 1_000_000, 0);
    let place = Place::new(paths, &log)?;
    Runtime::new(&program, &log, workers, stop, fault).run(world, || {
        match place.save_front(&log, stop) {
            Ok(()) => eprintln!("hangs: its front is saved"),
            Err(why) => eprintln!("hangs, not recorded: {why}"),
        }
        std::process::exit(HANGS);
    });
    place.finish(&log, stop).map_err(|why| format!("not recorded: {why}"))
}

fn main() -> ExitCode {
    let words: Vec<_> = env::args().skip(1).collect();
    match record(&words) {
        Ok(()) => ExitCode::SUCCESS,
        Err(why) => {
            eprintln!("{why}");
            ExitCode::FAILURE
        }
    }
}
