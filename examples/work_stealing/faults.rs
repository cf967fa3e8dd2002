//! Classic faults of a scheduler, one for each switch, and the chance that some of them need.

use std::sync::atomic::{AtomicI64, Ordering::SeqCst};
use std::thread;
use std::time::{Duration, Instant, SystemTime, UNIX_EPOCH};

#[derive(Clone, Copy, PartialEq)]
pub enum Fault {
    /// A reaction doesn't wait for the last of those before it.
    EarlyStart,
    /// A chain of delays loses one microstep.
    EarlyEvent,
    /// Now and then a worker sees the value before the one that another worker wrote.
    StaleRead,
    /// The events of the stop tag are forgotten, all but `shutdown`.
    LostAtStop,
    /// Now and then a port that another worker wrote stays present after its tag.
    NotCleared,
    /// Now and then a thief leaves the reaction in the deque, so that it runs twice.
    TakenTwice,
    /// A request for the stop is followed one microstep late.
    LateStop,
    /// The end of a run is recorded after other workers know of it.
    LateEnd,
    /// The next tag doesn't wait for the last reactions of a tag.
    NextTagBegins,
    /// Code looks at a number that all workers share.
    SharedState,
    /// Now and then a worker keeps the lock of a state while code runs, and then takes it again.
    LockTwice,
    /// The process ends in the middle of a run, as if it were killed.
    Killed,
}

pub const FAULTS: [(&str, Fault); 12] = [
    ("early-start", Fault::EarlyStart),
    ("early-event", Fault::EarlyEvent),
    ("stale-read", Fault::StaleRead),
    ("lost-at-stop", Fault::LostAtStop),
    ("not-cleared", Fault::NotCleared),
    ("taken-twice", Fault::TakenTwice),
    ("late-stop", Fault::LateStop),
    ("late-end", Fault::LateEnd),
    ("next-tag-begins", Fault::NextTagBegins),
    ("shared-state", Fault::SharedState),
    ("lock-twice", Fault::LockTwice),
    ("killed", Fault::Killed),
];

/// The next of the numbers that all workers share.
pub fn ticket() -> i64 {
    static TICKETS: AtomicI64 = AtomicI64::new(0);
    TICKETS.fetch_add(1, SeqCst)
}

/// Decides how long code takes and when a fault strikes. What a right run answers doesn't depend on it.
pub struct Random(u64);

impl Random {
    /// `thread` tells the threads of a process apart.
    pub fn new(thread: usize) -> Random {
        let now = SystemTime::now().duration_since(UNIX_EPOCH).map_or(1, |since| since.as_nanos() as u64);
        let mixed = now ^ u64::from(std::process::id()) << 40 ^ (thread as u64) << 20;
        Random(mixed.wrapping_mul(0x9E37_79B9_7F4A_7C15) | 1)
    }

    /// A number below `limit` (xorshift).
    pub fn below(&mut self, limit: u64) -> u64 {
        self.0 ^= self.0 << 13;
        self.0 ^= self.0 >> 7;
        self.0 ^= self.0 << 17;
        (self.0 >> 16) % limit
    }

    pub fn once_in(&mut self, times: u64) -> bool {
        self.below(times) == 0
    }

    /// Takes the time of code: up to 20 microseconds, and now and then the worker loses its processor.
    pub fn work(&mut self) {
        let (begun, time) = (Instant::now(), Duration::from_nanos(self.below(20_000)));
        while begun.elapsed() < time {
            std::hint::spin_loop();
        }
        if self.once_in(16) {
            thread::sleep(Duration::from_micros(20));
        }
    }
}
