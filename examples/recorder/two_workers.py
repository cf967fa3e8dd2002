#!/usr/bin/env python3
"""two_workers.c in Python: two workers run the program of two_workers.lf and record it.

    python3 two_workers.py trace.csv externals.csv
    python3 two_workers.py trace.csv externals.csv careless     no reaction waits for those that precede it
    lftrace judge two_workers.lf externals.csv trace.csv

    python3 two_workers.py - writes one log while it runs, in place of both tables. Its fault is the second word.
"""
import sys
import threading
import time

import lftrace

MS = 1_000_000
STOP = (100 * MS, 0)
SENSOR, FILTER_X, FILTER_T, ALARM_Y, ALARM_SHUTDOWN = REACTIONS = ("main.s#1", "main.f#1", "main.f#2", "main.a#1", "main.a#2")
# What is just before each reaction, as `lftrace show two_workers.lf` prints it.
BEFORE = {SENSOR: (), FILTER_X: (SENSOR,), FILTER_T: (FILTER_X,), ALARM_Y: (FILTER_X,), ALARM_SHUTDOWN: (ALARM_Y,)}


def all_before(reaction):
    """All reactions that precede one, also through reactions that don't run at the tag."""
    return {found for before in BEFORE[reaction] for found in (before, *all_before(before))}


class Runtime:
    def __init__(self, is_careless):
        self.is_careless, self.is_over, self.stop = is_careless, False, STOP
        self.change, self.both = threading.Condition(), threading.Barrier(2)
        self.count = self.reading = self.y = 0  # the state of the sensor, and two ports
        self.begin_tag((0, 0))

    def begin_tag(self, tag):
        """Begins a tag with what is triggered there before any reaction runs."""
        now, microstep = self.tag = tag
        self.open, self.done, self.triggered = set(), set(), set()
        if microstep == 0 and now % (10 * MS) == 0:
            self.triggered.add(SENSOR)
        if microstep == 0 and now % (5 * MS) == 0:
            self.triggered.add(FILTER_T)
        if tag == self.stop:
            self.triggered.add(ALARM_SHUTDOWN)

    def advance(self):
        """The next tag, or the end."""
        now, microstep = self.tag
        if self.tag == self.stop:
            self.is_over = True
        else:
            self.begin_tag((now, microstep + 1) if now == self.stop[0] else (now + 5 * MS, 0))

    def ready(self):
        """A reaction that may start, or None."""
        left = self.triggered - self.done
        may_start = (it for it in REACTIONS if it in left - self.open and (self.is_careless or not all_before(it) & left))
        return next(may_start, None)

    def work(self, log, worker):
        self.both.wait()
        with self.change:
            while not self.is_over:
                reaction = self.ready()
                if reaction:
                    self.run(worker, reaction)
                elif self.open or self.triggered - self.done:
                    self.change.wait()
                    continue
                else:
                    log.flush()
                    self.advance()
                self.change.notify_all()

    def run(self, worker, reaction):
        """Gives up the lock while the code runs."""
        reading, y, count = self.reading, self.y, self.count
        self.open.add(reaction)
        run = worker.start(self.tag, reaction)
        if reaction == FILTER_X:
            run.read("main.f.x", reading)
        elif reaction == ALARM_Y:
            run.read("main.a.y", y)
        self.change.release()
        time.sleep(50e-6)
        if reaction == SENSOR:
            run.write("main.s.reading", count)
        elif reaction == FILTER_X:
            run.write("main.f.y", 2 * reading)
        elif reaction == ALARM_Y and y >= 8:
            run.stop()
        time.sleep(50e-6)
        self.change.acquire()
        run.end()  # before the other worker knows
        self.settle(reaction)

    def settle(self, reaction):
        """The reaction has run."""
        self.open.remove(reaction)
        self.done.add(reaction)
        if reaction == SENSOR:
            self.reading, self.count = self.count, self.count + 1
            self.triggered.add(FILTER_X)
        elif reaction == FILTER_X:
            self.y = 2 * self.reading
            self.triggered.add(ALARM_Y)
        elif reaction == ALARM_Y and self.y >= 8:
            self.stop = (self.tag[0], self.tag[1] + 1)


def main(words):
    is_log = words[:1] == ["-"]
    fault = words[1 if is_log else 2 :]
    if not words or len(words) < 2 - is_log or fault not in ([], ["careless"]):
        print(__doc__, file=sys.stderr)
        return 2
    log, runtime = lftrace.Log(), Runtime(bool(fault))
    if is_log:
        log.follow(sys.stdout)
    threads = [threading.Thread(target=runtime.work, args=(log, log.worker(number))) for number in range(2)]
    for thread in threads:
        thread.start()
    for thread in threads:
        thread.join()
    try:
        if is_log:
            log.finish(STOP)
        else:
            log.save(words[0], words[1], STOP)
    except lftrace.NotRecorded as why:
        sys.exit(f"not recorded: {why}")
    return 0


if __name__ == "__main__":
    sys.exit(main(sys.argv[1:]))
