"""lftrace.h in Python: records what the workers of a reactor runtime do, as the two tables that lftrace reads.

One file for Python 3.8 and later. It needs the standard library alone.

    log = lftrace.Log()
    worker = log.worker(0)              each worker has a number of its own, and so has a thread that makes events

    run = worker.start((time, microstep), "main.f#1")     it has taken the reaction, and its code doesn't run yet
    run.read("main.f.x", 30)            then, for each trigger and use that is a port or an action and is present
    run.write, run.schedule, run.stop   where the code sets a port, schedules an action, asks for the end
    run.end()                           the code has returned, and NO OTHER WORKER KNOWS IT YET
    worker.event((time, microstep), "main.key", 7)        where a physical action gets its tag

    log.save("trace.csv", "externals.csv", (stop_time, stop_microstep))     after all workers have ended

A name is its text. Times are nanoseconds since the first tag. A value is a whole number of 64 bits, or None:
present without a value. One thread at a time uses a worker.

A run of any length is written while it runs, as one log of both tables, which `lftrace follow` reads:

    log.follow(sys.stdout)              before the workers begin
    log.flush()                         where the runtime goes on to the next tag
    log.finish((stop_time, stop_microstep))               in place of save

Order: each row is appended to one list, and the rows are written in its order. To append is one step. Where the
runtime's own locks order two steps, the earlier one has the earlier row.

Errors: no call of a run or a worker raises. `save` and `finish` raise NotRecorded where a row is missing or a call was
wrong: a table that lacks a row would accuse the runtime of what it didn't do.
"""
import os
import struct
import threading

MOST = 4_000_000  # the most rows that are kept, and the most of a table that lftrace reads
TRACE_HEADER = "event,worker,time,microstep,reaction,name,value,delay\n"
EXTERNALS_HEADER = "kind,time,microstep,name,value\n"


class NotRecorded(Exception):
    """Why tables or a log weren't written to the end."""


def of_double(number):
    """The value of a float: its bits."""
    return struct.unpack("<q", struct.pack("<d", number))[0]


def of_bytes(data):
    """The value of anything else: a hash (FNV-1a) of its bytes, as that of lft_bytes in lftrace.h."""
    found = 14695981039346656037
    for byte in data:
        found = (found ^ byte) * 1099511628211 % 2**64
    return found - 2**64 if found >= 2**63 else found


class Log:
    def __init__(self):
        self._rows = []
        self._workers = {}
        self._fault = None  # the first wrong call
        self._is_full = False  # a row wasn't kept, since MOST were
        self._followed = None

    def worker(self, number):
        """Each worker has a number of its own."""
        return self._workers.setdefault(number, Worker(self, number))

    def rows(self):
        """The rows so far, with those that aren't kept. A watchdog sees by it that nothing moves."""
        return len(self._rows) + (self._followed.written if self._followed else 0)

    def save(self, trace, externals, stop):
        """Writes both tables, or none, after all workers have ended. The stop is the last tag that the execution may
        have: its timeout; the tag at which it ended, if no event was left; any later tag, if the code asked for the end.

        Each table is written beside its place and then moved there, the trace last. So no reader finds half a table, or
        a trace with the external inputs of another run.
        """
        refuse(self._lacks())
        refuse(self._followed and "the log is followed: finish ends it")
        self._place_tables(trace, externals, stop)

    def save_front(self, trace, externals, stop):
        """The same for a run that hangs, or has more rows than lftrace reads: the rows so far. Runs may be open.
        examples/pipeline/front cuts such tables at their last whole tag.

        Any thread may call it, while workers run or hang, and they may go on. Don't take a lock of the runtime to find
        the stop: any later tag will do.
        """
        refuse(self._followed and "the log is followed: flush writes what is there")
        self._place_tables(trace, externals, stop)

    def follow(self, file):
        """The rows go to a file from now on, as one log of both tables, and aren't kept once they are there. It is
        called before the workers begin. Nothing else writes to the file. It isn't closed."""
        self._followed = Followed(file)
        self._followed.why = self._followed.write([TRACE_HEADER])

    def flush(self):
        """Writes the rows that are there. The thread that goes on to the next tag calls it: all runs of the tag have
        ended, so their rows are there. Any other thread may call it too, as a watchdog does. While one writes, the
        others go on at once. Who writes waits for the file: for the reader, if it is a pipe."""
        if self._followed and self._followed.lock.acquire(blocking=False):
            try:
                self._write_rows()
            finally:
                self._followed.lock.release()

    def finish(self, stop):
        """In place of save, after all workers have ended: writes the rows that are left, and the stop. Or it says why
        the log ends before: no row is missing of those that it has."""
        if not self._followed:
            raise NotRecorded("no log is followed")
        with self._followed.lock:
            self._write_rows()
            why = self._followed.why or self._lacks() or self._followed.write([stop_row(stop)])
            self._followed.why = "the log has ended"
        refuse(why)

    def _put(self, row):
        if len(self._rows) >= MOST:
            self._is_full = True
        elif not (self._fault or self._is_full):
            self._rows.append(row)

    def _blame(self, fault):
        self._fault = self._fault or fault

    def _blame_for(self, why, what):
        """A row couldn't be made."""
        is_memory = isinstance(why, MemoryError)
        self._blame("out of memory at a row" if is_memory else f"{what} wants whole numbers, as of_double and of_bytes make: {why}")

    def _write_rows(self):
        # Rows that were counted before the look at the faults are older than each fault.
        count = len(self._rows)
        if not (self._fault or self._is_full or self._followed.why):
            self._followed.why = "a write was broken off"
            why = self._followed.write(self._rows[:count])
            self._followed.written += count
            del self._rows[:count]
            self._followed.why = why

    def _lacks(self):
        """Why not all rows are there, or None."""
        if self._fault:
            return self._fault
        if self._is_full:
            return "rows are lost: too many weren't written yet" if self._followed else "more rows than lftrace reads"
        is_open = (f"a run is still open: {worker.open.reaction}" for worker in self._workers.values() if worker.open)
        return next(is_open, None)

    def _place_tables(self, trace, externals, stop):
        rows = self._rows[:MOST]
        refuse(self._fault)
        parts = [f"{os.fspath(path)}.part" for path in (trace, externals)]
        try:
            write_table(parts[0], [TRACE_HEADER], (row for row in rows if not row.startswith("event,")))
            write_table(parts[1], [EXTERNALS_HEADER], (row for row in rows if row.startswith("event,")), [stop_row(stop)])
            remove(trace)
            os.replace(parts[1], externals)
            os.replace(parts[0], trace)
        except OSError as why:
            raise NotRecorded(f"a table could not be written: {why}") from why
        finally:
            for part in parts:
                remove(part)


class Followed:
    """The file of a log that is followed, how many rows it has, and why it gets no more."""

    def __init__(self, file):
        self.given = file  # a text file closes its buffer where nobody holds it
        self.file, self.lock, self.written, self.why = getattr(file, "buffer", file), threading.Lock(), 0, None

    def write(self, rows):
        """Writes all rows, and gives None, or why it couldn't."""
        try:
            left = memoryview("".join(rows).encode())
            while left:
                left = left[self.file.write(left) or 0 :]  # a file without a buffer may take a part
            self.file.flush()
        except (OSError, ValueError, TypeError, MemoryError) as why:
            return f"the file could not be written: {why}"
        return None


class Worker:
    """A worker, or a thread that makes events."""

    def __init__(self, log, number):
        self.log, self.number, self.open = log, number, None

    def start(self, tag, reaction):
        """The worker has taken the reaction, and its code doesn't run yet."""
        return Run(self, tag, reaction)

    def event(self, tag, action, value=None):
        """An event of a physical action, with the tag that the runtime gave it."""
        try:
            time, microstep = tag
            self.log._put(f"event,{time:d},{microstep:d},{action},{'' if value is None else f'{value:d}'}\n")
        except (TypeError, ValueError, MemoryError) as why:
            self.log._blame_for(why, f"an event of {action}")


class Run:
    """An open run."""

    __slots__ = ("worker", "reaction", "place")

    def __init__(self, worker, tag, reaction):
        self.worker, self.reaction, self.place = worker, reaction, None
        if worker.open:
            worker.log._blame(f"{worker.open.reaction} was never ended, or two workers have one number")
        worker.open = self
        try:
            time, microstep = tag
            self.place = f"{worker.number:d},{time:d},{microstep:d},{reaction}"
            worker.log._put(f"start,{self.place},,,\n")
        except (TypeError, ValueError, MemoryError) as why:
            worker.log._blame_for(why, f"the start of {reaction}")

    def _step(self, kind, name="", value=None, delay=""):
        worker = self.worker
        try:
            if worker.open is self:
                worker.log._put(f"{kind},{self.place},{name},{'' if value is None else f'{value:d}'},{delay}\n")
            else:
                worker.log._blame(f"a step outside a run: {kind} {name or self.reaction}")
        except (TypeError, ValueError, MemoryError) as why:
            worker.log._blame_for(why, f"{kind} {name}")

    def read(self, name, value=None):
        """For each trigger and use that is a port or an action and is present."""
        self._step("read", name, value)

    def write(self, port, value=None):
        self._step("write", port, value)

    def schedule(self, action, value=None, extra_delay=0):
        """extra_delay is what the code asks for, without the action's own least delay."""
        self._step("schedule", action, value, extra_delay or "")

    def stop(self):
        self._step("stop")

    def end(self):
        """The code has returned, and no other worker knows it yet."""
        self._step("end")
        if self.worker.open is self:
            self.worker.open = None


def stop_row(stop):
    time, microstep = stop
    return f"stop,{time:d},{microstep:d},,\n"


def write_table(path, *parts):
    with open(path, "w", encoding="utf-8", newline="") as table:
        for rows in parts:
            table.writelines(rows)


def remove(path):
    try:
        os.remove(path)
    except FileNotFoundError:
        pass


def refuse(why):
    if why:
        raise NotRecorded(why)
