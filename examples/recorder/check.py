#!/usr/bin/env python3
"""Checks of lftrace.py, as check.c and check.rs have them: the order of rows, misuse, refused memory, files that may not
grow, a process that is killed while it writes, fronts of threads that run or hang; and all of these of a log that is
written while the threads run. The tables are written into a temporary folder."""
import io
import os
import pathlib
import resource
import signal
import subprocess
import sys
import tempfile
import threading
import unittest
from unittest import mock

import lftrace

STOP = (7, 8)
WHOLE = lftrace.TRACE_HEADER + """start,0,5,1,main#1,,,
read,0,5,1,main#1,main.a,,
write,0,5,1,main#1,main.p,-9223372036854775808,
schedule,0,5,1,main#1,main.a,0,9
stop,0,5,1,main#1,,,
start,7,5,1,main#1,,,
end,7,5,1,main#1,,,
end,0,5,1,main#1,,,
start,0,6,0,main#1,,,
end,0,6,0,main#1,,,
"""
EXTERNALS = lftrace.EXTERNALS_HEADER + "event,6,0,main.key,-1\nstop,7,8,,\n"
MOST = 4_000
# A mistake, and what is said of it; of a log that is followed something else in the last case.
MISTAKES = {
    "never ended": "main#1 was never ended, or two workers have one number",
    "still open": "a run is still open: main#1",
    "one number": "main#1 was never ended, or two workers have one number",
    "outside": "a step outside a run: write main.p",
    "a float": "write main.p wants whole numbers, as of_double and of_bytes make: Unknown format code 'd' for object of type 'float'",
    "no tag": "an event of main.key wants whole numbers, as of_double and of_bytes make: cannot unpack non-iterable int object",
    "too many": "more rows than lftrace reads",
}


def record(log, mistake=""):
    """Two tags, each of which is flushed if the log is followed."""
    worker, other = log.worker(0), log.worker(0 if mistake == "one number" else 7)
    run = worker.start((5, 1), "main#1")
    other.event((6, 0) if mistake != "no tag" else 6, "main.key", -1)
    run.read("main.a")
    run.write("main.p", -(2**63) if mistake != "a float" else 0.5)
    run.schedule("main.a", 0, 9)
    run.stop()
    other.start((5, 1), "main#1").end()
    if mistake != "never ended":
        run.end()
    log.flush()
    if mistake == "outside":
        run.write("main.p", 1)
    run = worker.start((6, 0), "main#1")
    if mistake != "still open":
        run.end()
    log.flush()
    for _ in range(MOST + 30 if mistake == "too many" else 0):
        other.event((7, 0), "main.key")


def why_of(save, *words):
    """What saving says, "" for nothing."""
    try:
        save(*words)
    except lftrace.NotRecorded as why:
        return str(why)
    return ""


class File(io.RawIOBase):
    """A file without a buffer that takes so many bytes, and at most 100 at a time, until a write has failed."""

    def __init__(self, most=sys.maxsize):
        self.most, self.bytes = most, bytearray()

    def writable(self):
        return True

    def write(self, data):
        taken = bytes(data[: min(100, self.most - len(self.bytes))])
        self.bytes += taken
        if not taken:
            self.most = sys.maxsize
            raise OSError("the file may not grow")
        return len(taken)


def logged(mistake="", most=sys.maxsize):
    """What is written of a log that is followed, and why it ended."""
    log, file = lftrace.Log(), File(most)
    log.follow(file)
    record(log, mistake)
    why = why_of(log.finish, STOP)
    log.flush()
    assert why_of(log.finish, STOP)
    return file.bytes.decode(), why


def split(log):
    """Both tables of a log."""
    of = {commas: "".join(line for line in log.splitlines(True) if line.count(",") == commas) for commas in (7, 4)}
    return of[7], lftrace.EXTERNALS_HEADER + of[4]


def in_turn(text):
    """How many turns were written. They have to be in their order."""
    turns = [line.split(",")[6] for line in text.splitlines() if line.startswith("write,") and line.count(",") == 7]
    assert turns == [str(turn) for turn in range(len(turns))], "rows are in the order of the lock"
    return len(turns)


def work(log, number, state, flushes):
    """The turn is written under a lock."""
    worker = log.worker(number)
    for time in range(2_000):
        run = worker.start((time, 0), "main#1")
        with state["lock"]:
            run.write("main.p", state["turn"])
            state["turn"] += 1
        run.end()
        if flushes:
            log.flush()


def hang(log):
    """A thread takes a lock twice in a run."""
    lock = threading.Lock()

    def run():
        with lock:
            hung = log.worker(3).start((2, 0), "main#1")
            with lock:
                hung.end()

    threading.Thread(target=run, daemon=True).start()


class Checks(unittest.TestCase):
    def setUp(self):
        folder = tempfile.TemporaryDirectory()
        self.addCleanup(folder.cleanup)
        self.folder = pathlib.Path(folder.name)
        self.paths = self.folder / "trace.csv", self.folder / "externals.csv"

    def saved(self, log, save):
        """Both tables, or None and why there are none."""
        why = why_of(save, *self.paths, STOP)
        left = sorted(path.name for path in self.folder.iterdir())
        self.assertEqual(left, [] if why else ["externals.csv", "trace.csv"])
        texts = None if why else tuple(path.read_text() for path in self.paths)
        for path in self.paths if texts else ():
            path.unlink()
        return texts, why

    def test_tables(self):
        log = lftrace.Log()
        record(log)
        self.assertEqual(self.saved(log, log.save), ((WHOLE, EXTERNALS), ""))
        self.assertEqual(log.rows(), 11)

    @mock.patch("lftrace.MOST", MOST)
    def test_refused(self):
        for mistake, wanted in MISTAKES.items():
            log = lftrace.Log()
            record(log, mistake)
            self.assertEqual(self.saved(log, log.save), (None, wanted))
        self.assertEqual(why_of(lftrace.Log().finish, STOP), "no log is followed")

    @mock.patch("lftrace.MOST", MOST)
    def test_fronts(self):
        for mistake, rows in (("", WHOLE.count("\n")), ("still open", WHOLE.count("\n") - 1)):
            log = lftrace.Log()
            record(log, mistake)
            (trace, externals), _ = self.saved(log, log.save_front)
            self.assertEqual((trace, externals), ("".join(WHOLE.splitlines(True)[:rows]), EXTERNALS))
        log = lftrace.Log()
        record(log, "too many")
        (trace, externals), _ = self.saved(log, log.save_front)
        self.assertEqual(trace.count("\n") + externals.count("\n"), MOST + 3)
        log = lftrace.Log()
        record(log, "outside")
        self.assertEqual(self.saved(log, log.save_front), (None, MISTAKES["outside"]))

    @mock.patch("lftrace.MOST", MOST)
    def test_logs(self):
        """A log has the rows of both tables. With a mistake, or where a file may not grow, it is a front without a stop."""
        right, why = logged()
        self.assertEqual((split(right), why), ((WHOLE, EXTERNALS), ""))
        for mistake, wanted in MISTAKES.items():
            text, why = logged(mistake)
            self.assertEqual(why, "rows are lost: too many weren't written yet" if mistake == "too many" else wanted)
            self.assertTrue("stop,7,8" not in text and (right.startswith(text) or mistake == "too many"), mistake)
        for most in range(len(right)):
            self.assertEqual(logged(most=most), (right[:most], "the file could not be written: the file may not grow"))
        log = lftrace.Log()
        log.follow(io.StringIO())
        self.assertIn("could not be written", why_of(log.finish, STOP))
        self.assertEqual(why_of(log.save, *self.paths, STOP), "the log is followed: finish ends it")

    def test_files_that_may_not_grow(self):
        log = lftrace.Log()
        record(log)
        old = resource.getrlimit(resource.RLIMIT_FSIZE)
        for most in (0, 100, len(WHOLE) - 1):
            resource.setrlimit(resource.RLIMIT_FSIZE, (most, old[1]))
            texts, why = self.saved(log, log.save)
            resource.setrlimit(resource.RLIMIT_FSIZE, old)
            self.assertIsNone(texts)
            self.assertIn("a table could not be written", why)
        self.assertIn("could not be written", why_of(log.save, self.folder / "no/trace.csv", self.paths[1], STOP))
        self.assertEqual(self.saved(log, log.save), ((WHOLE, EXTERNALS), ""))

    def test_threads(self):
        """The rows are in the order of the lock, in each front and each piece of a log."""
        for flushes in (False, True):
            log, file, state = lftrace.Log(), File(), {"lock": threading.Lock(), "turn": 0}
            if flushes:
                log.follow(io.BufferedWriter(file))
            threads = [threading.Thread(target=work, args=(log, number, state, flushes)) for number in range(4)]
            for thread in threads:
                thread.start()
            while any(thread.is_alive() for thread in threads):
                in_turn(file.bytes.decode() if flushes else self.saved(log, log.save_front)[0][0])
            if flushes:
                log.finish(STOP)
            text = file.bytes.decode() if flushes else "".join(self.saved(log, log.save)[0])
            self.assertEqual((in_turn(text), text.count("\n")), (8_000, 24_003 - flushes))

    def test_front_of_a_hang(self):
        """A thread hangs in a run, and another thread saves, or looks at the log."""
        log, file = lftrace.Log(), File()
        hang(log)
        while log.rows() < 1:
            pass
        front = lftrace.TRACE_HEADER + "start,3,2,0,main#1,,,\n"
        self.assertEqual(self.saved(log, log.save_front)[0][0], front)
        self.assertEqual(self.saved(log, log.save), (None, "a run is still open: main#1"))
        log = lftrace.Log()
        log.follow(file)
        hang(log)
        while file.bytes.count(b"\n") < 2:
            log.flush()
        self.assertEqual(file.bytes.decode(), front)
        self.assertEqual(why_of(log.save_front, *self.paths, STOP), "the log is followed: flush writes what is there")
        self.assertEqual(why_of(log.finish, STOP), "a run is still open: main#1")

    def test_text_file(self):
        """A file in text mode, held by the log alone."""
        log = lftrace.Log()
        log.follow(open(self.paths[0], "w", encoding="utf-8"))
        record(log)
        log.finish(STOP)
        self.assertEqual(split(self.paths[0].read_text()), (WHOLE, EXTERNALS))
        log._followed.given.close()

    def test_refused_memory(self):
        """A log whose rows get no more memory has no table. Of a row that can't be made too."""
        for name in ("append", "place"):
            log = lftrace.Log()
            record(log)
            run = log.worker(0).start((6, 1), "main#1")
            if name == "append":
                log._rows = mock.Mock(wraps=log._rows, append=mock.Mock(side_effect=MemoryError), __len__=lambda rows: 3)
            else:
                run.place = mock.Mock(__format__=mock.Mock(side_effect=MemoryError))
            run.write("main.p", 1)
            self.assertEqual(why_of(log.save, *self.paths, STOP), "out of memory at a row")

    def test_log_of_many(self):
        """A million rows need no more memory than the first of them."""
        log = lftrace.Log()
        log.follow(open(os.devnull, "wb"))
        worker, most = log.worker(0), 0
        for time in range(500_000):
            worker.start((time, 0), "main#1").end()
            if time % 100 == 0:
                most = max(most, len(log._rows))
                log.flush()
            if time == 1_000:
                before = resource.getrusage(resource.RUSAGE_SELF).ru_maxrss
        log.finish((500_000, 0))
        log._followed.file.close()
        self.assertEqual((log.rows(), most), (1_000_000, 200))
        self.assertLess(resource.getrusage(resource.RUSAGE_SELF).ru_maxrss - before, 4_000)

    def test_killed(self):
        """A process that is killed loses the tag at hand alone; one that is killed while it saves leaves whole tables or none."""
        for tags in range(1, 1_000, 100):
            text, flushed = self.kill("log", tags)
            right = "".join(f"start,0,{time},0,main#1,,,\nend,0,{time},0,main#1,,,\n" for time in range(flushed + 2))
            self.assertTrue((lftrace.TRACE_HEADER + right).startswith(text) and text.count("\n") > 2 * flushed)
        for turns in range(1, 20, 2):
            text, _ = self.kill("tables", turns)
            self.assertIn(text, ("", WHOLE))

    def kill(self, what, turns):
        """What stands in the first table of a process that was killed behind so many turns, and how many it had said."""
        path = self.folder / "killed.csv"
        child = subprocess.Popen([sys.executable, __file__, what, str(path)], stdout=subprocess.PIPE, text=True)
        said = [child.stdout.readline() for _ in range(turns)]
        child.send_signal(signal.SIGKILL)
        said += child.stdout.readlines()
        child.stdout.close()
        child.wait()
        return path.read_text() if path.exists() else "", int(said[-1])

    def test_values(self):
        """Hashes and bits are those of lftrace.h."""
        self.assertEqual((lftrace.of_bytes(b""), lftrace.of_bytes(b"a")), (0xCBF29CE484222325 - 2**64, 0xAF63DC4C8601EC8C - 2**64))
        self.assertEqual((lftrace.of_double(1.5), lftrace.of_double(-0.0)), (0x3FF8000000000000, -(2**63)))


def killed(what, path):
    """Records until it is killed. Behind each turn it says how many there are."""
    log, turn = lftrace.Log(), 0
    if what == "log":
        log.follow(open(path, "wb"))
        worker = log.worker(0)
    while True:
        if what == "log":
            worker.start((turn, 0), "main#1").end()
            log.flush()
        else:
            log = lftrace.Log()
            record(log)
            log.save(path, f"{path}.externals", STOP)
        turn += 1
        print(turn, flush=True)


if __name__ == "__main__":
    if sys.argv[1:2] in (["log"], ["tables"]):
        killed(*sys.argv[1:])
    unittest.main()
