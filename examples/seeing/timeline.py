#!/usr/bin/env python3
"""timeline.py TRACE [SAID]: writes a trace table as trace events (JSON), for Perfetto and Chrome.

Each worker is a track and each run a slice; row n of the table stands at n microseconds. SAID is what
lftrace said of the trace: the run that it names is marked, and a track of its own shows where.
"""
import json

import runs

WORKERS, VERDICT = 1, 2


def name_track(what, pid, tid, name):
    return {"ph": "M", "name": f"{what}_name", "pid": pid, "tid": tid, "args": {"name": name}}


def slice_of(run, marked):
    arguments = {"time": run.tag[0], "microstep": run.tag[1]}
    arguments |= {f"row {row.line}": row.text() for row in run.rows}
    if not run.is_whole:
        arguments["whole"] = False
    event = {"ph": "X", "name": run.reaction, "cat": runs.tag_text(run.tag), "pid": WORKERS, "tid": run.worker + 1}
    event |= {"ts": run.first, "dur": max(run.last - run.first, 0.5), "args": arguments}
    if marked:
        event["name"] = f"BREACH {run.reaction}"
    return event


def events(trace, breach):
    """All events, each run as soon as its last row is read."""
    yield name_track("process", WORKERS, 0, trace)
    workers, marks, place = set(), [], 1
    for run in runs.read_runs(trace):
        if run.worker not in workers:
            workers.add(run.worker)
            yield name_track("thread", WORKERS, run.worker + 1, f"worker {run.worker}")
        marked = breach is not None and breach.names(run)
        if marked:
            marks.append((run.first, max(run.last - run.first, 0.5)))
        if breach and run.tag <= breach.tag:
            place = max(place, run.last)
        yield slice_of(run, marked)
    if breach:
        yield name_track("process", VERDICT, 0, "lftrace")
        yield name_track("thread", VERDICT, 1, "verdict")
        # Where no run is named, the place is behind the last row up to the tag.
        for begin, length in marks or [(place, 0.5)]:
            yield {"ph": "X", "name": breach.text, "pid": VERDICT, "tid": 1, "ts": begin, "dur": length}


def main(trace, said=""):
    separator = "["
    for event in events(trace, runs.read_breach(said)):
        print(separator, json.dumps(event))
        separator = ","
    print("]")


if __name__ == "__main__":
    runs.call(main, __doc__, 1, 2)
