#!/usr/bin/env python3
"""from_chrome.py JSON SHOWN > starts.csv: starts and ends of trace events, as Chrome and Perfetto show them.

SHOWN is the output of `lftrace show --lower PROGRAM`.

THE FORMAT IS FROM MEMORY, and what a runtime puts into it is its own choice. Look first at:
- the events: `ph` is X with `ts` and `dur`, or B and E with `ts`; in `traceEvents`, or in a list;
- `name`, which is taken as the reaction, as `main.a.b[2]#1`;
- `args` of X and B: `time` in nanoseconds since the start, and `microstep`. Events without them are left out;
- `pid` and `tid`, which together are taken as the worker;
- `ts`, in microseconds: with a fraction, or else it is a coarse clock.
"""
import decimal
import json

import merging


def events(path):
    with open(path, encoding="utf-8") as text:
        found = json.load(text, parse_float=decimal.Decimal)
    return found["traceEvents"] if isinstance(found, dict) else found


def main():
    (path, shown), runs_of, open_of = merging.words(), {}, {}
    # Events of one time keep their order.
    for event in sorted((it for it in events(path) if it.get("ph") in ("X", "B", "E")), key=lambda it: it["ts"]):
        worker, clock, args = (event.get("pid", 0), event.get("tid", 0)), event["ts"], event.get("args", {})
        runs, nested = runs_of.setdefault(worker, []), open_of.setdefault(worker, [])
        run = (args["time"], args["microstep"], event["name"]) if "microstep" in args else None
        if event["ph"] == "B":
            nested.append(run)
        elif event["ph"] == "E":
            run = nested.pop() if nested else None
        if run and event["ph"] != "E":
            runs.append((clock, "start", *run))
        if run and event["ph"] != "B":
            runs.append((clock + event.get("dur", 0), "end", *run))
    merging.write(runs_of, shown)


main()
