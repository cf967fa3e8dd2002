#!/usr/bin/env python3
"""from_reactor_c.py TABLE SHOWN > starts.csv: starts and ends of the table that reactor-c's trace_to_csv writes.

SHOWN is the output of `lftrace show --lower PROGRAM`.

THE FORMAT IS FROM MEMORY. Look first at:
- the names of the columns: Event, Reactor, Source, Destination, Elapsed Logical Time, Microstep, Elapsed Physical Time;
- the names of the events: `Reaction starts`, `Reaction ends`;
- Source, which is taken as the worker, and Destination, as the number of the reaction, which counts from 0;
- Reactor, which is taken as `Program.a.b[2]`: the main reactor has the program's name there;
- the times: nanoseconds since the start;
- the order: rows of a worker stand in their own order, those of different workers in any.
"""
import csv

import merging

EVENTS = {"Reaction starts": "start", "Reaction ends": "end"}


def reaction(reactor, number):
    _, dot, inside = reactor.partition(".")
    return f"main{dot}{inside}#{int(number) + 1}"


def main():
    (path, shown), runs_of = merging.words(), {}
    with open(path, newline="", encoding="utf-8") as table:
        for row in csv.DictReader(table, skipinitialspace=True):
            event = EVENTS.get(row["Event"])
            if event:
                run = event, row["Elapsed Logical Time"], row["Microstep"], reaction(row["Reactor"], row["Destination"])
                runs_of.setdefault(int(row["Source"]), []).append((int(row["Elapsed Physical Time"]), *run))
    merging.write(runs_of, shown)


main()
