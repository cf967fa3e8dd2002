#!/usr/bin/env python3
"""from_reactor_cpp.py TEXT SHOWN > starts.csv: starts and ends of what babeltrace prints of a trace of reactor-cpp.

SHOWN is the output of `lftrace show --lower PROGRAM`.

THE FORMAT IS FROM MEMORY. Look first at:
- the events: `reactor_cpp:reaction_execution_starts` and `reactor_cpp:reaction_execution_finishes`;
- their fields, in this order: worker_id, reaction_name, timestamp_ns, timestamp_microstep;
- the clock: `[12:00:00.000000001]`, or `[1650000000.000000001]` where babeltrace was given --clock-seconds;
- reaction_name, which is taken as `Program.a.b_2.reaction_3`, or with another word before the 3. A member of a bank is taken
  as `b_2`: an instance whose own name ends so is taken as one too;
- timestamp_ns, whose least is taken as the start of the execution.
"""
import re

import merging

LINE = re.compile(
    r"^\[(?:(\d+):(\d+):)?(\d+)\.(\d{9})\].*reactor_cpp:reaction_execution_(starts|finishes):"
    r'.*worker_id = (\d+), reaction_name = "([^"]*)", timestamp_ns = (\d+), timestamp_microstep = (\d+)'
)
MEMBER = re.compile(r"_(\d+)(?=\.|$)")
DAY = 24 * 3600 * 10**9


def reaction(name):
    reactor, _, word = name.rpartition(".")
    _, dot, inside = reactor.partition(".")
    members = MEMBER.sub(r"[\1]", inside)
    return f"main{dot}{members}#{word.rpartition('_')[2]}"


def main():
    (path, shown), found, last, days = merging.words(), [], 0, 0
    with open(path, encoding="utf-8") as text:
        for line in filter(None, map(LINE.match, text)):
            hour, minute, second, nano, event, worker, name, time, microstep = line.groups()
            clock = (int(hour or 0) * 3600 + int(minute or 0) * 60 + int(second)) * 10**9 + int(nano)
            # A clock of hours begins anew at midnight.
            days, last = days + (clock < last - DAY // 2), clock
            found.append((int(worker), clock + days * DAY, event, int(time), microstep, reaction(name)))
    first, runs_of = min((it[3] for it in found), default=0), {}
    for worker, clock, event, time, microstep, name in found:
        runs_of.setdefault(worker, []).append((clock, "start" if event == "starts" else "end", time - first, microstep, name))
    merging.write(runs_of, shown)


main()
