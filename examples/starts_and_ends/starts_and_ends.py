#!/usr/bin/env python3
"""Prepares a trace that has starts and ends alone, so that lftrace judges the order of its runs.

    starts_and_ends.py PROGRAM TRACE FOLDER
    lftrace judge FOLDER/program.lf FOLDER/externals.csv FOLDER/trace.csv

TRACE has the header of a trace table; rows other than start and end are left out. In the new program each reaction
is triggered by a physical action of its own, which has an event at each tag at which the reaction ran. What
triggered the reaction before is now a use, so the precedence of reactions stays the same.
"""
import csv
import re
import sys

SKIPPED = r"\{=.*?=\}|//[^\n]*|/\*.*?\*/|#[^\n]*"
REACTION = r"\breaction\s*\w*\s*\((?P<triggers>[^)]*)\)(?P<uses>[^{]*?)(?P<effects>->[^{]*)?\{=.*?=\}"
PART = re.compile(rf"{SKIPPED}|(?P<reactor>\breactor\b)|{REACTION}", re.S)


def with_own_triggers(program):
    number = 0

    def rewrite(part):
        nonlocal number
        if part["reactor"]:
            number = 0
        if part["triggers"] is None:
            return part[0]
        number += 1
        inputs = [name.strip() for name in f"{part['triggers']},{part['uses']}".split(",")]
        uses = ", ".join(name for name in inputs if name not in ("", "startup", "shutdown"))
        return f"physical action ran_{number} reaction(ran_{number}) {uses} {part['effects'] or ''} {{= =}}"

    return PART.sub(rewrite, program)


def write_tables(rows, trace, externals):
    trace.write("event,worker,time,microstep,reaction,name,value,delay\n")
    events = set()
    for row in rows:
        run = "{worker},{time},{microstep},{reaction}".format(**row)
        trace.write(f"{row['event']},{run},,,\n")
        if row["event"] == "start":
            instance, number = row["reaction"].split("#")
            trace.write(f"read,{run},{instance}.ran_{number},,\n")
            events.add(f"event,{row['time']},{row['microstep']},{instance}.ran_{number},\n")
    time, microstep = max((int(row["time"]), int(row["microstep"])) for row in rows)
    externals.write("kind,time,microstep,name,value\n")
    externals.writelines(sorted(events))
    externals.write(f"stop,{time},{microstep},,\n")


def main(program_path, trace_path, folder):
    with open(program_path) as program, open(f"{folder}/program.lf", "w") as out:
        out.write(with_own_triggers(program.read()))
    with open(trace_path, newline="") as table:
        rows = [row for row in csv.DictReader(table) if row["event"] in ("start", "end")]
    if not rows:
        sys.exit(f"{trace_path} has no start and no end")
    with open(f"{folder}/trace.csv", "w") as trace, open(f"{folder}/externals.csv", "w") as externals:
        write_tables(rows, trace, externals)


if __name__ == "__main__":
    if len(sys.argv) != 4:
        sys.exit(__doc__)
    main(*sys.argv[1:])
