#!/usr/bin/env python3
"""junit.py PROGRAM FOLDER..: judges trace.csv of each folder, with the externals.csv beside it.
junit.py PROGRAM EXTERNALS TRACE..: judges traces that have one table of external inputs.

Writes JUnit XML to standard output. A trace is a test case. A breach is a failure with its rule as the type, and
its facts stand inside. A fault is an error with its name as the type.
Status: that of the worst trace: 0 accepted, 1 broken, 2 a fault.
LFTRACE names the program lftrace, if it isn't on the PATH.
"""
import os
import re
import subprocess
import sys
import time
from xml.sax.saxutils import escape, quoteattr

LFTRACE = os.environ.get("LFTRACE") or "lftrace"
# What an answer with this status begins with.
FIRST_WORDS = {0: "accepted ", 1: "broken "}
NOT_XML = re.compile("[^\t\n\r -\ud7ff\ue000-\ufffd\U00010000-\U0010ffff]")


def text(raw):
    """Bytes of a path or an answer as text that XML may hold."""
    return NOT_XML.sub("\ufffd", raw.decode("utf-8", "replace"))


def run(*words):
    """Status, output and errors of a command, or that there is none."""
    try:
        done = subprocess.run(words, check=False, stdin=subprocess.DEVNULL, capture_output=True)
        return done.returncode, text(done.stdout), text(done.stderr)
    except OSError as fault:
        return 2, "", str(fault)


def judge(program, externals, trace, command="explain"):
    """The status, the line of lftrace, its facts, and how long it took."""
    begun = time.monotonic()
    status, said, fault = run(LFTRACE, command, "--lower", "--", program, externals, trace)
    said = (fault + said).strip()
    # Otherwise it isn't lftrace that answers: a signal ended it, or it is another program.
    if status != 2 and not (status in FIRST_WORDS and said.startswith(FIRST_WORDS[status])):
        status, said = 2, f"fault: status {status} {said}".strip()
    line, _, facts = said.partition("\n")
    return status, line, facts.strip("\n"), time.monotonic() - begun


def refusal(program):
    """The fault of a program that is refused and why, or nothing."""
    status, why, fault = run(LFTRACE, "explain", "--lower", "--", program)
    return (fault.strip(), why.strip("\n")) if status == 2 and fault.startswith("fault ") else ("", "")


def name_of(line):
    """The rule or the fault that a line names, as in `broken rule=10 wrong-read ..` and `fault trace 5 UnknownName ..`."""
    found = re.match(r"broken \S+ (\S+)|fault \S+ \d+ (\S+)", line)
    return found[1] or found[2] if found else "fault"


def test_case(trace, status, line, facts, seconds):
    said = f"message={quoteattr(line)} type={quoteattr(name_of(line))}>{escape(facts)}"
    answer = [f"<system-out>{escape(line)}</system-out>", f"<failure {said}</failure>", f"<error {said}</error>"][status]
    return f'  <testcase classname="lftrace" name={quoteattr(text(os.fsencode(trace)))} time="{seconds:.3f}">{answer}</testcase>'


def tables(first, rest):
    """The two tables of each run."""
    if os.path.isdir(first):
        return [(os.path.join(folder, "externals.csv"), os.path.join(folder, "trace.csv")) for folder in [first, *rest]]
    return [(first, trace) for trace in rest]


def main(program, first, *rest):
    results = [(trace, *judge(program, externals, trace)) for externals, trace in tables(first, rest)]
    statuses = [result[1] for result in results]
    lines = ['<?xml version="1.0" encoding="UTF-8"?>']
    lines.append(f'<testsuite name="lftrace" tests="{len(results)}" failures="{statuses.count(1)}" errors="{statuses.count(2)}">')
    lines += [test_case(*result) for result in results]
    lines.append("</testsuite>\n")
    sys.stdout.buffer.write("\n".join(lines).encode())
    return max(statuses)


if __name__ == "__main__":
    if len(sys.argv) < 3 or not os.path.isdir(sys.argv[2]) and len(sys.argv) < 4:
        print(__doc__, file=sys.stderr)
        sys.exit(2)
    sys.exit(main(*sys.argv[1:]))
