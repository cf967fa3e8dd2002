#!/usr/bin/env python3
"""Four threads, a member of a bank each, and one that adds: bank.lf, recorded while it runs, by the names of its source.

    python3 bank.py | lftrace follow --lower bank.lf
    python3 bank.py early | lftrace follow --lower bank.lf     the sum doesn't wait for the last sensor
"""
import sys
import threading

import lftrace

MS = 1_000_000
SENSORS, STOP = 4, (50 * MS, 0)


def measure(log, number, tag, readings):
    """The reaction of a member of the bank."""
    run = log.worker(number).start(tag, f"main.s[{number}]#1")
    reading = 10 * number + tag[0] // MS
    run.write(f"main.s[{number}].reading", reading)
    run.end()
    readings[number] = reading


def add(log, tag, readings):
    """The reaction of the sum, which reads the channels that are present."""
    run = log.worker(0).start(tag, "main.d#1")
    for number, reading in sorted(readings.items()):
        run.read(f"main.d.x[{number}]", reading)
    run.end()


def main(words):
    if words not in ([], ["early"]):
        print(__doc__, file=sys.stderr)
        return 2
    log = lftrace.Log()
    log.follow(sys.stdout)
    for now in range(0, STOP[0] + 1, 5 * MS):
        readings = {}
        threads = [threading.Thread(target=measure, args=(log, number, (now, 0), readings)) for number in range(SENSORS)]
        for thread in threads[:-1] if words else threads:
            thread.start()
        for thread in threads[:-1] if words else threads:
            thread.join()
        add(log, (now, 0), readings)
        if words:
            threads[-1].start()
            threads[-1].join()
        log.flush()
    try:
        log.finish(STOP)
    except lftrace.NotRecorded as why:
        sys.exit(f"not recorded: {why}")
    return 0


if __name__ == "__main__":
    sys.exit(main(sys.argv[1:]))
