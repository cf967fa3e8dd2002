#!/usr/bin/env python3
"""What a row of a long run costs with lftrace.py, as bench.c measures it. The tables are written into the current
folder and removed."""
import os
import time

import lftrace

RUNS = 1_000_000
ROWS = 4 * RUNS
TURNS = 5


def record(followed):
    """One thread in the place of four workers: a tag has 100 rows."""
    log = lftrace.Log()
    if followed:
        log.follow(followed)
    workers = [log.worker(number) for number in range(4)]
    for number in range(RUNS):
        run = workers[number % 4].start((number // 25, 0), "main#1")
        run.read("main.p", number)
        run.write("main.p", number)
        run.end()
        if number % 25 == 24:
            log.flush()
    return log


def main():
    least = [float("inf")] * 3
    for _ in range(TURNS):
        times = [time.thread_time_ns()]
        log = record(None)
        times.append(time.thread_time_ns())
        log.save("bench_trace.csv", "bench_externals.csv", (RUNS, 0))
        times.append(time.thread_time_ns())
        del log
        with open("bench_trace.csv", "wb") as file:
            times.append(time.thread_time_ns())
            record(file).finish((RUNS, 0))
            times.append(time.thread_time_ns())
        taken = times[1] - times[0], times[2] - times[1], times[4] - times[3]
        least = [min(pair) for pair in zip(least, taken)]
    print(f"| recording | saving | recording as a log |   ns of processor time a row, of {ROWS} rows")
    print("| {:9.0f} | {:6.0f} | {:18.0f} |".format(*(taken / ROWS for taken in least)))
    os.remove("bench_trace.csv")
    os.remove("bench_externals.csv")


if __name__ == "__main__":
    main()
