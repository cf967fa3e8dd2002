#!/usr/bin/env python3
"""measure.py LFTRACE BUILT FOLDER RUNS: measures what `bench/run record` built, and prints two tables.

BUILT has the program record_speed; texts and tables are made in FOLDER. From the environment:
WORKERS ("1 4") and TURNS (3). The shapes are a pipeline of five reactions, one firing of a timer five
runs; 1,000 reactors that know nothing of each other, each with a timer; and one reaction with 9,000
timers, of which another one fires at each tag.

The first table is of `lftrace record` by cards, the whole process: `ms` its wall time, `runs/s` the
runs by that, `writing` the milliseconds that `write_trace` alone takes for the table, `peak MB` the
most memory. What it writes is judged. The second is of bodies that compute for 20 microseconds each, a
hundredth of the runs, by `record_run` alone, of the first two shapes: `bodies alone` is what the bodies
take one after another, `by first` the time divided by that of the first number of workers.
"""
import os, re, subprocess, sys, time

# The goal of `lftrace record`, in runs a second.
LEAST_SPEED = 500_000

PIPELINE = 5
REACTORS = 1_000
TIMERS = 9_000
# With bodies that compute, a hundredth of the runs is recorded: 20 microseconds each.
BODIES_PART = 100


def pipeline(runs):
    """Five reactions in a row, the first one by a timer: a text, its last tag, bodies, cards."""
    parts = "".join(f"p{k} = new Part()\n" for k in range(1, PIPELINE))
    links = "".join(f"p{k}.y -> p{k + 1}.x\n" for k in range(1, PIPELINE - 1))
    text = ("reactor Source { output y: int  timer t(0, 1 us)  reaction(t) -> y {= =} }\n"
            "reactor Part { input x: int  output y: int  reaction(x) -> y {= =} }\n"
            f"main reactor {{\np0 = new Source()\n{parts}p0.y -> p1.x\n{links}}}\n")
    tags = max(1, runs // PIPELINE)
    cards = [f"write,main.p{k}#1,main.p{k}.y,,state\nstate,main.p{k}#1,,,state+1\n"
             for k in range(PIPELINE)]
    return text, tags, [f"main.p{k}#1" for k in range(PIPELINE)], cards


def independent(runs):
    """A thousand reactors that know nothing of each other, each with a timer."""
    parts = "".join(f"p{k} = new Part()\n" for k in range(REACTORS))
    text = ("reactor Part { output y: int  timer t(0, 1 us)  reaction(t) -> y {= =} }\n"
            f"main reactor {{\n{parts}}}\n")
    tags = max(1, runs // REACTORS)
    cards = [f"write,main.p{k}#1,main.p{k}.y,,time\n" for k in range(REACTORS)]
    return text, tags, [f"main.p{k}#1" for k in range(REACTORS)], cards


def timers(runs):
    """One reaction with 9,000 timers, of which another one fires at each microsecond."""
    parts = "".join(f"timer t{k}({k} us, {TIMERS} us)\n" for k in range(TIMERS))
    triggers = ", ".join(f"t{k}" for k in range(TIMERS))
    text = f"main reactor {{\n{parts}reaction({triggers}) {{= =}}\n}}\n"
    return text, max(1, runs), ["main#1"], ["state,main#1,,,state+1\n"]


SHAPES = {"pipeline": pipeline, "independent": independent, "timers": timers}


def write(folder, name, text):
    path = os.path.join(folder, name)
    with open(path, "w") as file:
        file.write(text)
    return path


class Texts:
    """The texts of a shape, for so many runs."""

    def __init__(self, folder, shape, runs):
        text, self.tags, names, cards = SHAPES[shape](runs)
        self.folder = os.path.join(folder, f"{shape}-{runs}")
        os.makedirs(self.folder, exist_ok=True)
        self.runs = self.tags * len(names)
        stop = f"kind,time,microstep,name,value\nstop,{(self.tags - 1) * 1000},0,,\n"
        bodies = "".join(f"bodies,{name},,,{self.tags}\n" for name in names)
        self.program = write(self.folder, "program.lf", text)
        self.externals = write(self.folder, "externals.csv", stop)
        self.cards = write(self.folder, "cards.csv",
                           "kind,reaction,name,delay,value\n" + bodies + "".join(cards))
        self.table = os.path.join(self.folder, "trace.csv")


def record(lftrace, texts, workers):
    """The wall time of a recording in ms, and the most memory that it held in MB."""
    words = [lftrace, "record", texts.program, texts.externals, texts.cards, "--workers", workers]
    with open(texts.table, "wb") as table:
        start = time.perf_counter()
        child = subprocess.Popen(words, stdout=table)
        _, status, used = os.wait4(child.pid, 0)
        wall = (time.perf_counter() - start) * 1000
    child.returncode = os.waitstatus_to_exitcode(status)
    if child.returncode != 0:
        sys.exit(f"status {child.returncode}: {' '.join(words)}")
    return wall, used.ru_maxrss / 1e3


def told(words):
    """A number of things and a time in ms, as record_speed tells them."""
    line = subprocess.run(words, stdout=subprocess.PIPE, check=True).stdout.decode().strip()
    found = re.fullmatch(r"(\d+) \w+ (\d+) us", line)
    if not found:
        sys.exit(f"{' '.join(words)}: {line}")
    return int(found[1]), int(found[2]) / 1000


def record_all(lftrace, speed, folder, runs, all_workers, turns):
    form = "{:12} {:>8} {:>8} {:>9} {:>8} {:>9} {:>8} {:>8}"
    print(form.format("shape", "workers", "runs", "rows", "ms", "runs/s", "writing", "peak MB"))
    for shape in SHAPES:
        texts = Texts(folder, shape, runs)
        for workers in all_workers:
            turned = [record(lftrace, texts, workers) for _ in range(turns)]
            wall, peak = min(turned)[0], max(peak for _, peak in turned)
            rows, writing = told([speed, "table", texts.program, texts.externals, texts.table])
            judged = subprocess.run([lftrace, "judge", texts.program, texts.externals, texts.table],
                                    stdout=subprocess.PIPE).stdout.decode().strip()
            if judged != f"accepted runs={texts.runs} tags={texts.tags}":
                print(f"{shape}, {workers} workers: {judged}")
            print(form.format(shape, workers, texts.runs, rows, f"{wall:.0f}",
                              f"{texts.runs * 1000 / wall:.0f}", f"{writing:.0f}", f"{peak:.0f}"),
                  flush=True)


def bodies_all(speed, folder, runs, all_workers, turns):
    form = "{:12} {:>8} {:>8} {:>8} {:>12} {:>10}"
    print(form.format("20 us a body", "workers", "runs", "ms", "bodies alone", "by first"))
    for shape in ["pipeline", "independent"]:
        texts = Texts(folder, shape, max(1, runs // BODIES_PART))
        first = None
        for workers in all_workers:
            words = [speed, "bodies", texts.program, texts.externals, str(texts.tags), workers]
            times = [told(words) for _ in range(turns)]
            count, wall = times[0][0], min(wall for _, wall in times)
            first = first or wall
            print(form.format(shape, workers, count, f"{wall:.0f}", f"{count * 0.02:.0f}",
                              f"{wall / first:.2f}"), flush=True)


def main():
    if len(sys.argv) != 5:
        sys.exit(__doc__)
    lftrace, built, folder, runs = sys.argv[1:]
    workers = os.environ.get("WORKERS", "1 4").split()
    turns = int(os.environ.get("TURNS", "3"))
    load = ", ".join(f"{load:.1f}" for load in os.getloadavg())
    print(f"program   {lftrace}\nmachine   {os.cpu_count()} processors, load {load}")
    print(f"measured  the least of {turns} turns; the goal is {LEAST_SPEED} runs a second", flush=True)
    os.makedirs(folder, exist_ok=True)
    speed = os.path.join(built, "record_speed")
    record_all(lftrace, speed, folder, int(runs), workers, turns)
    bodies_all(speed, folder, int(runs), workers, turns)


main()
