#!/usr/bin/env python3
"""measure.py judge|cover|follow|pair|workers LFTRACE BUILT FOLDER ROWS: measures what `bench/run` with that
word built, and prints a table of ratios. bench/README.md tells what they mean.

BUILT has the programs shapes, plain and csv; the tables are made in FOLDER once. From the
environment: SHAPES (some of them, by name), TURNS (5) and WORKERS (1; not asked by `workers`).
"""
import hashlib, os, re, statistics, subprocess, sys, time

# Each shape, and the ordinary one with rows of the same kind beside which a corner is put.
ORDINARY = ["dense", "wide", "sparse", "pipelines", "events", "mixed"]
CORNERS = {
    "triggers": "mixed", "reads": "mixed", "together": "wide", "schedules": "mixed",
    "timers": "dense", "equal": "dense", "token": "pipelines", "overlaps": "sparse",
}
MOST_BY_CSV, MOST_BY_TENTH, MOST_BYTES, MOST_BY_ORDINARY = 2.5, 12, 110, 5
MOST_BY_JUDGE = {"cover": 1.5, "follow": 1.0}
MOST_BY_FOLLOW = 1.2
MOST_BY_DENSE = {"timers": 3, "equal": 3}

# The rows of a small table.
SMALL = 9_000

# A run that took so many ms isn't repeated.
LONG = 20_000


class Run:
    """The least wall time of a command so far, in ms, its user and system time in that run and in each, and
    the greatest peak of memory in kB."""

    def __init__(self, words, stdin=os.devnull):
        self.words, self.wall, self.busy, self.peak, self.said = words, float("inf"), 0, 0, None
        self.stdin, self.each_busy = stdin, []

    def turn(self):
        start = time.perf_counter()
        with open(self.stdin, "rb") as stdin:
            child = subprocess.Popen(self.words, stdin=stdin, stdout=subprocess.PIPE)
        said = child.stdout.read().decode()
        _, status, used = os.wait4(child.pid, 0)
        wall = (time.perf_counter() - start) * 1000
        child.returncode = os.waitstatus_to_exitcode(status)
        if child.returncode != 0 or self.said not in (None, said):
            print(f"status {child.returncode}: {' '.join(self.words)}: {said.strip()}")
        self.said = said
        self.peak = max(self.peak, used.ru_maxrss)
        self.each_busy.append((used.ru_utime + used.ru_stime) * 1000)
        if wall < self.wall:
            self.wall, self.busy = wall, self.each_busy[-1]


class Pass(Run):
    """The pass of csv tells its own time, without that of reading the files."""

    def turn(self):
        told = subprocess.run(self.words, stdout=subprocess.PIPE, check=True)
        self.said = told.stdout.decode()
        times = [int(line.split()[2]) for line in self.said.splitlines()]
        self.wall = min(self.wall, sum(times) / 1000)


class Tables:
    """A shape's tables, made where they aren't there yet."""

    def __init__(self, options, rows, shape, *again):
        self.folder = os.path.join(options.folder, f"{shape}-{rows}")
        self.rows = int(self.make(options, "rows", str(rows), shape))
        names = ["program.lf", "externals.csv", "trace.csv"]
        if again:
            self.make(options, "rows-again", str(rows), shape, *again)
            names.append("again.csv")
        self.paths = [os.path.join(self.folder, name) for name in names]
        self.bytes = [os.path.getsize(path) for path in self.paths]

    def make(self, options, told, *words):
        """What the maker told; it stands in a file once all is made."""
        told = os.path.join(self.folder, told)
        if not os.path.exists(told):
            made = subprocess.run([options.built + "/shapes", self.folder, *words],
                                  stdout=subprocess.PIPE, check=True)
            with open(told, "wb") as file:
                file.write(made.stdout)
        with open(told) as file:
            return file.read()


def tag_of(fields):
    return int(fields[0]), int(fields[1])


def log_of(tables):
    """The path of one log of a shape, made once: each event stands before the first row at its tag or a later one."""
    _, externals, trace = tables.paths
    log = os.path.join(tables.folder, "log.csv")
    if os.path.exists(log):
        return log
    with open(externals) as file:
        lines = file.readlines()[1:]
    events = sorted((line for line in lines if line.startswith("event,")), key=lambda line: tag_of(line.split(",")[1:3]))
    waiting = events[::-1]
    with open(trace) as rows, open(log + ".part", "w") as file:
        file.write(next(rows))
        for row in rows:
            tag = tag_of(row.split(",", 4)[2:4])
            while waiting and tag_of(waiting[-1].split(",")[1:3]) <= tag:
                file.write(waiting.pop())
            file.write(row)
        file.writelines(waiting[::-1] + [line for line in lines if line.startswith("stop,")])
    os.rename(log + ".part", log)
    return log


def say_program(path, workers, which, turns):
    """Which program is measured, and on what."""
    with open(path, "rb") as file:
        digest = hashlib.sha256(file.read()).hexdigest()[:16]
    version = subprocess.run([path, "--version"], capture_output=True).stdout.decode().strip()
    here = os.path.dirname(os.path.abspath(__file__))
    commit = subprocess.run(["git", "-C", here, "log", "-1", "--format=%h %s"], capture_output=True)
    made = time.strftime("%Y-%m-%d %H:%M:%S", time.gmtime(os.path.getmtime(path)))
    load = ", ".join(f"{load:.1f}" for load in os.getloadavg())
    print(f"program   {path}\n          {version}, sha256 {digest}.., made {made} UTC")
    print(f"sources   {commit.stdout.decode().strip()}")
    print(f"machine   {os.cpu_count()} processors, load {load}")
    print(f"measured  --workers {workers}, the {which} of {turns} turns", flush=True)


def take_turns(runs, turns):
    for _ in range(turns):
        for run in runs:
            if run.wall < LONG or run.said is None:
                run.turn()


def judge_shape(options, shape):
    """The row of a shape: its numbers by name."""
    full, tenth = (Tables(options, rows, shape) for rows in (options.rows, options.rows // 10))
    words = [options.lftrace, "judge"]
    workers = ["--workers", options.workers]
    judge, small = (Run(words + tables.paths + workers) for tables in (full, tenth))
    plain = Run([options.built + "/plain"] + full.paths)
    bare = Pass([options.built + "/csv"] + full.paths[1:])
    take_turns([bare, plain, judge, small], options.turns)
    if judge.said != plain.said:
        print(f"{shape}: lftrace and plain differ: {judge.said!r}, {plain.said!r}")
    text = sum(full.bytes)
    return {
        "rows": full.rows, "MB": text / 1e6, "csv": bare.wall, "plain": plain.wall,
        "judge": judge.wall, "busy": judge.busy, "by csv": judge.wall / bare.wall,
        "by plain": judge.wall / plain.wall, "tenth": small.wall,
        "by tenth": judge.wall / small.wall * (10 * tenth.rows / full.rows),
        "peak": judge.peak / 1e3, "bytes": (judge.peak * 1024 - text) / full.rows,
        "ns": judge.wall * 1e6 / full.rows,
    }


HEAD = ("shape", "rows", "MB", "csv", "plain", "judge", "busy", "by csv", "by plain", "tenth",
        "by tenth", "peak MB", "bytes/row", "by ordinary")
FORM = "{:10} {:>8} {:>6} {:>6} {:>6} {:>7} {:>7} {:>7} {:>8} {:>7} {:>8} {:>8} {:>9} {}"


def judge_all(options):
    told, missed = {}, []
    print(FORM.format(*HEAD))
    for shape in options.shapes:
        row = told[shape] = judge_shape(options, shape)
        ordinary = CORNERS.get(shape)
        beside = row["ns"] / told[ordinary]["ns"] if ordinary in told else None
        print(FORM.format(
            shape, row["rows"], f"{row['MB']:.0f}", f"{row['csv']:.0f}", f"{row['plain']:.0f}",
            f"{row['judge']:.0f}", f"{row['busy']:.0f}", f"{row['by csv']:.2f}",
            f"{row['by plain']:.2f}", f"{row['tenth']:.0f}", f"{row['by tenth']:.1f}",
            f"{row['peak']:.0f}", f"{row['bytes']:.0f}",
            "" if beside is None else f"{beside:.2f} ({ordinary})"), flush=True)
        goals = [("by tenth", row["by tenth"], MOST_BY_TENTH),
                 ("bytes/row", row["bytes"], MOST_BYTES)]
        if ordinary is None:
            goals.append(("by csv", row["by csv"], MOST_BY_CSV))
        elif beside is not None:
            most = MOST_BY_DENSE.get(shape, MOST_BY_ORDINARY)
            goals.append((f"by {ordinary}", beside, most))
        missed += [f"{shape}: {what} {value:.2f}, at most {most}"
                   for what, value, most in goals if value > most]
    print("goals missed:" if missed else "no goal missed", *missed, sep="\n  ")


def cover_all(options):
    """`lftrace cover --list` beside `lftrace judge`, in turn."""
    form = "{:10} {:>8} {:>6} {:>7} {:>7} {:>8} {:>9} {:>13} {:>13}"
    print(form.format("shape", "rows", "MB", "judge", "cover", "by judge", "busy by", "judge peak MB", "cover peak MB"))
    missed = []
    for shape in options.shapes:
        tables = Tables(options, options.rows, shape)
        words = tables.paths + ["--workers", options.workers]
        judge, cover = (Run([options.lftrace, *command, *words]) for command in (["judge"], ["cover", "--list"]))
        take_turns([judge, cover], options.turns)
        if cover.said.split("\n")[0] + "\n" != judge.said:
            print(f"{shape}: unlike {judge.said!r}")
        by_judge = cover.wall / judge.wall
        print(form.format(
            shape, tables.rows, f"{sum(tables.bytes) / 1e6:.0f}", f"{judge.wall:.0f}", f"{cover.wall:.0f}", f"{by_judge:.2f}",
            f"{cover.busy / judge.busy:.2f}", f"{judge.peak / 1e3:.0f}", f"{cover.peak / 1e3:.0f}"), flush=True)
        if shape in ORDINARY and by_judge > MOST_BY_JUDGE["cover"]:
            missed.append(f"{shape}: by judge {by_judge:.2f}, at most {MOST_BY_JUDGE['cover']}")
    print("goals missed:" if missed else "no goal missed", *missed, sep="\n  ")


def follow_all(options):
    """`lftrace follow` of the same file and of one log beside `lftrace judge`, in turn. Each ratio is one of processor
    time in one turn."""
    form = "{:10} {:>8} {:>6} {:>7} {:>7} {:>7} {:>8} {:>12} {:>13} {:>10} {:>13} {:>14} {:>11}"
    print(form.format("shape", "rows", "MB", "judge", "follow", "log", "by judge", "least, most", "log by follow", "rows/s", "judge peak MB", "follow peak MB", "log peak MB"))
    missed = []
    for shape in options.shapes:
        tables = Tables(options, options.rows, shape)
        judge = Run([options.lftrace, "judge", *tables.paths, "--workers", options.workers])
        follow = Run([options.lftrace, "follow", *tables.paths])
        log = Run([options.lftrace, "follow", tables.paths[0]], log_of(tables))
        take_turns([judge, follow, log], options.turns)
        for run in (follow, log):
            if run.said != judge.said:
                print(f"{shape}: unlike {judge.said!r}: {run.said!r}")
        ratios, by_follow = ([ours / theirs for ours, theirs in zip(*pair)] for pair in ((follow.each_busy, judge.each_busy), (log.each_busy, follow.each_busy)))
        times, by_judge, log_by_follow = [statistics.median(run.each_busy) for run in (judge, follow, log)], statistics.median(ratios), statistics.median(by_follow)
        print(form.format(
            shape, tables.rows, f"{sum(tables.bytes) / 1e6:.0f}", *(f"{time:.0f}" for time in times), f"{by_judge:.2f}",
            f"{min(ratios):.2f}, {max(ratios):.2f}", f"{log_by_follow:.2f}", f"{tables.rows / times[1] * 1000:.0f}",
            *(f"{run.peak / 1e3:.0f}" for run in (judge, follow, log))), flush=True)
        goals = [("by judge", by_judge, MOST_BY_JUDGE["follow"]), ("log by follow", log_by_follow, MOST_BY_FOLLOW)]
        missed += [f"{shape}: {what} {value:.2f}, at most {most}" for what, value, most in goals if shape in ORDINARY and value > most]
    print("goals missed:" if missed else "no goal missed", *missed, sep="\n  ")


def pair_all(options):
    form = "{:10} {:>8} {:>6} {:>7} {:>7} {:>7} {:>12} {:>8} {:>9}"
    print(form.format("shape", "rows", "MB", "first", "second", "pair", "pair by both", "peak MB",
                      "bytes/row"))
    for shape in options.shapes:
        tables = Tables(options, options.rows, shape, "again")
        program, externals, first, second = tables.paths
        workers = ["--workers", options.workers]
        words = [options.lftrace, "judge", program, externals]
        judges = [Run(words + [trace] + workers) for trace in (first, second)]
        both = Run([options.lftrace, "pair"] + tables.paths + workers)
        take_turns(judges + [both], options.turns)
        if both.said != (judges[0].said or "").replace("accepted", "same"):
            print(f"{shape}: unlike {judges[0].said!r}: {both.said!r}")
        alone = judges[0].wall + judges[1].wall
        print(form.format(
            shape, tables.rows, f"{sum(tables.bytes) / 1e6:.0f}", f"{judges[0].wall:.0f}",
            f"{judges[1].wall:.0f}", f"{both.wall:.0f}", f"{both.wall / alone:.2f}",
            f"{both.peak / 1e3:.0f}",
            f"{(both.peak * 1024 - sum(tables.bytes)) / 2 / tables.rows:.0f}"), flush=True)


def workers_all(options):
    """The ordinary shapes with 1, 2 and 4 workers in turn, and tables of 9,000 rows with 1 and 4."""
    form = "{:10} {:>8} {:>8} {:>8} {:>8} {:>6} {:>6} {:>9} {:>9}"
    print(form.format("shape", "rows", "1 ms", "2 ms", "4 ms", "2 by 1", "4 by 1", "small 1",
                      "small 4"))
    missed = []
    for shape in [shape for shape in options.shapes if shape in ORDINARY]:
        tables, few = (Tables(options, rows, shape) for rows in (options.rows, SMALL))
        words = [options.lftrace, "judge"]
        one, two, four = (Run(words + tables.paths + ["--workers", n]) for n in "124")
        alone, beside = (Run(words + few.paths + ["--workers", n]) for n in "14")
        take_turns([one, two, four] + 10 * [alone, beside], options.turns)
        if not one.said == two.said == four.said or alone.said != beside.said:
            print(f"{shape}: the workers differ")
        by_two, by_four = two.wall / one.wall, four.wall / one.wall
        print(form.format(
            shape, tables.rows, f"{one.wall:.0f}", f"{two.wall:.0f}", f"{four.wall:.0f}",
            f"{by_two:.2f}", f"{by_four:.2f}", f"{alone.wall:.2f}", f"{beside.wall:.2f}"),
            flush=True)
        goals = [("2 by 1", by_two, 0.65), ("4 by 1", by_four, 0.45),
                 ("ms more", beside.wall - alone.wall, 2)]
        missed += [f"{shape}: {what} {value:.2f}, at most {most}"
                   for what, value, most in goals if value > most]
    print("goals missed:" if missed else "no goal missed", *missed, sep="\n  ")


class Options:
    def __init__(self, words):
        self.what, self.lftrace, self.built, self.folder = words[:4]
        self.rows = int(words[4])
        all_shapes = ORDINARY + list(CORNERS)
        self.shapes = re.findall(r"\w+", os.environ.get("SHAPES", "")) or all_shapes
        self.turns = int(os.environ.get("TURNS", "5"))
        self.workers = "1, 2, 4" if self.what == "workers" else os.environ.get("WORKERS", "1")


def main():
    measures = {"judge": judge_all, "cover": cover_all, "follow": follow_all, "pair": pair_all, "workers": workers_all}
    if len(sys.argv) != 6 or sys.argv[1] not in measures:
        sys.exit(__doc__)
    options = Options(sys.argv[1:])
    say_program(options.lftrace, options.workers, "median" if options.what == "follow" else "least", options.turns)
    measures[options.what](options)


main()
