#!/usr/bin/env python3
"""measure.py LFTRACE FOLDER: measures inputs that ask for much, each beside an ordinary one.

A shape is a lawful input that has two lengths, as the writes of a run and the effects of its
reaction. A program that looks through one for each of the other takes their product. Beside each
shape stands an ordinary input of the same command with as many rows: one reaction and one timer.
Of `show`, which reads no rows, it is a program with as many ports.

`seconds` and `MB` are the processor time and the most memory of `lftrace`, each with the same
divided by that of the ordinary input. `bytes` is the memory by each byte of input and output.
Texts are made in FOLDER, from SEED. From the environment: SEED (1), SHAPES (some of them, by
name), TURNS (3), SECONDS (120, after which a run is stopped).
"""
import multiprocessing, os, random, re, shutil, subprocess, sys, threading

MOST_BY_ORDINARY = 20
# A time below this can't be told from that of starting a process.
LEAST_SECONDS = 0.01

TRACE = "event,worker,time,microstep,reaction,name,value,delay\n"
EXTERNALS = "kind,time,microstep,name,value\n"
CARDS = "kind,reaction,name,delay,value\n"
TICK = "main reactor { timer t(0, 1 ns)  reaction(t) {= =} }\n"
WEEK = "1 week"
FOLDER = sys.argv[-1]


class Input:
    """The words of a command, the texts that it reads, and how many rows it judges or writes."""

    def __init__(self, command, rows, *texts, words=()):
        self.command, self.rows, self.texts, self.words = command, rows, texts, list(words)

    def write(self, folder):
        """Writes the texts; the words of the command, and the number of bytes."""
        paths, size = [], 0
        for number, text in enumerate(self.texts):
            paths.append(os.path.join(folder, f"text{number}"))
            with open(paths[-1], "w") as file:
                size += file.write(text)
        return [self.command, *paths, *self.words], size


def stop(time, microstep=0):
    return f"{EXTERNALS}stop,{time},{microstep},,\n"


def each(numbers, form, between=","):
    return between.join(form.format(number) for number in numbers)


def run(time, reaction, steps="", worker=0):
    """The rows of a run: its steps stand between its start and its end."""
    return (f"start,{worker},{time},0,{reaction},,,\n{steps}"
            f"end,{worker},{time},0,{reaction},,,\n")


def ticks(count):
    return TRACE + "".join(run(time, "main#1") for time in range(count))


def bodies(reaction, count=1_000_000):
    return f"bodies,{reaction},,,{count}\n"


def ordinary(asked):
    """One reaction and one timer, with as many rows. What is explained lacks the last run."""
    command, rows = asked.command, asked.rows
    count = max(1, rows // 2)
    if command == "show":
        return Input(command, rows, named(each(range(rows), "input p{:06}", " ")))
    if command == "record":
        return Input(command, rows, TICK, stop(count - 1), CARDS + bodies("main#1"))
    last = count if command == "explain" else count - 1
    return Input(command, rows, TICK, stop(last), *[ticks(count)] * (len(asked.texts) - 2))


# Programs, by their number of ports.

def ports(kind, count):
    return each(range(count), kind + " p{}", " ")


def named(ports):
    """A reactor with these ports, and a reaction beside it."""
    return f"reactor A {{ {ports} }}\nmain reactor {{ a = new A()  reaction(startup) {{= =}} }}\n"


def writer(count):
    """A reaction that may write each of so many ports."""
    return (f"reactor A {{ {ports('output', count)}\n"
            f"reaction(startup) -> {each(range(count), 'p{}')} {{= =}} }}\n"
            "main reactor { a = new A() }\n")


def reader(count):
    """A reaction that writes so many ports, and one that reads them."""
    return (f"reactor A {{ {ports('output', count)}\n"
            f"reaction(startup) -> {each(range(count), 'p{}')} {{= =}} }}\n"
            f"main reactor {{ a = new A()  reaction({each(range(count), 'a.p{}')}) {{= =}} }}\n")


def absent(count):
    """A reaction with a timer that may read so many ports. Nobody writes them."""
    return (f"reactor A {{ {ports('output', count)} }}\n"
            "main reactor { timer t(0, 1 ns)  a = new A()\n"
            f"reaction(t) {each(range(count), 'a.p{}')} {{= =}} }}\n")


def upstream(count):
    """As many reactions of one instance, each with as many uses. All precede the last one. Another
    reaction runs beside it."""
    uses = each(range(count), "i{}")
    return ("reactor W { output o  reaction(shutdown) -> o {= =} }\n"
            f"reactor Q {{ timer t(0, 1 ns)  {each(range(count), 'input i{}', ' ')}\n"
            + f"reaction(shutdown) {uses} {{= =}}\n" * (count - 1) + "reaction(t) {= =} }\n"
            "reactor Y { timer t(0, 1 ns)  reaction(t) {= =} }\n"
            f"main reactor {{ {each(range(count), 'w{0} = new W()', ' ')}\n"
            "q = new Q()  y = new Y()\n"
            f"{each(range(count), 'w{}.o')} -> {each(range(count), 'q.i{}')} }}\n")


def fan(count, delay):
    """So many ports that nobody reads, behind one that is written at each tag."""
    return ("reactor S { output o  timer t(0, 1 ns)  reaction(t) -> o {= =} }\n"
            f"reactor Q {{ {ports('input', count)} }}\n"
            "main reactor { s = new S()  q = new Q()\n"
            f"{','.join(['s.o'] * count)} -> {each(range(count), 'q.p{}')} after {delay} }}\n")


def chain(count):
    """So many ports that nobody reads, each a nanosecond behind the one before it."""
    return ("reactor C { input x  output y  x -> y after 1 ns }\n"
            "reactor S { output o  timer t(0, 1 ns)  reaction(t) -> o {= =} }\n"
            f"main reactor {{ s = new S()  {each(range(count), 'c{0} = new C()', ' ')}\n"
            "s.o -> c0.x\n"
            + "".join(f"c{k}.y -> c{k + 1}.x\n" for k in range(count - 1)) + "}\n")


# Shapes of `judge`.

def shuffled(count, chance):
    numbers = list(range(count))
    chance.shuffle(numbers)
    return numbers


def far_workers(chance):
    """400,000 runs that never end, each by a worker of its own"""
    count = 400_000
    workers = chance.sample(range(1_024, 2**32), count)
    table = TRACE + "".join(f"start,{worker},{time},0,main#1,,,\n"
                            for time, worker in enumerate(workers))
    return Input("judge", count, TICK, stop(count - 1), table)


def names(chance):
    """60,000 ports, 200,000 writes"""
    ports, count = 60_000, 200_000
    program = named(each(range(ports), "input p{}", " "))
    table = TRACE + "start,0,0,0,main#1,,,\n" + "".join(
        f"write,0,0,0,main#1,main.a.p{chance.randrange(ports)},1,\n" for _ in range(count))
    return Input("judge", count, program, stop(0), table)


def writes(chance):
    """1,000,000 writes by a reaction with 20,000 effects"""
    effects, count = 20_000, 1_000_000
    steps = "".join(f"write,0,0,0,main.a#1,main.a.p{chance.randrange(effects)},1,\n"
                    for _ in range(count))
    return Input("judge", count, writer(effects), stop(0), TRACE + run(0, "main.a#1", steps))


def read_table(count, order):
    writes = each(range(count), "write,0,0,0,main.a#1,main.a.p{},1,\n", "")
    reads = each(order, "read,0,0,0,main#1,main.a.p{},1,\n", "")
    return TRACE + run(0, "main.a#1", writes) + run(0, "main#1", reads)


def reads(chance):
    """a run that reads its 20,000 inputs in another order"""
    count = 20_000
    table = read_table(count, shuffled(count, chance))
    return Input("judge", 2 * count, reader(count), stop(0), table)


def absent_inputs(_):
    """80,000 runs of a reaction with 20,000 inputs, none of them present"""
    count = 80_000
    return Input("judge", 2 * count, absent(20_000), stop(count - 1), ticks(count))


def precedence(_):
    """40,000 tags with two runs, and 160,000 pairs that precede the first"""
    count = 40_000
    table = TRACE + "".join(run(time, "main.q#400") + run(time, "main.y#1")
                            for time in range(count))
    return Input("judge", 4 * count, upstream(400), stop(count - 1, 1), table)


def week_of_writes(count, reaction):
    """So many runs that write, behind a delay of a week 70 ports of a reactor with this reaction"""
    ports = 70
    program = ("reactor S { output o  logical action q  reaction(startup, q) -> o, q {= =} }\n"
               f"reactor Q {{ physical action p  {each(range(ports), 'input i{}', ' ')}  {reaction} }}\n"
               "main reactor { s = new S()  q = new Q()\n"
               f"{','.join(['s.o'] * ports)} -> {each(range(ports), 'q.i{}')} after {WEEK} }}\n")
    table = TRACE + "".join(
        run(time, "main.s#1",
            (f"read,0,{time},0,main.s#1,main.s.q,,\n" if time else "")
            + f"write,0,{time},0,main.s#1,main.s.o,1,\n"
            + (f"schedule,0,{time},0,main.s#1,main.s.q,,1\n" if time < count - 1 else ""))
        for time in range(count))
    return Input("judge", 5 * count - 2, program, stop(10**18), table)


def unread_writes(_):
    """100,000 runs that write, behind a delay of a week 70 ports that nobody reads"""
    return week_of_writes(100_000, "")


def many_unread_writes(_):
    """800,000 runs that write, behind a delay of a week 70 ports that nobody reads"""
    return week_of_writes(800_000, "")


def waiting_writes(_):
    """800,000 runs that write, behind a delay of a week 70 ports that a reaction reads"""
    return week_of_writes(800_000, f"reaction(p) {each(range(70), 'i{}')} {{= =}}")


def waiting_schedulings(_):
    """3,900,000 schedulings in one run, all of which wait up to the stop"""
    count = 3_900_000
    steps = "".join(f"schedule,0,0,0,main#1,main.q,,{10**17 + place}\n" for place in range(count))
    program = "main reactor { logical action q  reaction(startup) q -> q {= =} }\n"
    return Input("judge", count, program, stop(10**18), TRACE + run(0, "main#1", steps))


def follow_writes(_):
    """a run of 2,000,000 rows, so all are at one tag"""
    count = 2_000_000
    table = TRACE + run(0, "main.a#1", "write,0,0,0,main.a#1,main.a.p0,7,\n" * (count - 2))
    return Input("follow", count, writer(1), stop(0), table)


def follow_events(_):
    """40,000 external events in the log, told in falling order of their tags before the first row"""
    count = 40_000
    program = "main reactor { physical action a  reaction(a) {= =} }\n"
    events = "".join(f"event,{time},0,main.a,\n" for time in range(count, 0, -1))
    rows = "".join(run(time, "main#1", f"read,0,{time},0,main#1,main.a,,\n") for time in range(1, count + 1))
    return Input("follow", 4 * count, program, stop(count), TRACE + events + rows)


# Shapes of `show`.

def chosen_names(_):
    """65,000 ports whose names begin at one place of a hash map without a seed"""
    here = os.path.dirname(os.path.abspath(__file__))
    made = os.path.join(FOLDER, "names")
    subprocess.run(["cc", "-O2", os.path.join(here, "names.c"), "-o", made], check=True)
    told = subprocess.run([made, "65000", "13"], check=True, capture_output=True, text=True)
    chosen = told.stdout.split()
    return Input("show", len(chosen), named(" ".join("input " + name for name in chosen)))


# Shapes of `explain`. Of each but the last three a run is told that nothing triggers.

def explain_shutdown(_):
    """10,000 triggers `shutdown` of a run before the stop"""
    count = 10_000
    runs = 50 * count
    program = ("main reactor { timer t(0, 1 ns)  reaction(t) {= =}\n"
               f"reaction({','.join(['shutdown'] * count)}) {{= =}} }}\n")
    return Input("explain", 2 * runs, program, stop(10 * runs), ticks(runs) + run(runs - 1, "main#2"))


def explain_triggers(_):
    """10,000 ports as triggers, none of them written, after 330,000 runs"""
    count = 10_000
    runs = 33 * count
    program = (f"reactor A {{ {ports('output', count)}  output z\n"
               "timer t(0, 1 ns)  reaction(t) -> z {= =} }\n"
               f"main reactor {{ a = new A()  reaction({each(range(count), 'a.p{}')}) {{= =}} }}\n")
    table = TRACE + "".join(
        run(time, "main.a#1", f"write,0,{time},0,main.a#1,main.a.z,1,\n")
        for time in range(runs)) + run(runs - 1, "main#1")
    return Input("explain", 3 * runs, program, stop(10**15), table)


def explain_schedulings(_):
    """10,000 actions as triggers, 1,000,000 schedulings of another action"""
    count = 10_000
    program = ("main reactor { timer t(0, 5 ns)  logical action q(1 s)\n"
               f"{each(range(count), 'logical action p{}', ' ')}\n"
               f"reaction(t) -> q {{= =}}  reaction({each(range(count), 'p{}')}) {{= =}} }}\n")
    steps = "schedule,0,0,0,main#1,main.q,,5\n" * (100 * count)
    table = TRACE + run(0, "main#1", steps) + run(5, "main#1") + run(5, "main#2")
    return Input("explain", 100 * count, program, stop(10**15), table)


def far_inputs(count, source, sink):
    """So many inputs of a reaction behind one chain of as many connections."""
    half = count // 2
    return (f"reactor S {{ output o  {source} -> o {{= =}} }}\n"
            f"reactor C {{ {each(range(half), 'input i{0}  output o{0}  i{0} -> o{0}', ' ')} }}\n"
            f"reactor Q {{ {ports('input', count)}\n{sink} {{= =}} }}\n"
            "main reactor { s = new S()  c = new C()  q = new Q()\ns.o -> c.i0\n"
            + "".join(f"c.o{k} -> c.i{k + 1}\n" for k in range(half - 1))
            + f"{','.join([f'c.o{half - 1}'] * count)} -> {each(range(count), 'q.p{}')} }}\n")


def explain_far_triggers(_):
    """4,000 ports as triggers behind a chain of 4,000 connections"""
    count = 4_000
    program = far_inputs(count, "timer t(0, 2 ns)  reaction(t)",
                         f"reaction({each(range(count), 'p{}')})")
    table = TRACE
    for time in (0, 1, 2):
        if time != 1:
            table += run(time, "main.s#1", f"write,0,{time},0,main.s#1,main.s.o,1,\n")
        reads = each(range(count), f"read,0,{time},0,main.q#1,main.q.p{{}},1,\n", "")
        table += run(time, "main.q#1", "" if time == 1 else reads)
    return Input("explain", 2 * count, program, stop(2), table)


def explain_far_reads(_):
    """a run without read rows, 4,000 inputs behind a chain of 4,000 connections"""
    count = 4_000
    program = far_inputs(count, "reaction(startup)",
                         f"reaction(startup) {each(range(count), 'p{}')}")
    table = (TRACE + run(0, "main.s#1", "write,0,0,0,main.s#1,main.s.o,1,\n")
             + run(0, "main.q#1"))
    return Input("explain", 5, program, stop(0), table)


def explain_writes(_):
    """two runs that differ, 500,000 writes, 10,000 effects"""
    count = 10_000
    writes = "".join(f"write,0,0,0,main.a#1,main.a.p{at % count},1,\n" for at in range(50 * count))
    other = writes + "write,0,0,0,main.a#1,main.a.p0,2,\n"
    tables = [TRACE + run(0, "main.a#1", steps) for steps in (writes, other)]
    return Input("explain", 50 * count, writer(count), stop(0), *tables)


def explain_delays(_):
    """two runs that differ, 500,000 schedulings, 10,000 effects"""
    count = 10_000
    program = (f"main reactor {{ {each(range(count), 'logical action p{}', ' ')}\n"
               f"reaction(startup) -> {each(range(count), 'p{}')} {{= =}} }}\n")
    steps = "".join(f"schedule,0,0,0,main#1,main.p{at % count},1,{5 + at // count}\n"
                    for at in range(50 * count))
    other = steps + f"schedule,0,0,0,main#1,main.p{count - 1},1,999\n"
    tables = [TRACE + run(0, "main#1", rows) for rows in (steps, other)]
    return Input("explain", 50 * count, program, stop(10**6), *tables)


# Shapes of `pair`.

def pair_effects(_):
    """10,000 runs of a reaction with 10,000 effects"""
    count = 10_000
    program = (f"reactor A {{ {ports('input', count)} }}\n"
               "main reactor { timer t(0, 1 ns)  a = new A()\n"
               f"reaction(t) -> {each(range(count), 'a.p{}')} {{= =}} }}\n")
    table = ticks(count)
    return Input("pair", 2 * count, program, stop(count - 1), table, table)


def pair_writes(chance):
    """a run that writes its 20,000 effects, each time in another order"""
    count = 20_000
    tables = [TRACE + run(0, "main.a#1", each(
        shuffled(count, chance), "write,0,0,0,main.a#1,main.a.p{},1,\n", "")) for _ in range(2)]
    return Input("pair", count, writer(count), stop(0), *tables)


def pair_reads(chance):
    """a run that reads its 10,000 inputs, each time in another order"""
    count = 10_000
    tables = [read_table(count, shuffled(count, chance)) for _ in range(2)]
    return Input("pair", 2 * count, reader(count), stop(0), *tables)


# Shapes of `record`.

def many_bodies(_):
    """2,500 reactions with a million bodies each"""
    count = 2_500
    program = "main reactor { " + "reaction(startup) {= =}\n" * count + "}\n"
    cards = CARDS + "".join(bodies(f"main#{number + 1}") for number in range(count))
    return Input("record", 2 * count, program, stop(0), cards)


def unread(program, count, last, *words):
    cards = CARDS + bodies("main.s#1") + "write,main.s#1,main.s.o,,1\n"
    return Input("record", 3 * count, program, stop(last), cards, words=words)


def unread_ports(_):
    """4,000 runs, 4,000 ports that nobody reads, a delay of 1 ns"""
    return unread(fan(4_000, "1 ns"), 4_000, 3_999)


def unread_week(_):
    """4,000 runs, 4,000 ports that nobody reads, a delay of a week"""
    return unread(fan(4_000, WEEK), 4_000, 10**18, "--max-runs", "4000")


def unread_chain(_):
    """2,000 runs, a chain of 2,000 ports that nobody reads"""
    return unread(chain(2_000), 2_000, 1_999)


def dense_timers(_):
    """10,000 runs of a reaction with 10,000 timers, each of which fires at each tag"""
    count = 10_000
    program = (f"main reactor {{ {each(range(count), 'timer t{}(0, 1 ns)', ' ')}\n"
               f"reaction({each(range(count), 't{}')}) {{= =}} }}\n")
    return Input("record", 2 * count, program, stop(count - 1), CARDS + bodies("main#1"))


def record_absent(_):
    """10,000 runs of a reaction with 10,000 inputs, none of them present"""
    count = 10_000
    return Input("record", 2 * count, absent(count), stop(count - 1), CARDS + bodies("main#1"))


def terms(chance):
    """a card with 10,000 terms, in another order than the inputs"""
    count = 10_000
    cards = (CARDS + bodies("main.a#1", 1) + bodies("main#1", 1)
             + each(range(count), "write,main.a#1,main.a.p{},,1\n", "")
             + f"state,main#1,,,{each(shuffled(count, chance), 'main.a.p{}', '+')}\n")
    return Input("record", 2 * count, reader(count), stop(0), cards)


SHAPES = [far_workers, names, writes, reads, absent_inputs, precedence, unread_writes,
          many_unread_writes, waiting_writes, waiting_schedulings, follow_writes, follow_events, chosen_names,
          explain_shutdown, explain_triggers, explain_schedulings, explain_far_triggers,
          explain_far_reads, explain_writes, explain_delays, pair_effects, pair_writes, pair_reads,
          many_bodies, unread_ports, unread_week, unread_chain, dense_timers, record_absent, terms]
# One that needs a compiler of C.
COMPILED = [chosen_names]


class Figures:
    """The least processor time and the greatest peak of memory of some runs of a command."""

    def __init__(self, words, turns, most):
        self.seconds, self.peak, self.size, self.status = float("inf"), 0, 0, None
        for _ in range(turns):
            self.turn(words, most)
            if self.seconds > 5:
                break

    def turn(self, words, most):
        child = subprocess.Popen(words, stdout=subprocess.PIPE, stderr=subprocess.DEVNULL)
        clock = threading.Timer(most, child.kill)
        clock.start()
        self.size = sum(len(part) for part in iter(lambda: child.stdout.read(1 << 20), b""))
        _, status, used = os.wait4(child.pid, 0)
        clock.cancel()
        child.returncode = self.status = os.waitstatus_to_exitcode(status)
        self.seconds = min(self.seconds, used.ru_utime + used.ru_stime)
        self.peak = max(self.peak, used.ru_maxrss)


FORM = "{:20} {:>8} {:>6} {:>8} {:>9} {:>6} {:>9} {:>6}  {}"


def texts_of(shape, folder):
    """Writes the texts of a shape and of the ordinary input beside it: the command, the rows, the
    words of both, and the number of bytes."""
    chance = random.Random(f"{os.environ.get('SEED', '1')} {shape.__name__}")
    asked = shape(chance)
    words, size = asked.write(folder)
    beside, _ = ordinary(asked).write(os.path.join(folder, "ordinary"))
    return asked.rows, words, beside, size


def measure(lftrace, folder, shape, turns, most):
    """Prints the row of a shape, and gives how many times the time and the memory of an ordinary
    input it takes."""
    # A process of its own makes the texts: what this one holds counts as memory of those that it starts.
    with multiprocessing.Pool(1) as pool:
        rows, words, beside, size = pool.apply(texts_of, (shape, folder))
    much = Figures([lftrace, *words], turns, most)
    plain = Figures([lftrace, *beside], turns, most)
    times = much.seconds / max(plain.seconds, LEAST_SECONDS)
    peaks = much.peak / plain.peak
    print(FORM.format(
        shape.__name__, rows, f"{size / 1e6:.1f}", f"{much.seconds:.2f}", f"{times:.1f}",
        f"{much.peak / 1e3:.0f}", f"{peaks:.1f}", f"{much.peak * 1024 / (size + much.size):.0f}",
        f"status {much.status}: {shape.__doc__}"), flush=True)
    return times, peaks


def main():
    if len(sys.argv) != 3:
        sys.exit(__doc__)
    lftrace, folder = os.path.abspath(sys.argv[1]), sys.argv[2]
    os.makedirs(os.path.join(folder, "ordinary"), exist_ok=True)
    wanted = re.findall(r"\w+", os.environ.get("SHAPES", ""))
    turns, most = int(os.environ.get("TURNS", "3")), float(os.environ.get("SECONDS", "120"))
    load = ", ".join(f"{load:.1f}" for load in os.getloadavg())
    print(f"program   {lftrace}\nmachine   {os.cpu_count()} processors, load {load}")
    print(FORM.format("shape", "rows", "MB in", "seconds", "by ordin.", "MB", "by ordin.", "bytes", ""))
    missed = []
    for shape in SHAPES:
        if wanted and shape.__name__ not in wanted:
            continue
        if shape in COMPILED and not shutil.which("cc"):
            print(f"{shape.__name__}: left out, there is no cc")
            continue
        for what, times in zip(("time", "memory"), measure(lftrace, folder, shape, turns, most)):
            if times > MOST_BY_ORDINARY:
                missed.append(f"{shape.__name__}: {what} {times:.1f}, at most {MOST_BY_ORDINARY}")
    print("goals missed:" if missed else "no goal missed", *missed, sep="\n  ")


main()
