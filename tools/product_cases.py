"""Cases of command lines whose inputs have two lengths, in the form of those of cases/command.

Whoever goes through one of them for each of the other takes longer than a command has here, or more memory than there
is. Each length alone takes seconds. Large tables are made as a case is run.
"""
from large_cases import HEADER, INPUTS

BODY = "{= =}"
CARDS = "kind,reaction,name,delay,value\n"
BODIES = "bodies,main{},,,1000000\n"
WRITE = "write,0,{},0,main.s#1,main.s.o,1,\n"


def each(count, words, between=" "):
    """The words for each number below a count, which stands in the place of `{}`."""
    return between.join(words.format(number) for number in range(count))


def run(reaction, time, steps=""):
    """The rows of a run with its steps, in which the time stands in the place of `{}`."""
    return f"start,0,{time},0,{reaction},,,\n{steps.replace('{}', str(time))}end,0,{time},0,{reaction},,,\n"


def runs(count, *reactions, steps=""):
    """The table of a run of each reaction at each nanosecond below a count."""
    return HEADER + "".join(run(reaction, time, steps) for time in range(count) for reaction in reactions)


def wide(kind, count, uses):
    """A reaction to a timer that uses so many ports of another reactor, which nobody else knows."""
    return f"reactor A {{ {each(count, kind + ' p{}')} }} main reactor {{ timer t(0, 1 ns) a = new A() reaction(t) {uses} {each(count, 'a.p{}', ',')} {BODY} }}"


def precedence(count):
    """Reactions of one instance: so many, each with as many uses, and a last one that all of them precede. Another
    reaction runs beside it."""
    uses = f"reaction(shutdown) {each(count, 'i{}', ',')} {BODY}\n" * count
    return f"""reactor W {{ output o reaction(shutdown) -> o {BODY} }}
    reactor Y {{ timer t(0, 1 ns) reaction(t) {BODY} }}
    reactor Q {{ timer t(0, 1 ns) {each(count, "input i{}")} {uses} reaction(t) {BODY} }}
    main reactor {{ {each(count, "w{} = new W()")} q = new Q() y = new Y() {each(count, "w{}.o", ",")} -> {each(count, "q.i{}", ",")} }}"""


def unread_ports(count):
    """So many ports that nobody reads, a nanosecond behind one that is written at each."""
    return f"""reactor S {{ output o timer t(0, 1 ns) reaction(t) -> o {BODY} }}
    reactor Q {{ {each(count, "input p{}")} }}
    main reactor {{ s = new S() q = new Q() {each(count, "s.o", ",")} -> {each(count, "q.p{}", ",")} after 1 ns }}"""


def far_inputs(count):
    """So many inputs of a reaction behind one chain of as many connections."""
    return f"""reactor S {{ output o timer t(0, 2 ns) reaction(t) -> o {BODY} }}
    reactor C {{ input i output o i -> o }}
    reactor Q {{ {each(count, "input p{}")} reaction({each(count, "p{}", ",")}) {BODY} }}
    main reactor {{ q = new Q() s = new S() {each(count, "c{} = new C()")} d = new C()
    s.o, {each(count, "c{}.o", ",")} -> {each(count, "c{}.i", ",")}, d.i {each(count, "d.o -> q.p{}")} }}"""


def far_reads(count, time):
    """The rows of a write of the port at which that chain begins, and of a run that reads each input."""
    return run("main.s#1", time, WRITE) + run("main.q#1", time, each(count, f"read,0,{time},0,main.q#1,main.q.p{{}},1,\n", ""))


def judged():
    """What `judge` and `pair` go through."""
    yield ("many runs that miss many inputs", "judge", wide("output", 40_000, ""), "199999,0", [lambda: runs(200_000, "main#1")],
           "accepted runs=200000 tags=200000\nstatus 0\n")
    yield ("many tags with much that precedes a run", "judge", precedence(401), "499999,1", [lambda: runs(500_000, "main.q#402", "main.y#1")],
           "broken rule=7 not-run time=499999 microstep=1 reaction=main.w0#1\nstatus 1\n")
    yield ("many runs with many effects", "pair", wide("input", 40_000, "->"), "199999,0", [lambda: runs(200_000, "main#1")] * 2,
           "same runs=200000 tags=200000\nstatus 0\n")


def recorded():
    """What `record` makes. Made at once, the last bodies would take 57 GB."""
    timers = f"main reactor {{ {each(30_000, 'timer t{}(0, 1 ns)')} reaction({each(30_000, 't{}', ',')}) {BODY} }}"
    reactions = f"main reactor {{ {f'reaction(startup) {BODY} ' * 2_500}}}"
    startups = HEADER + "".join(run(f"main#{number}", 0) for number in range(1, 2_501))
    writes = BODIES.format(".s#1") + "write,main.s#1,main.s.o,,1\n"
    many = "".join(BODIES.format(f"#{number}") for number in range(1, 2_501))
    for title, program, last, cards, table in (
        ("many runs with many timers", timers, 29_999, BODIES.format("#1"), runs(30_000, "main#1")),
        ("many runs before many ports that nobody reads", unread_ports(12_000), 11_999, writes, runs(12_000, "main.s#1", steps=WRITE)),
        ("a million bodies for each of many reactions", reactions, 0, many, startups),
    ):
        yield title, "record", program, f"{last},0", [CARDS + cards], f"{table}status 0\n"


def explained():
    """What `explain` tells of a run that nothing triggers. Of a line and of what it has to say of each trigger it tells
    60 lines, and counts the others."""
    shutdowns = f"main reactor {{ timer t(0, 1 ns) reaction(t) {BODY} reaction({each(10_000, 'shutdown', ',')}) {BODY} }}"
    ports = f"""reactor A {{ output o timer t(0, 1 ns) reaction(t) -> o {BODY} {each(10_000, "output p{}")} }}
    main reactor {{ s = new A() reaction({each(10_000, "s.p{}", ",")}) {BODY} }}"""
    actions = f"""main reactor {{ timer t(0, 5 ns) logical action q(1 s) {each(10_000, "logical action p{}")}
    reaction(t) -> q {BODY} reaction({each(10_000, "p{}", ",")}) {BODY} }}"""
    schedules = "schedule,0,0,0,main#1,main.q,,5\n" * 1_000_000
    for title, program, last, trace, reaction, time, lines in (
        ("many triggers `shutdown` behind many runs", shutdowns, 5_000_000,
         lambda: runs(500_000, "main#1") + run("main#2", 499_999), "main#2", 499_999, 2 * 10_000),
        ("many absent triggers behind many runs", ports, 10**9,
         lambda: runs(330_000, "main.s#1", steps=WRITE) + run("main#1", 329_999), "main#1", 329_999, 10_000),
        ("many absent triggers behind many schedulings", actions, 10**9,
         lambda: HEADER + run("main#1", 0, schedules) + run("main#1", 5) + run("main#2", 5), "main#2", 5, 10_000),
        # Of each input the nearest events before and behind, and of each of these the last 20 connections.
        ("many triggers behind a long chain", far_inputs(4_000), 2,
         lambda: HEADER + far_reads(4_000, 0) + run("main.q#1", 1) + far_reads(4_000, 2), "main.q#1", 1, 49 * 4_000),
    ):
        first = f"broken rule=8 not-triggered time={time} microstep=0 reaction={reaction}\n"
        more = f"  More lines, which `--all` prints: {lines - 59}\n"
        yield title, "explain", program, f"{last},0", [trace], f"{first}\n\\..\n{more}\\..\nstatus 1\n"


def explained_pairs():
    """What `explain` tells of two runs of 500,000 steps, of which the second has one more."""
    ports = f"reactor A {{ {each(10_000, 'output p{}')} reaction(startup) -> {each(10_000, 'p{}', ',')} {BODY} }} main reactor {{ a = new A() }}"
    actions = f"main reactor {{ {each(10_000, 'logical action p{}')} reaction(startup) -> {each(10_000, 'p{}', ',')} {BODY} }}"
    write, schedule = "write,0,0,0,main.a#1,main.a.p{},1,\n", "schedule,0,0,0,main#1,main.p{},1,"
    written = """  effect     first             second
  main.a.p0  1 in line 490003  2 in line 500003
"""
    scheduled = """  effect                  first          second
  main.p9999 (50 before)  not scheduled  1 in line 500003, extra delay 999 ns
"""
    for title, program, last, name, steps, more, effects in (
        ("two runs with many writes", ports, 0, "main.a", each(10_000, write, "") * 50, "write,0,0,0,main.a#1,main.a.p0,2,\n", written),
        ("two runs with many schedulings", actions, 1_000_000, "main",
         "".join(each(10_000, f"{schedule}{delay}\n", "") for delay in range(5, 55)), f"{schedule.format(9_999)}999\n", scheduled),
    ):
        tables = [HEADER + run(f"{name}#1", 0, those) for those in (steps, steps + more)]
        yield title, "explain", program, f"{last},0", tables, f"""differ time=0 microstep=0 reaction={name}#1

{name}#1 at (0, 0) answers otherwise in the two traces.

{effects}
  It starts in line 2 of the first trace and in line 2 of the second.
  Earlier runs of {name}, with equal inputs in both: 0
  Runs at earlier tags, the same in both: 0
status 1
"""


def cases():
    """Each case: its title, its head, its text, its files and what is to come of it."""
    for group in (judged, recorded, explained, explained_pairs):
        for title, command, program, last, tables, wanted in group():
            names = ["cards.csv"] if command == "record" else ["trace.csv", "second.csv"][: len(tables)]
            files = {"program.lf": program, "externals.csv": f"{INPUTS}stop,{last},,\n", **dict(zip(names, tables))}
            yield f"products: {title}", f"words {command} {' '.join(files)} --workers 1", "", files, wanted
