"""Cases of command lines that are too large to be written down, in the form of those of cases/command.

A text that is made as a case is run is a function.
"""

HEADER = "event,worker,time,microstep,reaction,name,value,delay\n"
BLINK = "main reactor { timer t(0, 5 ms)  reaction(t) {= =}  reaction(t) {= =} }\n"
INPUTS = "kind,time,microstep,name,value\n"
STOP = INPUTS + "stop,{},0,,\n"
JUDGE = "words judge program.lf externals.csv trace.csv --workers {}"
FOLLOW = "words follow program.lf"
LOWER = "words explain --lower program.lf"
LOG = "reactor Log { timer t  reaction(t) {= =} }\n"
IMPORT = 'import Log from "log.lf"\nmain reactor { l = new[2] Log() }\n'
SHOWN = "reaction main.l[0]#1 level=0 before=-\nreaction main.l[1]#1 level=0 before=-\n"
MIB = 1 << 20
# The tags and the external inputs of tables past 1 MiB: a shorter one gets one worker.
TAGS = 12_000
EVENTS = 50_000
PERIOD = 5_000_000


def run(time, worker):
    """The rows of a run of the program BLINK."""
    return "".join(f"{event},{worker},{time},0,main#{worker + 1},,,\n" for event in ("start", "end"))


def long_tables():
    """A table that several workers share, and such tables with something wrong in their last part."""
    table = HEADER + "".join(run(PERIOD * tag, worker) for tag in range(TAGS) for worker in (0, 1))
    files = {"program.lf": BLINK, "externals.csv": STOP.format(PERIOD * (TAGS - 1))}
    late = PERIOD * (TAGS - 3)
    end, start = f"end,0,{late},0,main#1,,,\n", f"start,1,{late},0,main#2,,,\n"
    early = table.replace(end + start, start + end)
    broken = f"broken rule=9 too-early time={late} microstep=0 reaction=main#2\nstatus 1\n"
    number = table.replace(f"start,0,{late},", "start,0,x,")
    two = early.replace(run(PERIOD, 1), run(PERIOD, 1) + run(PERIOD + 1, 0), 1)
    first = f"broken rule=8 not-triggered time={PERIOD + 1} microstep=0 reaction=main#1\nstatus 1\n"
    unended = f"broken rule=5 unended line={4 * TAGS} time={PERIOD * (TAGS - 1)} microstep=0 reaction=main#2\nstatus 1\n"
    for workers in (1, 2, 64):
        for title, trace, wanted in (
            ("a long table", table, f"accepted runs={2 * TAGS} tags={TAGS}\nstatus 0\n"),
            ("a breach in the last part of a long table", early, broken),
            ("a breach in the last part of a long table, and one in the first", two, first),
            ("a fault in the last part of a long table", number, f"! fault trace 4 BadNumber line={4 * (TAGS - 3) + 2}\nstatus 2\n"),
            ("a quotation mark in the last part of a long table", early.replace(start, f'"start"{start[5:]}'), broken),
            ("the last row of a long table is missing", table[:table.rindex("end,")], unended),
        ):
            yield f"{title}, {workers} workers", JUDGE.format(workers), "", {**files, "trace.csv": trace}, wanted


def long_inputs():
    """A table of external inputs that several workers share, and such tables with something wrong or odd in them."""
    program = "main reactor { timer t  physical action key  reaction(t) {= =} }\n"
    files = {"program.lf": program, "trace.csv": HEADER + run(0, 0)}
    events = [f"event,{time},0,main.key,\n" for time in range(EVENTS)]
    stop, last = f"stop,{EVENTS},0,,\n", EVENTS + 1
    number = events[:-1] + ["event,x,0,main.key,\n"]
    accepted, fault = "accepted runs=1 tags=1\nstatus 0\n", "! fault externals {}\nstatus 2\n"
    for workers in (1, 2, 64):
        for title, lines, wanted in (
            ("a long table of external inputs", [*events, stop], accepted),
            ("one with the stop before its events", [stop, *events], accepted),
            ("one in the other order", [*events[::-1], stop], accepted),
            ("one with a quotation mark in the last part", [*events[:-1], f'"event"{events[-1][5:]}', stop], accepted),
            ("one with a fault in the last part", [*number, stop], fault.format(f"4 BadNumber line={last}")),
            ("one with an event of the first part in the last", [*events, events[0], stop], fault.format(f"7 DuplicateExternal line={last + 1}")),
            ("one with two stops", [stop, *events, stop], fault.format(f"9 TwoStops line={last + 2}")),
            ("one without a stop", events, fault.format("8 NoStop")),
        ):
            yield f"{title}, {workers} workers", JUDGE.format(workers), "", {**files, "externals.csv": INPUTS + "".join(lines)}, wanted


def full_trace():
    """The table of 2,000,000 runs, one a nanosecond: 4,000,000 rows."""
    return HEADER + "".join(f"start,0,{time},0,main#1,,,\nend,0,{time},0,main#1,,,\n" for time in range(2_000_000))


def full_externals():
    """The table of 4,000,000 external inputs."""
    return INPUTS + "".join(f"event,{time},0,main.key,\n" for time in range(3_999_999)) + "event,0,0,main.lamp,\n"


def great_tables():
    """Tables of as many rows as there may be, and of one more."""
    program = "main reactor { timer t(0, 1 ns)  physical action key  physical action lamp  reaction(t) {= =} }\n"
    files = {"program.lf": program, "externals.csv": STOP.format(1_999_999), "trace.csv": full_trace}
    last = "end,0,1999999,0,main#1,,,\n"
    inputs = {**files, "trace.csv": HEADER, "externals.csv": full_externals}
    more = {**inputs, "externals.csv": lambda: full_externals() + "event,1,0,main.lamp,\n"}
    for title, those, wanted in (
        ("as many rows as a table may have", files, "accepted runs=2000000 tags=2000000\nstatus 0\n"),
        ("one row more", {**files, "trace.csv": lambda: full_trace() + last}, "! fault trace 10 TooManyRows\nstatus 2\n"),
        ("as many external inputs as a table may have", inputs, "! fault externals 8 NoStop\nstatus 2\n"),
        ("one external input more", more, "! fault externals 10 TooManyRows\nstatus 2\n"),
    ):
        yield title, JUDGE.format(1), "", those, wanted


def great_logs():
    """Logs with a line or with events that are too many to be kept."""
    files = {"program.lf": BLINK, "externals.csv": STOP.format(0)}
    line = HEADER + "x" * 2_000_000
    yield "a line without an end, followed", FOLLOW + " externals.csv", line, files, "! fault trace 13 LongLine line=2\nstatus 2\n"
    key = {"program.lf": "main reactor { physical action a: int  reaction(a) {= =} }\n"}
    events = HEADER + "".join(f"event,{time},0,main.a,7\n" for time in (*range(2, 65_539), 1))
    yield "an event of a log that stands before 65,537 others", FOLLOW, events, key, "! fault externals 15 ManyLater line=65539\nstatus 2\n"


def long_texts():
    """Core texts that are long, deep or wide. A text has at most 1,048,576 bytes."""
    state, timer = "main reactor { state s = ", "main reactor { timer t(0, 1654 weeks) "
    nested = "main reactor { a = new R0() }\n" + "".join(f"reactor R{level} {{ a = new R{level + 1}() }}\n" for level in range(4_999))
    for title, text, wanted in (
        ("500,000 open parentheses", state + "(" * 500_000, "! fault syntax 1 Unexpected token=500007\n"),
        ("500,000 parentheses", state + "(" * 500_000 + ")" * 500_000 + " reaction(startup) {= =} }", "reaction main#1 level=0 before=-\n"),
        ("100,000 timers", "main reactor { " + "timer t " * 100_000, "! fault syntax 1 Unexpected token=200004\n"),
        ("5,000 reactors of one name", "reactor A { } " * 5_000, "! fault program 1 NoMain\n"),
        ("10,000 reactions", timer + "reaction(t) {= =} " * 10_000 + "}", "! fault program 14 DelayTooLong\n"),
        ("10,001 reactions", timer + "reaction(t) {= =} " * 10_001 + "}", "! fault program 15 TooMany\n"),
        ("as many blanks as a text may have", " " * MIB, "! fault program 1 NoMain\n"),
        ("as many odd bytes as a text may have", "\u00e9" * (MIB // 2), "! fault lex 1 BadChar at=0\n"),
        ("one byte more than a text may have", "\u00e9" * (MIB // 2) + " ", "! fault lex 6 TooLong\n"),
        ("5,000 reactors, one in another", nested + "reactor R4999 { timer t reaction(t) {= =} }", f"reaction main{'.a' * 5_000}#1 level=0 before=-\n"),
    ):
        yield title, "words show program.lf", "", {"program.lf": text}, f"{wanted}status {2 if wanted[0] == '!' else 0}\n"


def refused(line, words):
    """What is told of a whole program that is refused."""
    return f"\\..\n{line.split()[-1]}: {words}\n\\..\n! fault lower {line}\nstatus 2\n"


def padded(text, size):
    """A text with a remark of so many MiB behind it, as a function."""
    return lambda: f"{text}/*{' ' * (size * MIB)}*/"


def great_imports():
    """Imported files of more than 64 MiB, and of just less."""
    large = "log.lf: with it the imported files have more than 64 MiB. The file can't be read. Correct the path."
    one = {"program.lf": IMPORT, "log.lf": padded(LOG, 33)}
    two = {**one, "program.lf": 'import B from "b.lf"\n' + IMPORT, "b.lf": padded("reactor B { }", 33)}
    yield "an import of more than 64 MiB", LOWER, "", {**one, "log.lf": padded(LOG, 64)}, refused("1 Read program.lf:1:17", large)
    yield "imports of 33 MiB", LOWER, "", one, SHOWN + "status 0\n"
    yield "two imports of 33 MiB", LOWER, "", two, refused("1 Read program.lf:2:17", large)


def wide(count, body):
    """A main reactor of so many members."""
    return "main reactor {\n" + "".join(f"  {body.format(at=at)}\n" for at in range(count)) + "}\n"


def great_programs():
    """Programs that are counted before anything is made of them, and long ones."""
    too_many = "The program has more than 100000 ports. Write smaller widths."
    settings = "reactor B(n: int = 0) { input[n] x }\n" + wide(9_990, "b{at} = new B(n = {at})")
    yield "ten thousand settings", LOWER, "", {"program.lf": settings}, refused("21 TooMany program.lf:450:3", too_many)
    inherited = "The reactors with all that they inherit, in all their settings, are more than is listed."
    bases = "reactor B0 { timer t0 }\n" + "".join(f"reactor B{at} extends B{at - 1} {{ timer t{at} }}\n" for at in range(1, 3_000))
    chain = {"program.lf": bases + wide(2_999, "b{at} = new B{at}()")}
    yield "a chain of 3,000 bases, all of them used", LOWER, "", chain, refused("21 TooMany program.lf:3001:1", inherited)
    nested = "reactor B0 { timer t  reaction(t) {= =} }\n" + "".join(f"reactor B{at} {{ b = new B{at - 1}() }}\n" for at in range(1, 9_000))
    deep = {"program.lf": nested + "main reactor { b = new[1] B8999() }\n"}
    yield "9,000 nested reactors", LOWER, "", deep, f"reaction main.b[0]{'.b' * 8_999}#1 level=0 before=-\nstatus 0\n"
    states = "reaction(startup) {= =}\n" + "".join(f"  state long_name_{at}: int[] = 3\n" for at in range(40_000))
    yield "1 MiB of states", LOWER, "", {"program.lf": f"main reactor {{ {states} }}\n"}, "reaction main#1 level=0 before=-\nstatus 0\n"


def cases():
    """Each case: its title, its head, its text, its files and what is to come of it."""
    for group in (long_tables, long_inputs, great_tables, great_logs, long_texts, great_imports, great_programs):
        yield from group()
