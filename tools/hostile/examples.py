"""Small examples of every command with their answers, written by hand from docs/OUTPUT.md, and one
table over 1 MiB, the size from which several workers share a table."""
import dataclasses

from hostile.machine import Plan
from hostile.reactors import Flat, Reaction, Reactor
from hostile.running import Answer
from hostile.tables import HEADERS, bundle, read_cards, read_externals

PIPE = """target C
reactor A { output out: int  timer t(0, 10 ms)  reaction(t) -> out {= =} }
reactor B { input x: int  reaction(x) {= =} }
main reactor { a = new A()  b = new B()  a.out -> b.x }
"""
DEEP = """reactor A { output out: int  logical action n
  reaction(startup, n) -> out, n {= =} }
reactor C { input z: int  reaction(z) {= =} }
reactor B { input x: int  c = new C()  x -> c.z after 0 }
main reactor { a = new A()  b = new B()  a.out -> b.x after 5 ms }
"""
AGAIN = """main reactor { logical action n
  reaction(startup) -> n {= =}  reaction(n) {= =} }
"""
LOOP = """reactor A { input z: int  output out: int  reaction(z) -> out {= =} }
reactor B { input x: int  output y: int  reaction(x) -> y {= =} }
main reactor { a = new A()  b = new B()  a.out -> b.x  b.y -> a.z }
"""
TWO = """reactor S { output o: int  reaction(startup) -> o {= =} }
main reactor { p = new S()  q = new S() }
"""
ONE = "main reactor { reaction(startup, shutdown) {= =} }\n"
EMPTY = "main reactor { }\n"
KEY = "main reactor { physical action key: int  reaction(key) {= =} }\n"
KEY_LOG = """event,5,0,main.key,7
start,0,5,0,main#1,,,
read,0,5,0,main#1,main.key,7,
end,0,5,0,main#1,,,
stop,5,0,,
"""
PIPE_ROWS = """start,0,0,0,main.a#1,,,
write,0,0,0,main.a#1,main.a.out,1,
end,0,0,0,main.a#1,,,
start,1,0,0,main.b#1,,,
read,1,0,0,main.b#1,main.b.x,1,
end,1,0,0,main.b#1,,,
"""
DEEP_ROWS = """start,0,0,0,main.a#1,,,
schedule,0,0,0,main.a#1,main.a.n,,
end,0,0,0,main.a#1,,,
start,0,0,1,main.a#1,,,
read,0,0,1,main.a#1,main.a.n,,
schedule,0,0,1,main.a#1,main.a.n,,
end,0,0,1,main.a#1,,,
start,0,0,2,main.a#1,,,
read,0,0,2,main.a#1,main.a.n,,
schedule,0,0,2,main.a#1,main.a.n,,
end,0,0,2,main.a#1,,,
start,0,0,3,main.a#1,,,
read,0,0,3,main.a#1,main.a.n,,
write,0,0,3,main.a#1,main.a.out,1,
end,0,0,3,main.a#1,,,
start,0,5000000,1,main.b.c#1,,,
read,0,5000000,1,main.b.c#1,main.b.c.z,1,
end,0,5000000,1,main.b.c#1,,,
"""
DEEP_SHOWN = """port main.a.out origin=main.a.out after=0+0
port main.b.x origin=main.a.out after=5000000+0
port main.b.c.z origin=main.a.out after=5000000+1
reaction main.a#1 level=0 before=-
reaction main.b.c#1 level=0 before=-
"""
AGAIN_ROWS = """start,0,0,0,main#1,,,
schedule,0,0,0,main#1,main.n,,
end,0,0,0,main#1,,,
start,0,0,1,main#2,,,
read,0,0,1,main#2,main.n,,
end,0,0,1,main#2,,,
"""
ONE_ROWS = "start,0,0,0,main#1,,,\nend,0,0,0,main#1,,,\n"
PIPE_CARDS = """bodies,main.a#1,,,1
write,main.a#1,main.a.out,,state+7
state,main.a#1,,,state+1
bodies,main.b#1,,,1
"""
TWO_CARDS = """bodies,main.p#1,,,1
write,main.p#1,main.p.o,,1
bodies,main.q#1,,,1
write,main.q#1,main.q.o,,1
"""
# The two that are recorded as they flatten, by which rows so far are looked at.
STARTUP_WRITER = Reactor("S", ports={"o": False}, reactions=[Reaction(["startup"], effects=["o"])])
FLAT = {
    PIPE: Flat([Reactor("A", ports={"out": False}, timers={"t": (0, 10**7)}, reactions=[Reaction(["t"], effects=["out"])]),
                Reactor("B", ports={"x": True}, reactions=[Reaction(["x"])]),
                Reactor("M", instances={"a": ("A", {}), "b": ("B", {})}, connections=[(["a.out"], ["b.x"], None)])]),
    TWO: Flat([STARTUP_WRITER, Reactor("M", instances={"p": ("S", {}), "q": ("S", {})})]),
}
ROUNDS = 5000
WRONG_READ = PIPE_ROWS.replace("b.x,1", "b.x,2")
AT_ZERO = "time=0 microstep=0"
WHY_WRONG_READ = f"""broken rule=10 wrong-read {AT_ZERO} reaction=main.b#1

main.b#1 runs at (0, 0), from line 5 on.

  input     read  present
  main.b.x  2     1

  3 | write,0,0,0,main.a#1,main.a.out,1,  a cause
    ..
  5 | start,1,0,0,main.b#1,,,             <- here

  main.b.x gets 1 at (0, 0):
    line 3 is the last write of main.a.out at (0, 0)
    main.a.out (0, 0) --> main.b.x (0, 0)"""

WHY_WRONG_WHOLE = f"""broken rule=10 wrong-read {AT_ZERO} reaction=main.b[1]#1

main.b[1]#1 runs at (0, 0), from line 9 on.

  input        read  present
  main.b[1].x  3     2

  4 | write,0,0,0,main.a#1,main.a.out[1],2,  a cause
    ..
  9 | start,0,0,0,main.b[1]#1,,,             <- here

  main.b[1].x gets 2 at (0, 0):
    line 4 is the last write of main.a.out[1] at (0, 0)
    main.a.out[1] (0, 0) --> main.b[1].x (0, 0)"""


COVERED = """accepted runs=2 tags=1
reactions=2/2 ports=1/1 orders=1/1 pairs=0/0

Reactions that ran: 2 of 2, in 2 runs at 1 tags.
  least often: main.a#1 1, main.b#1 1
Fed ports that got an event: 1 of 1, from 1 of 1 writers.
Orders, `X before Y` of `lftrace show`: 1
     1  X and Y ran at one tag, on two workers at least once: the scheduler alone kept their order
     0  X and Y ran at one tag, always on one worker: a race could not have shown
     0  X and Y never ran at one tag
Pairs without an order: 0. 0 ran at the same time.
Workers: 0 had 1 runs, 1 had 1 runs
  open runs at a start: 2 x 1"""
LISTED = """accepted runs=2 tags=1
reaction main.a#1 runs=1
reaction main.b#1 runs=1
port main.a.out writes=1
order main.a#1 main.b#1 both=1 apart=1
open 1 starts=2
worker 0 runs=1
worker 1 runs=1"""

BANK = """target C
import B from "B.lf"
reactor A(n: int = 2) { output[n] out  reaction(startup) -> out {= =} }
main reactor { a = new A()  b = new[2] B()  a.out -> b.x }
"""
IMPORTED = """target C
reactor B { input x: int  reaction(x) {= =} }
"""
WHOLE_SHOWN = """port main.a.out[0] origin=main.a.out[0] after=0+0
port main.a.out[1] origin=main.a.out[1] after=0+0
port main.b[0].x origin=main.a.out[0] after=0+0
port main.b[1].x origin=main.a.out[1] after=0+0
reaction main.a#1 level=0 before=-
reaction main.b[0]#1 level=1 before=main.a#1
reaction main.b[1]#1 level=1 before=main.a#1
"""
WHOLE_ROWS = """start,0,0,0,main.a#1,,,
write,0,0,0,main.a#1,main.a.out[0],1,
write,0,0,0,main.a#1,main.a.out[1],2,
end,0,0,0,main.a#1,,,
start,0,0,0,main.b[0]#1,,,
read,0,0,0,main.b[0]#1,main.b[0].x,1,
end,0,0,0,main.b[0]#1,,,
start,0,0,0,main.b[1]#1,,,
read,0,0,0,main.b[1]#1,main.b[1].x,2,
end,0,0,0,main.b[1]#1,,,
"""
UNREAD = "fault lower 1 Read program.lf:2:15\n"
UNREAD_TOLD = """program.lf:2:15: B.lf: it can't be read. The file can't be read. Correct the path.

  2 | import B from "B.lf"
                    ^^^^^^
"""


@dataclasses.dataclass
class Example:
    """A command with its files by path, standard input, and its own answer; `recording` has the plan, the
    cards and the greatest number of runs of what is recorded. `unopened` has, by path and in order, what is said of
    each file that can't be opened, where it isn't that it can't be read, and `told` what is printed then."""
    name: str
    command: str
    words: list
    files: dict
    stdin: bytes
    own: Answer
    recording: tuple = ()
    unopened: dict = dataclasses.field(default_factory=dict)
    told: dict = dataclasses.field(default_factory=dict)


EXAMPLES, LARGE = [], []


def table(kind, rows):
    return f"{HEADERS[kind]}\n{rows}"


def stop(time, microstep):
    return table("externals", f"stop,{time},{microstep},,\n")


def example(name, command, files, line, status=0, more=(), where=EXAMPLES):
    """Adds an example. A line that begins with `fault` is the last, and goes to standard error."""
    out, fault, rest = line.partition("fault ")
    own = Answer(2 if fault else status, out.encode(), (fault + rest).encode())
    encoded = {path: text.encode() for path, text in files.items()}
    stdin = bundle(*encoded.values()) if command == "bundle" else b""
    words = [] if command == "bundle" else [command, *files, *more]
    where.append(Example(name, command, words, encoded, stdin, own))


def judged(name, program, externals, rows, line, status=0, command="judge", more=(), where=EXAMPLES):
    trace = table("trace", rows) if rows is not None else ""
    example(name, command, {"program.lf": program, "externals.csv": externals, "trace.csv": trace}, line + "\n", status, more, where)


def paired(name, first, second, line, status=0, externals=stop(0, 0), where=EXAMPLES):
    files = {"program.lf": PIPE, "externals.csv": externals, "first.csv": table("trace", first), "second.csv": table("trace", second)}
    example(name, "pair", files, line + "\n", status, where=where)


def recorded(name, rows, fault="", program=PIPE, cards=PIPE_CARDS, most_runs=10**6):
    files = {"program.lf": program, "externals.csv": stop(0, 0), "cards.csv": table("cards", cards)}
    example(name, "record", files, table("trace", rows) + (f"fault {fault}\n" if fault else ""), more=["--max-runs", str(most_runs)])
    flat, made = FLAT[program], EXAMPLES[-1]
    plan = Plan(flat, *read_externals(flat, made.files["externals.csv"]))
    made.recording = (plan, read_cards(flat, made.files["cards.csv"]), most_runs)


def all_judged():
    judged("empty", EMPTY, stop(0, 0), "", "accepted runs=0 tags=0")
    judged("empty, no trace", EMPTY, stop(0, 0), None, "fault trace 1 BadHeader")
    judged("one run", ONE, stop(0, 0), ONE_ROWS, "accepted runs=1 tags=1")
    judged("one run, unended", ONE, stop(0, 0), "start,0,0,0,main#1,,,\n", f"broken rule=5 unended line=2 {AT_ZERO} reaction=main#1", 1)
    judged("one run, twice", ONE, stop(0, 0), ONE_ROWS * 2, f"broken rule=3 order line=4 {AT_ZERO} reaction=main#1", 1)
    for command in ("judge", "bundle"):
        judged("pipe accepted", PIPE, stop(0, 0), PIPE_ROWS, "accepted runs=2 tags=1", command=command)
    judged("pipe wrong read", PIPE, stop(0, 0), WRONG_READ, f"broken rule=10 wrong-read {AT_ZERO} reaction=main.b#1", 1)
    judged("pipe wrong read, explained", PIPE, stop(0, 0), WRONG_READ, WHY_WRONG_READ, 1, command="explain")
    lines = PIPE_ROWS.splitlines(True)
    overlapping = "".join([*lines[:2], *lines[3:], lines[2]])
    judged("pipe overlapping", PIPE, stop(0, 0), overlapping, f"broken rule=9 too-early {AT_ZERO} reaction=main.b#1", 1)
    judged("deep", DEEP, stop(5000000, 1), DEEP_ROWS, "accepted runs=5 tags=5")
    judged("deep, another tag", DEEP, stop(5000000, 1), DEEP_ROWS.replace("5000000,1", "5000000,0"),
           "broken rule=8 not-triggered time=5000000 microstep=0 reaction=main.b.c#1", 1)
    judged("again", AGAIN, stop(0, 1), AGAIN_ROWS, "accepted runs=2 tags=2")
    judged("again, once", AGAIN, stop(0, 1), AGAIN_ROWS[:AGAIN_ROWS.index("start,0,0,1")], "broken rule=7 not-run time=0 microstep=1 reaction=main#2", 1)
    judged("loop", LOOP, stop(0, 0), "", "fault graph 1 CausalityLoop main.a#1 main.b#1")
    judged("loop, delayed", LOOP.replace("a.z }", "a.z after 0 }"), stop(0, 0), "", "accepted runs=0 tags=0")


def all_covered():
    judged("pipe accepted, covered", PIPE, stop(0, 0), PIPE_ROWS, COVERED, command="cover")
    judged("pipe accepted, listed", PIPE, stop(0, 0), PIPE_ROWS, LISTED, command="cover", more=["--list"])
    judged("pipe wrong read, covered", PIPE, stop(0, 0), WRONG_READ, f"broken rule=10 wrong-read {AT_ZERO} reaction=main.b#1", 1, command="cover")


def all_followed():
    judged("deep, followed", DEEP, stop(5000000, 1), DEEP_ROWS, "accepted runs=5 tags=5", command="follow")
    judged("one run, unended, followed", ONE, stop(0, 0), "start,0,0,0,main#1,,,\n", "unbroken runs=0 tags=0", 3, command="follow")
    later = PIPE_ROWS.replace(",0,0,main", ",10000000,0,main")
    judged("pipe wrong read, followed", PIPE, stop(10**7, 0), WRONG_READ + later, f"broken rule=10 wrong-read {AT_ZERO} reaction=main.b#1", 1, command="follow")
    judged("events in the log, followed", KEY, stop(10**18, 0), KEY_LOG, "accepted runs=1 tags=1", command="follow")
    judged("a late event in the log, followed", KEY, stop(10**18, 0), KEY_LOG + "event,4,0,main.key,7\n", "fault externals 13 LateExternal line=4", command="follow")
    example("the log alone, followed", "follow", {"program.lf": KEY}, "accepted runs=1 tags=1\n")
    EXAMPLES[-1].stdin = table("trace", KEY_LOG).encode()
    judged("one run, twice, followed", ONE, stop(0, 0), ONE_ROWS * 2, f"broken rule=3 order line=4 {AT_ZERO} reaction=main#1", 1, command="follow")


def all_paired():
    wrong = f"broken rule=10 wrong-read {AT_ZERO} reaction=main.b#1"
    others = PIPE_ROWS.replace(",0,0,0,", ",9,0,0,").replace(",1,0,0,", ",0,0,0,").replace(",9,0,0,", ",1,0,0,")
    write = PIPE_ROWS.splitlines(True)[1]
    paired("pair same", PIPE_ROWS, others, "same runs=2 tags=1")
    paired("pair differ", PIPE_ROWS, PIPE_ROWS.replace("out,1", "out,5").replace("x,1", "x,5"), f"differ {AT_ZERO} reaction=main.a#1", 1)
    paired("pair second broken", PIPE_ROWS, WRONG_READ, f"second {wrong}", 1)
    paired("pair first broken", WRONG_READ, PIPE_ROWS, f"first {wrong}", 1)
    paired("pair both broken", WRONG_READ, WRONG_READ, f"first {wrong}", 1)
    paired("pair written twice", PIPE_ROWS, PIPE_ROWS.replace(write, write * 2), "same runs=2 tags=1")


def all_recorded():
    rows = PIPE_ROWS.replace("out,1", "out,7").replace("x,1", "x,7").replace(",1,0,0,", ",0,0,0,")
    first = "".join(rows.splitlines(True)[:3])
    recorded("record pipe", rows)
    recorded("record pipe, no body", first, "pool 1 NoBody main.b#1", cards=PIPE_CARDS.replace("bodies,main.b#1,,,1\n", ""))
    recorded("record pipe, undeclared", rows.splitlines(True)[0], "pool 3 UndeclaredEffect main.a#1", cards=PIPE_CARDS.replace("main.a.out", "main.b.x"))
    recorded("record pipe, one run", first, "pool 4 TooManyRuns", most_runs=1)
    runs = "".join(f"start,0,0,0,main.{x}#1,,,\nwrite,0,0,0,main.{x}#1,main.{x}.o,1,\nend,0,0,0,main.{x}#1,,,\n" for x in "pq")
    recorded("record two", runs, program=TWO, cards=TWO_CARDS)


def whole(name, command, tables, own, status=0):
    """An example with `--lower`. What it imports is read behind the program."""
    files = {"program.lf": BANK, **tables}
    example(name, command, {**files, "B.lf": IMPORTED}, own, status)
    EXAMPLES[-1].words = [command, "--lower", *files]
    EXAMPLES[-1].unopened = {"B.lf": UNREAD}
    EXAMPLES[-1].told = {"B.lf": UNREAD_TOLD} if command == "explain" else {}


def all_whole():
    def tables(rows):
        return {"externals.csv": stop(0, 0), "trace.csv": table("trace", rows)}

    whole("whole shown", "show", {}, WHOLE_SHOWN)
    whole("whole accepted", "judge", tables(WHOLE_ROWS), "accepted runs=3 tags=1\n")
    whole("whole wrong read, explained", "explain", tables(WHOLE_ROWS.replace("x,2", "x,3")), WHY_WRONG_WHOLE + "\n", 1)


def all_large():
    """*Pipe* to its 5,000th firing: 30,000 rows, right and broken in the last run."""
    rows = "".join(PIPE_ROWS.replace(",0,0,main", f",{time},0,main") for time in range(0, ROUNDS * 10**7, 10**7))
    last = (ROUNDS - 1) * 10**7
    ending = rows[-200:]
    wrong = rows[:-200] + ending.replace("b.x,1", "b.x,2")
    broken = f"broken rule=10 wrong-read time={last} microstep=0 reaction=main.b#1"
    judged("large accepted", PIPE, stop(last, 0), rows, f"accepted runs={2 * ROUNDS} tags={ROUNDS}", where=LARGE)
    judged("large wrong read", PIPE, stop(last, 0), wrong, broken, 1, where=LARGE)
    judged("large bad row", PIPE, stop(last, 0), rows[:-200] + ending.replace("b.x,1", "b.x,+1"), f"fault trace 4 BadNumber line={ROUNDS * 6}", where=LARGE)
    judged("large broken row", PIPE, stop(last, 0), rows[:-200] + ending.replace("main.b.x,1", "main.a.out,1"),
           f"broken rule=4 undeclared line={ROUNDS * 6} time={last} microstep=0 reaction=main.b#1", 1, where=LARGE)
    paired("large pair", rows, wrong, f"second {broken}", 1, externals=stop(last, 0), where=LARGE)


all_judged()
all_covered()
all_followed()
all_paired()
all_recorded()
all_whole()
example("show deep", "show", {"program.lf": DEEP}, DEEP_SHOWN)
all_large()
