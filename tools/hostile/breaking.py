"""Breaks tables and programs, plants faults in programs, and writes tables in other words of one meaning."""
import re

from hostile.reactors import joined
from hostile.tables import MARK, records

NUMBERS = ["0", "-0", "+1", " 1", "1 ", "", "-", "1e3", "1.0", "0x1", "\u0661", "4294967295", "4294967296", "1000000000", "1000000001", str(10**18), str(10**18 + 1),
           str(2**63 - 1), str(2**63), str(-2**63), str(-2**63 - 1), str(2**64 - 1), str(2**64), "9" * 40, "0" * 40 + "1", "bare", "state+time"]
WORDS = ["start", "end", "stop", "read", "write", "schedule", "event", "bodies", "state", "Start", "main", "main#1", "main#01", "main.", "", "x\"y", "\"", "a,b", "a\nb", "\xff"]
BYTES = [b",", b"\"", b"\r", b"\n", b"\r\n", b"\n\n", b"\0", b"\xff", b"0", b"-", b"+", b" ", b";", b"#", MARK, b"\"\"", b",,", b"--- trace\n", b"--- externals\n"]


def place(rng, length):
    """A place below a length, often near the end or the begin."""
    return max(0, min(length - 1, rng.choice([rng.randrange(length or 1), rng.randrange(3), length - 1 - rng.randrange(3)])))


def change_field(rng, table):
    """Writes one field anew: a neighbour's, a number at a limit, one more or less, a word."""
    row = table[place(rng, len(table))]
    at = rng.randrange(len(row))
    shifted = str(int(row[at]) + rng.choice([-1, 1, 10**6])) if re.fullmatch("-?[0-9]{1,19}", str(row[at])) else "1"
    other = rng.choice(table)
    row[at] = rng.choice([shifted, shifted, other[min(at, len(other) - 1)], other[min(at, len(other) - 1)], rng.choice(NUMBERS), rng.choice(WORDS)])


def exchange_fields(rng, table):
    row, other = table[place(rng, len(table))], table[place(rng, len(table))]
    at, to = rng.randrange(len(row)), rng.randrange(len(other))
    row[at], other[to] = other[to], row[at]


def change_width(rng, table):
    row = table[place(rng, len(table))]
    if rng.random() < 0.5:
        row.insert(rng.randint(0, len(row)), "")
    else:
        row.pop(rng.randrange(len(row)))


def drop_row(rng, table):
    table.pop(place(rng, len(table)))


def double_row(rng, table):
    table.insert(place(rng, len(table) + 1), list(rng.choice(table)))


def move_row(rng, table):
    row = table.pop(place(rng, len(table)))
    table.insert(place(rng, len(table) + 1), row)


def exchange_neighbours(rng, table):
    at = place(rng, len(table) - 1)
    table[at:at + 2] = table[at:at + 2][::-1]


def run_of(rng, table):
    """The places of the rows of one tag and reaction."""
    run = rng.choice(table)[2:5]
    return [at for at, row in enumerate(table) if row[2:5] == run]


def drop_run(rng, table):
    for at in reversed(run_of(rng, table)):
        table.pop(at)


def cut_rows(rng, table):
    del table[place(rng, len(table)):]


def stop_row(rng, table):
    row = rng.choice(table)
    table.insert(place(rng, len(table) + 1), ["stop", *row[1:5], *("" for _ in row[5:])])


def move_run(rng, table):
    """Moves a whole run, or its first or its last row."""
    places = run_of(rng, table)
    places = rng.choice([places, places[:1], places[-1:]])
    rows = [table[at] for at in places]
    for at in reversed(places):
        table.pop(at)
    at = max(0, min(len(table), places[0] + rng.randint(-6, 6)))
    table[at:at] = rows


def change_run(rng, table):
    """Gives all rows of a run another worker, time, microstep or reaction; or adds such a run at the end."""
    rows, column = [table[at] for at in run_of(rng, table)], rng.randint(1, 4)
    other = rng.choice(table)[column:column + 1]
    if column in (2, 3) and rng.random() < 0.7 and rows[0][column].isdigit():
        other = [str(int(rows[0][column]) + 1)]
    if rng.random() < 0.3:
        rows = [list(row) for row in rows]
        table += rows
    for row in rows:
        row[column:column + 1] = other


def change_step(rng, table):
    """Doubles or drops a read, write or schedule row, or changes its value, delay or name."""
    steps = [at for at, row in enumerate(table) if row[0] in ("read", "write", "schedule") and len(row) == 8]
    if not steps:
        return
    at, how = rng.choice(steps), rng.randrange(5)
    if how < 2:
        table[at:at + 1] = [list(table[at])] * 2 if how else []
    else:
        column = (5, 6, 7 if table[at][0] == "schedule" else 6)[how - 2]
        table[at] = [*table[at][:column], table[rng.choice(steps)][5] if column == 5 else rng.choice(["", "0", "1", "2", "7"]), *table[at][column + 1:]]


def add_run(rng, table):
    """Adds a run of some reaction behind some row, by a worker of its own."""
    at = place(rng, len(table))
    rows = [[event, "77", *table[at][2:4], *rng.choice(table)[4:5], "", "", ""] for event in ("start", "end")]
    table[at + 1:at + 1] = rows


ROW_BREAKS = [change_field, change_field, exchange_fields, drop_row, double_row, move_row, exchange_neighbours, cut_rows, stop_row, change_width,
              *[drop_run, change_run] * 2, *[move_run, add_run] * 3, *[change_step] * 6]


def broken_rows(rng, text):
    """A table with one or two breaks of its rows."""
    table = [[field.decode("utf-8", "surrogateescape") for field in row] for row in records(text)]
    head = [] if rng.random() < 0.03 else [table.pop(0)]
    for _ in range(rng.choice([1, 1, 2])):
        if len(table) > 1:
            rng.choice(ROW_BREAKS)(rng, table)
            table = [row or [""] for row in table]
    return written(rng, head + table)


def broken_bytes(rng, text):
    """A text with one or two breaks of its bytes."""
    for _ in range(rng.choice([1, 1, 2])):
        at, more = place(rng, len(text) + 1), rng.choice([1, 1, 2, 8, 64])
        text = rng.choice([
            text[:at] + rng.choice(BYTES) + text[at + 1:],
            text[:at] + rng.choice(BYTES) + text[at:],
            text[:at] + text[at + more:],
            text[:at] + text[at:at + more] * 2 + text[at + more:],
            text[:at],
            text[:at] + bytes([rng.randrange(256)]) + text[at + 1:],
        ])
    return text


def quoted(field):
    return b"\"" + field.replace(b"\"", b"\"\"") + b"\""


def written(rng, table, how=0.0):
    """The text of a table: fields are quoted where they have to be, and others by chance."""
    lines = []
    for row in table:
        fields = [field.encode("utf-8", "surrogateescape") for field in map(str, row)]
        must = [any(byte in field for byte in b"\",\r\n") or field.startswith(MARK) or fields == [b""] for field in fields]
        lines.append(b",".join(quoted(field) if must[at] or rng.random() < how else field for at, field in enumerate(fields)))
    ends = [b"\n"] if how == 0 else [b"\n", b"\r\n", b"\r", b"\n\n", b"\r\n\r\n\n"]
    text = b"".join(line + rng.choice(ends) for line in lines)
    return text if how == 0 else rng.choice([b"", b"", b"\n", MARK, MARK + b"\r\n"]) + text.rstrip(b"\r\n") + rng.choice([b"", b"\n", b"\n\r\n"])


def rewritten(rng, part, text):
    """A text of the same records, but for zeros at the head of numbers, which mean nothing."""
    columns = {"trace": (1, 2, 3, 6, 7), "externals": (1, 2, 4), "cards": (3,)}[part]
    table = [[field.decode("utf-8", "surrogateescape") for field in row] for row in records(text)]
    for row in table[1:]:
        for at in columns:
            if at < len(row) and re.fullmatch("-?[0-9]+", row[at]) and rng.random() < 0.2:
                row[at] = row[at].replace("-", "-00") if "-" in row[at] else "00" + row[at]
    return written(rng, table, rng.choice([0.02, 0.3, 1]))


def broken_tokens(rng, tokens):
    """The tokens of a program with one or two breaks."""
    tokens = list(tokens)
    for _ in range(rng.choice([1, 1, 2])):
        at, to = rng.randrange(len(tokens)), rng.randrange(len(tokens))
        extra = rng.choice([*tokens, "{", "}", "(", ")", "->", ",", ".", "=", "0", "5", "ms", "after", "new", "startup", "main", "state", "é", str(2**64), "-", "\"a\"", "{= =}"])
        how = rng.randrange(5)
        if how == 0:
            tokens.pop(at)
        elif how == 1:
            tokens[at], tokens[to] = tokens[to], tokens[at]
        else:
            tokens[at:at + (how == 2)] = [extra]
        tokens = tokens or ["main"]
    return tokens


# What is wrong with a program, in the order in which it is told: the fault, what is written at the head
# of the program, and what at the head of the main reactor's body.
DOUBLING = "".join(f"reactor W{k} {{ a = new W{k + 1}() b = new W{k + 1}() }} " for k in range(14)) + "reactor W14 { }"
PLANTS = [
    ("program 2 TwoMains", "main reactor { }", ""),
    ("program 3 DuplicateName", "", "timer z1 timer z1"),
    ("program 3 DuplicateName", "reactor Z1 { input a output a }", ""),
    ("program 3 DuplicateName", "reactor Z2 { } reactor Z2 { }", ""),
    ("program 3 DuplicateName", "reactor Z3(p: time = 0) { }", "z3 = new Z3(p = 0, p = 1 ms)"),
    ("program 4 UnknownReactor", "", "z4 = new Nothing()"),
    ("program 5 RecursiveReactor", "reactor Z5 { a = new Z6() } reactor Z6 { a = new Z5() }", ""),
    ("program 6 UnknownName", "", "reaction(nothing) {= =}"),
    ("program 6 UnknownName", "reactor Z7 { timer t(q) }", ""),
    ("program 6 UnknownName", "reactor Z8 { }", "z8 = new Z8(p = 0)"),
    ("program 7 WrongPlace", "reactor Z9 { output o reaction(o) {= =} }", ""),
    ("program 7 WrongPlace", "reactor Z10 { input i reaction(startup) -> i {= =} }", ""),
    ("program 7 WrongPlace", "", "timer z11 timer z12(z11)"),
    ("program 8 MainHasPorts", "", "input z13"),
    ("program 9 TwoSources", "reactor Z14 { input i output o i, i -> o, o }", ""),
    ("program 9 TwoSources", "reactor Z15 { input i output o i -> o reaction(i) -> o {= =} }", ""),
    ("program 11 WidthMismatch", "reactor Z16 { input i output o i, i -> o }", ""),
    ("program 12 NoTrigger", "", "reaction() {= =}"),
    ("program 13 DuplicateInput", "", "reaction(startup, z17, z17) {= =} timer z17"),
    ("program 13 DuplicateInput", "reactor Z18 { output o reaction(startup) -> o, o {= =} }", ""),
    ("program 15 TooMany", DOUBLING, "w = new W0()"),
    ("program 10 ConnectionCycle", "reactor Z19 { input i output o i -> o }", "z19 = new Z19() z19.o -> z19.i after 1 ms"),
    ("program 14 DelayTooLong", "", "timer z20(1654 weeks)"),
    ("program 14 DelayTooLong", "reactor Z21 { input i output o i -> o after 900000000 s }", "z21 = new Z21() z22 = new Z21() z21.o -> z22.i after 900000000 s"),
]
# What is told before any of these, at the end of a program: by the bytes before it, or by the tokens.
LAST_BYTES = [("lex 1 BadChar at={}", b"\xc3"), ("lex 2 OpenComment", b"/*/"), ("lex 3 OpenCode", b"{=}"), ("lex 4 OpenString", b"\"\\\""),
              ("lex 5 NumberTooLarge at={}", b"18446744073709551616"), ("lex 6 TooLong", b" " * 2**20)]
LAST_TOKENS = [(1, ")"), (8, "reactor A { timer t(5) }"), (6, "reactor A(p: int = 1) { }"), (2, "reactor"), (4, "reactor A { after }")]


def planted(rng, tokens):
    """The text of a program with some faults, and what its fault line says."""
    at = tokens.index("main")
    if rng.random() < 0.2:
        token, more = rng.choice(LAST_TOKENS)
        return joined([*tokens, more], rng), f"syntax 1 Unexpected token={len(tokens) + token}"
    faults = [PLANTS[at] for at in sorted(rng.sample(range(len(PLANTS)), rng.choice([1, 1, 2, 3])))]
    head, body = (" ".join(fault[part] for fault in faults) for part in (1, 2))
    brace = tokens.index("{", at)
    tokens = [*tokens[:at], head, *tokens[at:brace + 1], body, *tokens[brace + 1:]]
    order = [fault.split(" ")[1] for fault, _, _ in PLANTS]
    told = min((fault for fault, _, _ in faults), key=lambda fault: order.index(fault.split(" ")[1]))
    at = tokens.index("main")
    if tokens[at + 2] not in "{(" and faults[0][0] != "program 2 TwoMains" and rng.random() < 0.1:
        tokens.pop(at)
        told = "program 1 NoMain"
    text = joined(tokens, rng)
    if rng.random() < 0.2:
        told, more = rng.choice(LAST_BYTES)
        told, text = told.format(len(text)), text + more
    return text, told
