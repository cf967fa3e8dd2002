"""What the scripts of this folder read: a trace table, what lftrace says of it, the output of `lftrace show`."""
import csv
import dataclasses
import re
import sys

csv.field_size_limit(2**31 - 1)
LONGEST = 60  # letters of a name or a value that are shown
HEADER = "event,worker,time,microstep,reaction,name,value,delay".split(",")
LINE = re.compile(
    r"(?:rule=(?P<rule>\d+) (?P<name>\S+) )?(?:line=(?P<line>\d+) )?"
    r"time=(?P<time>\d+) microstep=(?P<microstep>\d+)(?: reaction=(?P<reaction>\S+))?"
)
# Facts of `lftrace explain`: a run that starts too early; the first row at a later tag; the start before a second one.
RACE = re.compile(r"A race \(rule 9\): \S+ starts at \(.*?\) in line (\d+), before ")
LATER = re.compile(r"Line (\d+) is the first at a later tag, ")
# Of rule 10 the inputs that were read otherwise, of rule 7 the rows that cause the missing run.
WRONG = re.compile(r"^  (\S+) +(\S.*?)  +(\S.*)$", re.M)
CAUSE = re.compile(r"^ *(\d+) \| .*  a cause$", re.M)
FIRST = re.compile(r"^ *(\d+) \| .*  its first start$", re.M)


def number(text):
    """A number of a table. It may have leading zeros, and Python reads so many digits alone."""
    return int(text.lstrip("0") or "0")


def short(text, longest=LONGEST):
    """As much of a text as is shown."""
    return text if len(text) <= longest else text[: longest - 1] + "\u2026"


@dataclasses.dataclass(slots=True)
class Row:
    line: int
    event: str
    name: str
    value: str
    delay: str

    def text(self):
        """The step in words, as `read main.b.speed = 30`."""
        words = [self.event, short(self.name)] if self.name else [self.event]
        if self.event in ("read", "write", "schedule"):
            words += ["=", short(self.value) or "bare"]
        if self.delay:
            words += ["delay", short(self.delay)]
        return " ".join(words)


@dataclasses.dataclass(slots=True)
class Run:
    worker: int
    tag: tuple[int, int]
    reaction: str
    rows: list[Row]

    @property
    def first(self):
        return self.rows[0].line

    @property
    def last(self):
        return self.rows[-1].line

    def has(self, line):
        return line is not None and self.first <= line <= self.last and any(row.line == line for row in self.rows)

    @property
    def is_whole(self):
        return self.rows[0].event == "start" and self.rows[-1].event == "end"


@dataclasses.dataclass(slots=True)
class Breach:
    """What a line names: a row of the table, or a reaction at a tag; `differ` has no rule.

    `other` is a row of the run that the named one was to wait for, where facts tell it. `wrong` are the inputs that were
    read otherwise: a name, what was read, what is present. `causes` are the rows that make a missing run due.
    """

    text: str
    rule: int | None
    line: int | None
    tag: tuple[int, int]
    reaction: str | None
    other: int | None = None
    wrong: tuple = ()
    causes: tuple = ()

    def names(self, run):
        if self.line is not None:
            return run.has(self.line)
        return (run.tag, run.reaction) == (self.tag, self.reaction)


def read_breach(text):
    """The breach that the first line of what lftrace says names, or None: an accepted trace has none."""
    text = text.strip().partition("\n")[0]
    found = LINE.search(text)
    if not found:
        return None
    numbers = {word: number(found[word]) if found[word] else None for word in ("rule", "line", "time", "microstep")}
    tag = numbers["time"], numbers["microstep"]
    return Breach(text, numbers["rule"], numbers["line"], tag, found["reaction"])


def read_race(text):
    """The run that starts too early and what it was to wait for, where `lftrace explain` tells them; else the breach.

    Of the rules 1 and 5 that is the first run at a later tag, which meets the open one. Of any rule of rows it is the
    race of rule 9 that stands before it, and of rule 3 the second start of a run.
    """
    breach = read_breach(text)
    if breach and breach.rule == 10:
        table = re.search(r"^  input +read +present\n((?:  \S.*\n)*)", text, re.M)
        breach = dataclasses.replace(breach, wrong=tuple(WRONG.findall(table[1] if table else "")))
    if breach and breach.rule == 7:
        breach = dataclasses.replace(breach, causes=tuple(CAUSE.findall(text)))
    race, later, first = RACE.search(text), LATER.search(text), FIRST.search(text)
    if breach and breach.rule in (1, 5) and later:
        line, other = int(later[1]), breach.line
    elif race:
        return at_row(breach, text, int(race[1]), rule=9)
    elif first:
        line, other = breach.line, int(first[1])
    else:
        return breach
    return at_row(breach, text, line, other=other)


def at_row(breach, text, line, **changed):
    """The breach at a row that `explain` quotes."""
    row = re.search(rf"^ *{line} \| \w+,\d+,(\d+),(\d+),([^,]*),", text, re.M)
    if not row:
        return breach
    return dataclasses.replace(breach, line=line, tag=(number(row[1]), number(row[2])), reaction=row[3], **changed)


def tag_text(tag):
    return f"time={tag[0]} microstep={tag[1]}"


def read_runs(path):
    """The runs of a trace table, in the order of their last rows.

    A broken table is read too: a run without an end row has the rows that it has, and a row that
    belongs to no open run is a run of its own.
    """
    open_runs = {}
    for worker, tag, reaction, row in read_rows(path):
        run = open_runs.get(worker)
        if row.event == "start":
            if run:
                yield run
            open_runs[worker] = Run(worker, tag, reaction, [row])
        elif run and (run.tag, run.reaction) == (tag, reaction):
            run.rows.append(row)
            if row.event == "end":
                yield open_runs.pop(worker)
        else:
            yield Run(worker, tag, reaction, [row])
    yield from open_runs.values()


def read_records(path):
    """The records behind the header. Lines count as those of lftrace do."""
    with open(path, newline="", encoding="utf-8-sig", errors="replace") as table:
        records = filter(None, csv.reader(table))
        if next(records, None) != HEADER:
            raise ValueError(f"{path}: the header is to be {','.join(HEADER)}")
        yield from records


def count_rows(path):
    return sum(1 for _ in read_records(path))


def read_rows(path):
    """Worker, tag, reaction and row of each record."""
    for line, record in enumerate(read_records(path), 2):
        try:
            event, worker, time, microstep, reaction, name, value, delay = record
            yield number(worker), (number(time), number(microstep)), reaction, Row(line, event, name, value, delay)
        except ValueError as fault:
            raise ValueError(f"{path}: record {line} is no row of a trace: {short(','.join(record))}") from fault


def read_shown(path):
    """Level and direct predecessors of each reaction, from the output of `lftrace show`."""
    found = {}
    with open(path, encoding="utf-8") as shown:
        for words in map(str.split, shown):
            if words[:1] == ["reaction"]:
                before = [words[3].removeprefix("before="), *words[4:]]
                found[words[1]] = int(words[2].removeprefix("level=")), [] if before == ["-"] else before
    return found


def preceding(shown, reaction):
    """All reactions that precede one: those before it, and what precedes them."""
    found, left = set(), [reaction]
    while left:
        for before in shown.get(left.pop(), (0, []))[1]:
            if before not in found:
                found.add(before)
                left.append(before)
    return found


def call(main, usage, least, most):
    """Calls main with the words of the command line. Status 2: the wrong number of them, or a file that can't be read."""
    words = sys.argv[1:]
    if not least <= len(words) <= most:
        print(usage, file=sys.stderr)
        sys.exit(2)
    try:
        main(*words)
    except (OSError, ValueError) as fault:
        print(f"{sys.argv[0]}: {fault}", file=sys.stderr)
        sys.exit(2)
