"""What rows mean: events and presence, the ten rules, comparing, and recording by cards.

It follows docs/DEFINITIONS.md and not the code, so it searches where the code has an index. A tag is
(time, microstep). Things go by their full names and reactions by number; a bare value is None.
"""
import bisect
import collections
import dataclasses
import functools

from hostile.reactors import LONGEST, Flat

Row = collections.namedtuple("Row", "event worker tag reaction name value delay", defaults=("", None, 0))
Card = collections.namedtuple("Card", "bodies steps state")
MOST_MICROSTEPS = 10**9
RULES = ["", "late", "after-stop", "order", "undeclared", "unended", "collision", "not-run", "not-triggered", "too-early", "wrong-read"]


def after(tag, delay):
    return (tag[0] + delay, 0) if delay else (tag[0], tag[1] + 1)


@dataclasses.dataclass
class Plan:
    """A flat program with its external inputs, whose events go by (tag, name)."""
    flat: Flat
    stop: tuple
    externals: dict

    @functools.cached_property
    def timers(self):
        """The timers that trigger something."""
        triggers = {name for reaction in self.flat.reactions for name in reaction.triggers}
        return {name: timer for name, timer in self.flat.timers.items() if name in triggers}

    @functools.cached_property
    def triggered_by(self):
        found = collections.defaultdict(set)
        for number, reaction in enumerate(self.flat.reactions):
            for name in reaction.triggers:
                found[name].add(number)
        return found

    def may_write(self, reaction, name):
        return name in self.flat.reactions[reaction].effects and name in self.flat.ports

    def may_schedule(self, reaction, name):
        return name in self.flat.reactions[reaction].effects and name in self.flat.actions and not self.flat.actions[name][0]


def next_firing(timer, tag):
    """The least firing after a tag, if there is one."""
    (offset, period), least = timer, tag[0] + 1
    if least <= offset:
        return (offset, 0)
    return (offset + -(-(least - offset) // period) * period, 0) if period else None


class Events:
    """What is present at each tag, by the writes, schedulings and stops of some rows."""

    def __init__(self, plan, rows):
        self.plan = plan
        self.stop = min([plan.stop, *(after(row.tag, 0) for row in rows if row.event == "stop")])
        self.causes = collections.defaultdict(lambda: collections.defaultdict(list))
        written = collections.defaultdict(dict)
        for row in rows:
            if row.event == "write":
                written[row.name][row.tag] = row.value
            elif row.event == "schedule":
                self.causes[after(row.tag, plan.flat.actions[row.name][1] + row.delay)][row.name].append(row.value)
        for (tag, name), value in plan.externals.items():
            self.causes[tag][name].append(value)
        for port, (origin, delays) in plan.flat.ports.items():
            for tag, value in written[origin].items():
                self.causes[functools.reduce(after, delays, tag)][port].append(value)

    def tags(self, others=()):
        """The tags up to the stop at which something may be present, and others, in order."""
        fixed = sorted(tag for tag in {*self.causes, *others, (0, 0), self.stop} if tag <= self.stop)
        tag = (-1, 0)
        while True:
            at = bisect.bisect_right(fixed, tag)
            ahead = [*fixed[at:at + 1], *(next_firing(timer, tag) for timer in self.plan.timers.values())]
            tag = min((one for one in ahead if one), default=None)
            if tag is None or tag > self.stop:
                return
            yield tag

    def due(self, tag):
        """The reactions that are triggered at a tag."""
        present = [name for name in self.causes.get(tag, ())]
        present += [name for name, timer in self.plan.timers.items() if next_firing(timer, (tag[0] - 1, tag[1])) == tag]
        present += ["startup"] * (tag == (0, 0)) + ["shutdown"] * (tag == self.stop)
        return set().union(*(self.plan.triggered_by.get(name, ()) for name in present))

    def inputs(self, tag, reaction):
        """The inputs of a reaction that are present, with their values."""
        causes = self.causes.get(tag, {})
        return {name: causes[name][0] for name in self.plan.flat.reactions[reaction].inputs if name in causes}

    def collides(self, tag):
        return any(len(values) > 1 for values in self.causes.get(tag, {}).values())

    def collision(self):
        """The least tag up to the stop with a collision."""
        return min((tag for tag in self.causes if tag <= self.stop and self.collides(tag)), default=None)

    def ready(self, ended):
        """The least tag that isn't finished, with the reactions that may start there after what has ended."""
        for tag in self.tags():
            waiting = {reaction for reaction in self.due(tag) if (tag, reaction) not in ended}
            if waiting:
                return tag, sorted(reaction for reaction in waiting if not self.plan.flat.preceding[reaction] & waiting)
        return None


def row_breach(plan, rows, rules=(1, 2, 3, 4, 5)):
    """The first breach of the rules 1 to 5, or of some of them: (rule, line, tag, reaction)."""
    stop = Events(plan, [row for row in rows if row.event == "stop"]).stop
    last_end = {(row.worker, row.tag, row.reaction): at for at, row in enumerate(rows) if row.event == "end"}
    greatest, opened, started, read = (0, 0), collections.Counter(), set(), set()
    is_open = set()
    for at, row in enumerate(rows):
        run, name = (row.worker, row.tag, row.reaction), (row.tag, row.reaction, row.name)
        broken = {1: row.tag < greatest, 2: row.tag > stop}
        if row.event == "start":
            broken[3] = run[1:] in started or opened[row.worker] > 0
            broken[5] = last_end.get(run, -1) < at
            opened[row.worker] += run not in is_open
            is_open.add(run)
            started.add(run[1:])
        else:
            broken[3] = run not in is_open
        if row.event == "read":
            broken[4] = row.name not in plan.flat.reactions[row.reaction].inputs or name in read
            read.add(name)
        elif row.event == "write":
            broken[4] = not plan.may_write(row.reaction, row.name)
        elif row.event == "schedule":
            broken[4] = not plan.may_schedule(row.reaction, row.name)
        elif row.event == "end" and run in is_open:
            is_open.remove(run)
            opened[row.worker] -= 1
        greatest = max(greatest, row.tag)
        found = [rule for rule in rules if broken.get(rule)]
        if found:
            return found[0], at + 2, row.tag, row.reaction
    return None


def runs_of(rows):
    """The runs by tag and reaction: places of start and end, reads, and the answer."""
    runs = collections.defaultdict(dict)
    for at, row in enumerate(rows):
        if row.event == "start":
            runs[row.tag][row.reaction] = {"start": at, "end": None, "reads": {}, "writes": {}, "schedules": collections.defaultdict(list), "stops": False}
        run = runs[row.tag].get(row.reaction)
        if run and row.event == "read":
            run["reads"][row.name] = row.value
        elif run and row.event == "write":
            run["writes"][row.name] = row.value
        elif run and row.event == "schedule":
            run["schedules"][row.name].append((row.delay, row.value))
        elif run and row.event == "stop":
            run["stops"] = True
        elif run and row.event == "end":
            run["end"] = at
    return runs


def tag_breach(plan, rows):
    """The first breach of the rules 6 to 10 of rows that break no other."""
    events, runs = Events(plan, rows), runs_of(rows)
    for tag in events.tags(runs):
        due, here = events.due(tag), runs.get(tag, {})
        if events.collides(tag):
            return 6, 0, tag, None
        early = {b for b, run in here.items() if any(a in here and here[a]["end"] > run["start"] for a in plan.flat.preceding[b])}
        wrong = {b for b, run in here.items() if run["reads"] != events.inputs(tag, b)}
        for rule, broken in ((7, due - here.keys()), (8, here.keys() - due), (9, early), (10, wrong)):
            if broken:
                return rule, 0, tag, min(broken)
    return None


def at_tag(tag):
    return f"time={tag[0]} microstep={tag[1]}"


def verdict(plan, rows):
    """The line of `lftrace judge`."""
    breach = row_breach(plan, rows) or tag_breach(plan, rows)
    if breach is None:
        starts = [row.tag for row in rows if row.event == "start"]
        return f"accepted runs={len(starts)} tags={len(set(starts))}"
    return breach_line(plan, breach)


def breach_line(plan, breach):
    """The line of a breach."""
    rule, line, tag, reaction = breach
    where = f" line={line}" if rule <= 5 else ""
    who = f"reaction={plan.flat.reactions[reaction].name}" if rule != 6 else "(outside the profile)"
    return f"broken rule={rule} {RULES[rule]}{where} {at_tag(tag)} {who}"


def comparison(plan, first, second):
    """The line of `lftrace pair`."""
    for name, rows in (("first", first), ("second", second)):
        line = verdict(plan, rows)
        if line.startswith("broken"):
            return f"{name} {line}"
    runs, others = runs_of(first), runs_of(second)
    differing = [(tag, plan.flat.levels[reaction], reaction) for tag in runs for reaction, run in runs[tag].items()
                 if any(run[part] != others[tag].get(reaction, {}).get(part) for part in ("reads", "writes", "schedules", "stops"))]
    if differing:
        tag, _, reaction = min(differing)
        return f"differ {at_tag(tag)} reaction={plan.flat.reactions[reaction].name}"
    return line.replace("accepted", "same")


def computed(expression, reaction, tag, word, reads):
    """The value of an expression of a card."""
    def term(text):
        if text in ("state", "time"):
            return word if text == "state" else tag[0]
        return (reads.get(text) or 0) if text in reaction.inputs else int(text)
    return None if expression == "bare" else (sum(term(text) for text in expression.split("+")) + 2**63) % 2**64 - 2**63


class Recording:
    """The book of a recording: its rows, the open runs by worker, and why it stopped."""

    def __init__(self, plan, cards, most_runs):
        self.plan, self.cards, self.most_runs = plan, cards, most_runs
        self.rows, self.open, self.ended, self.stopped = [], {}, set(), None
        self.words, self.taken = collections.Counter(), collections.Counter()

    def startable(self):
        """The tag and the reaction of the run that would start now, if one would."""
        tag, ready = Events(self.plan, self.rows).ready(self.ended) or (None, ())
        waiting = [reaction for reaction in ready if (tag, reaction) not in self.open.values()]
        return (tag, waiting[0]) if waiting else None

    def why_not_begin(self, tag, reaction):
        if tag[0] > LONGEST or tag[1] > MOST_MICROSTEPS:
            return "pool 12 LimitTag"
        if self.taken.total() >= self.most_runs:
            return "pool 4 TooManyRuns"
        return f"pool 1 NoBody {self.plan.flat.reactions[reaction].name}" if self.taken[reaction] >= self.cards[reaction].bodies else None

    def begin(self, worker):
        """Starts the next run."""
        tag, reaction = self.startable()
        self.stopped = self.why_not_begin(tag, reaction)
        if not self.stopped:
            reads = Events(self.plan, self.rows).inputs(tag, reaction)
            self.rows += [Row("start", worker, tag, reaction), *(Row("read", worker, tag, reaction, name, value) for name, value in reads.items())]
            self.taken[reaction] += 1
            self.open[worker] = (tag, reaction)

    def answer(self, worker):
        """The rows of an open run's answer, and the state word after it."""
        tag, reaction = self.open[worker]
        flat, card = self.plan.flat.reactions[reaction], self.cards[reaction]
        reads, word = Events(self.plan, self.rows).inputs(tag, reaction), self.words[flat.instance]
        steps = [Row(event, worker, tag, reaction, name, computed(value, flat, tag, word, reads) if name else None, delay) for event, name, value, delay in card.steps]
        return [*steps, Row("end", worker, tag, reaction)], computed(card.state, flat, tag, word, reads) if card.state else word

    def why_not_commit(self, worker):
        rows, reaction = self.answer(worker)[0], self.open[worker][1]
        allowed = {"write": self.plan.may_write, "schedule": self.plan.may_schedule}
        if not all(allowed[row.event](reaction, row.name) for row in rows if row.event in allowed):
            return f"pool 3 UndeclaredEffect {self.plan.flat.reactions[reaction].name}"
        collision = Events(self.plan, self.rows + rows).collision()
        return f"pool 2 Collision {at_tag(collision)}" if collision else None

    def commit(self, worker):
        """Ends an open run."""
        self.stopped = self.why_not_commit(worker)
        if not self.stopped:
            rows, word = self.answer(worker)
            tag, reaction = self.open.pop(worker)
            self.words[self.plan.flat.reactions[reaction].instance] = word
            self.rows += rows
            self.ended.add((tag, reaction))

    def reasons(self):
        """Why it might stop next."""
        begins = [self.why_not_begin(*run) for run in [self.startable()] if run]
        return {*begins, *(self.why_not_commit(worker) for worker in self.open)} - {None}


def recorded(plan, cards, most_runs, workers=1, rng=None):
    """A recording to its end, with several workers in an order that is left to chance."""
    book = Recording(plan, cards, most_runs)
    while not book.stopped:
        idle = [worker for worker in range(workers) if worker not in book.open] if book.startable() else []
        if not idle and not book.open:
            break
        if idle and (not book.open or (rng and rng.random() < 0.5)):
            book.begin(rng.choice(idle) if rng else 0)
        else:
            book.commit(rng.choice(sorted(book.open)) if rng else 0)
    return book


def replayed(plan, cards, most_runs, rows):
    """The book that has written these rows, or nothing if none can have."""
    book = Recording(plan, cards, most_runs)
    while len(book.rows) < len(rows):
        row = rows[len(book.rows)]
        if row.worker in book.open:
            book.commit(row.worker)
        elif row.event == "start" and book.startable():
            book.begin(row.worker)
        else:
            return None
        if book.stopped or book.rows != rows[:len(book.rows)]:
            return None
    return book
