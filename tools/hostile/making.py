"""Makes programs, external inputs and cards by chance."""
from hostile.machine import MOST_MICROSTEPS, Plan, recorded
from hostile.reactors import LONGEST, Flat, Reaction, Reactor
from hostile.tables import HEADERS

MOST_REACTIONS, MOST_RUNS = 24, 40
VALUES = ["0", "1", "7", "-3", str(2**63 - 1), str(-2**63)]


class Making:
    """One program; its times are small multiples of one unit, so that events often meet."""

    def __init__(self, rng):
        self.rng, self.unit = rng, rng.choice([1, 10**6, 3 * 10**9])

    def time(self, parameters=()):
        if parameters and self.rng.random() < 0.3:
            return self.rng.choice(list(parameters))
        if self.rng.random() < 0.01:
            return self.rng.choice([LONGEST, LONGEST - self.unit, 4 * 10**17])
        return self.rng.choice([0, 0, 1, 1, 2, 3, 5]) * self.unit

    def timer(self, parameters):
        offset, period = self.time(parameters), self.time(parameters)
        return (offset, period if self.rng.random() < 0.8 else 0)

    def reactor(self, name, below, is_main=False):
        """A reactor that may have instances of those below it."""
        rng, made = self.rng, Reactor(name)
        made.parameters = {f"p{at}": self.time() for at in range(rng.choice([0, 0, 1, 2]))}
        if not is_main:
            made.ports = {f"x{at}": rng.random() < 0.5 for at in range(rng.randint(0, 4))}
        made.timers = {f"t{at}": self.timer(made.parameters) for at in range(rng.choice([0, 1, 1, 2]))}
        made.actions = {f"a{at}": (rng.random() < 0.3, self.time(made.parameters)) for at in range(rng.choice([0, 1, 1, 2]))}
        for at in range((rng.randint(1, 4) if is_main else rng.choice([0, 0, 1, 2])) if below else 0):
            of = rng.choice(below)
            made.instances[f"b{at}"] = (of.name, {parameter: self.time(made.parameters) for parameter in of.parameters if rng.random() < 0.5})
        ports_of = {one.name: one.ports for one in below}
        contained = {f"{name}.{port}": is_input for name, (of, _) in made.instances.items() for port, is_input in ports_of[of].items()}
        # What an input of its own is to it, an output of an instance in it is too.
        is_source = made.ports | {name: not is_input for name, is_input in contained.items()}
        sources, ends = ([name for name, is_one in is_source.items() if is_one == wanted] for wanted in (True, False))
        joined = self.connect(made, sources, ends)
        triggers = ["startup", "shutdown", *made.timers, *made.actions, *sources]
        effects = [end for end in ends if end not in joined] + list(made.actions)
        made.reactions = [self.reaction(triggers, effects) for _ in range(rng.randint(0, 3))]
        return made

    def connect(self, made, sources, ends):
        """Gives some ends a source, and joins neighbours of one delay into lists. Answers these ends."""
        joined = [end for end in ends if sources and self.rng.random() < 0.7]
        for end in self.rng.sample(joined, len(joined)):
            source, delay = self.rng.choice(sources), self.rng.choice([None, None, None, self.time(made.parameters)])
            if made.connections and made.connections[-1][2] == delay and self.rng.random() < 0.5:
                made.connections[-1][0].append(source)
                made.connections[-1][1].append(end)
            else:
                made.connections.append(([source], [end], delay))
        return joined

    def reaction(self, triggers, effects):
        names = self.rng.sample(triggers, min(len(triggers), self.rng.randint(1, 4)))
        at = self.rng.randint(1, len(names))
        uses = [name for name in names[at:] if name not in ("startup", "shutdown")]
        return Reaction(names[:at], uses, self.rng.sample(effects, min(len(effects), self.rng.randint(0, 3))))

    def reactors(self):
        below = []
        for at in range(self.rng.randint(0, 4)):
            below.append(self.reactor(f"R{at}", below))
        return [*below, self.reactor("Main", below, True)]

    def program(self):
        """Reactors that flatten to a lawful program with reactions, often without a loop."""
        while True:
            reactors = self.reactors()
            flat = Flat(reactors)
            is_lawful = all(origin and sum(origin[1]) <= LONGEST for origin in flat.ports.values())
            if is_lawful and 0 < len(flat.reactions) <= MOST_REACTIONS and (not flat.has_loop() or self.rng.random() < 0.3):
                return reactors, flat

    def tag(self):
        return (self.rng.randint(0, 12) * self.unit, self.rng.choice([0, 0, 0, 0, 0, 0, 1, 2, MOST_MICROSTEPS]))

    def externals(self, flat):
        """The records of external inputs."""
        rng = self.rng
        stop = rng.choice([self.tag(), self.tag(), self.tag(), (LONGEST, 0), (0, 0)])
        events = {(self.tag(), name): rng.choice(["", *VALUES]) for name, (physical, _) in flat.actions.items() if physical for _ in range(rng.randint(0, 6))}
        records = [["event", *tag, name, value] for (tag, name), value in events.items()] + [["stop", *stop, "", ""]]
        return [HEADERS["externals"].split(","), *rng.sample(records, len(records))]

    def expression(self, reaction):
        terms = ["state", "time", *VALUES, *reaction.inputs]
        return "+".join(self.rng.choice(terms) for _ in range(self.rng.choice([1, 1, 1, 2, 3])))

    def cards(self, flat, sparing=False):
        """The records of cards. Where they are sparing, little is scheduled and nothing goes wrong."""
        rng, records = self.rng, []
        for reaction in flat.reactions:
            ports = [name for name in reaction.effects if name in flat.ports]
            actions = [name for name in reaction.effects if name in flat.actions and not flat.actions[name][0]]
            count = 10**6 if sparing or rng.random() < 0.9 else rng.randint(0, 4)
            steps = [["bodies", reaction.name, "", "", count]]
            steps += [["write", reaction.name, name, "", rng.choice(["bare", self.expression(reaction)])] for name in ports * 2 if rng.random() < 0.6]
            steps += [["schedule", reaction.name, name, rng.choice(["", self.time(), self.time()]), rng.choice(["bare", self.expression(reaction)])]
                      for name in actions if rng.random() < (0.3 if sparing else 0.6)]
            if rng.random() < (0 if sparing else 0.08):
                steps.append(["stop", reaction.name, "", "", ""])
            if flat.port_names and rng.random() < (0 if sparing else 0.03):
                steps.append(["write", reaction.name, rng.choice(flat.port_names), "", "1"])
            if rng.random() < 0.5:
                steps.append(["state", reaction.name, "", "", self.expression(reaction)])
            records += rng.sample(steps, len(steps))
        return [HEADERS["cards"].split(","), *records]


def settled(plan, book):
    """The plan, or one with an earlier stop where the recording of it didn't come to its stop."""
    tags = sorted({row.tag for row in book.rows})
    if not book.stopped or len(tags) < 2:
        return plan
    return Plan(plan.flat, tags[-2], plan.externals)


def trace(rng, plan, cards):
    """The rows of a recording by some workers in an order that is left to chance."""
    book = recorded(plan, cards, MOST_RUNS, rng.choice([1, 2, 3, 5]), rng)
    numbers = rng.sample([0, 1, 2, 3, 64, 1023, 1024, 1025, 2**31, 2**32 - 1], 5)
    return [row._replace(worker=numbers[row.worker]) for row in book.rows]
