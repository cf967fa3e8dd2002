"""Programs of reactors: how they are written, what they flatten to, and what `lftrace show` prints.

A time is a number of nanoseconds or the name of a parameter. A name in a reactor is `x`, or `a.x` for
a port of the instance `a`.
"""
import dataclasses
import functools

LONGEST = 10**18
UNITS = {"ns": 1, "nsec": 1, "us": 10**3, "usecs": 10**3, "ms": 10**6, "msec": 10**6, "s": 10**9, "sec": 10**9, "second": 10**9,
         "min": 60 * 10**9, "minutes": 60 * 10**9, "h": 3600 * 10**9, "hours": 3600 * 10**9, "day": 86400 * 10**9, "weeks": 604800 * 10**9}


def some(kind):
    return dataclasses.field(default_factory=kind)


@dataclasses.dataclass
class Reaction:
    triggers: list
    uses: list = some(list)
    effects: list = some(list)


@dataclasses.dataclass
class Reactor:
    """A class of reactors. All members stand in the order in which they are declared."""
    name: str
    parameters: dict = some(dict)   # name: default
    ports: dict = some(dict)        # name: whether it is an input
    timers: dict = some(dict)       # name: (offset, period)
    actions: dict = some(dict)      # name: (whether it is physical, minimum delay)
    instances: dict = some(dict)    # name: (the class, {parameter: time})
    connections: list = some(list)  # (sources, destinations, delay or None)
    reactions: list = some(list)


def spelled_time(time, rng):
    """The tokens of a time, by a unit that fits."""
    if isinstance(time, str) or (time == 0 and rng.random() < 0.7):
        return [str(time)]
    unit = rng.choice([unit for unit, size in UNITS.items() if time % size == 0])
    return [str(time // UNITS[unit]), unit]


def spelled_value(time, rng):
    """The tokens that give a parameter its value."""
    return rng.choice([["=", *spelled_time(time, rng)], ["(", *spelled_time(time, rng), ")"]])


def listed(parts):
    """The lists of tokens, with commas between them."""
    return [token for part in parts for token in [",", *part]][1:]


def names(refs):
    return listed([[token for part in ref.split(".") for token in (".", part)][1:] for ref in refs])


def spelled_type(rng):
    return rng.choice([[], [], [":", "int"], [":", "{= char * =}"], [":", "std", ":", ":", "vector", "*", "[", "3", "]"]])


def spelled_member(kind, name, member, rng):
    """The tokens of one member."""
    if kind == "ports":
        words = [*rng.choice([[], [], ["mutable"]]), "input"] if member else ["output"]
        return [*words, name, *spelled_type(rng)]
    if kind == "timers":
        times = [spelled_time(time, rng) for time in member]
        # Zeros at the end may be left out.
        while times and member[len(times) - 1] == 0 and rng.random() < 0.5:
            times.pop()
        return ["timer", name, *(["(", *listed(times), ")"] if times else rng.choice([[], ["(", ")"]]))]
    if kind == "actions":
        physical, minimum = member
        delay = [] if minimum == 0 and rng.random() < 0.5 else ["(", *spelled_time(minimum, rng), ")"]
        return ["physical" if physical else "logical", "action", name, *delay, *spelled_type(rng)]
    if kind == "instances":
        given = [[parameter, *spelled_value(time, rng)] for parameter, time in member[1].items()]
        return [name, "=", "new", member[0], "(", *listed(given), ")"]
    if kind == "connections":
        sources, destinations, delay = member
        return [*names(sources), "->", *names(destinations), *([] if delay is None else ["after", *spelled_time(delay, rng)])]
    effects = ["->", *names(member.effects)] if member.effects else []
    code = rng.choice(["{= =}", "{==}", "{= x = {1}; \"'/* =}", "{= \u00fc =}"])
    return ["reaction", *rng.choice([[], [], ["name"]]), "(", *names(member.triggers), ")", *names(member.uses), *effects, code]


def spelled_opaque(rng):
    """The tokens of a member that means nothing."""
    return rng.choice([["state", "s", ":", "int", "=", "0"], ["state", "s", "=", "5", "d", "-", "3"], ["state", "s", "=", "{", "(", "}"],
                       ["preamble", "{= #include <math.h> =}"], ["state", "s", "=", "\"a\\\"b\""]])


def spelled_body(reactor, rng):
    """The tokens of the members. Kinds alternate by chance, and what is of one kind keeps its order."""
    waiting = [(kind, list(members.items() if isinstance(members, dict) else (("", member) for member in members)))
               for kind, members in vars(reactor).items() if kind not in ("name", "parameters")]
    tokens = []
    while waiting := [(kind, members) for kind, members in waiting if members]:
        kind, members = rng.choice(waiting) if rng.random() < 0.2 else waiting[0]
        tokens += spelled_member(kind, *members.pop(0), rng)
        if rng.random() < 0.05:
            tokens += spelled_opaque(rng)
    return tokens


def spelled(reactors, rng):
    """The tokens of a program, whose last reactor is the main one."""
    tokens = rng.choice([[], ["target", "C"], ["target", "Cpp", "{", "timeout", ":", "{", "3", "}", "}"]])
    for reactor in reactors:
        head = ["main", "reactor", *rng.choice([[], [reactor.name]])] if reactor is reactors[-1] else ["reactor", reactor.name]
        parameters = [[name, ":", "time", *spelled_value(time, rng)] for name, time in reactor.parameters.items()]
        tokens += [*head, *(["(", *listed(parameters), ")"] if parameters else []), "{", *spelled_body(reactor, rng), "}"]
    return tokens


def joined(tokens, rng=None):
    """The text of tokens, with blanks and comments by chance."""
    if rng is None:
        return (" ".join(tokens) + "\n").encode()
    between = [" ", " ", "\n", "\r\n", "\t", ";", " ;; ", " // c {= \u00fc\n", " # \"\n", " /* {= */ "]
    return "".join(token + rng.choice(between) for token in tokens).encode()


@dataclasses.dataclass
class FlatReaction:
    name: str
    instance: str
    triggers: list
    inputs: list
    effects: list


class Flat:
    """A program as it runs: things by their full names in order, reactions by number."""

    def __init__(self, reactors):
        self.classes = {reactor.name: reactor for reactor in reactors}
        self.instances, self.port_names, self.sources, self.actions, self.timers, self.reactions = [], [], {}, {}, {}, []
        main = reactors[-1]
        self.add("main", main, dict(main.parameters))
        for path, reactor, times in self.instances:
            self.connect(path, reactor, times)

    def add(self, path, reactor, times):
        """Adds an instance and all in it. `times` are the values of its parameters."""
        def value(time):
            return times[time] if isinstance(time, str) else time
        self.instances.append((path, reactor, times))
        self.port_names += [f"{path}.{name}" for name in reactor.ports]
        self.actions |= {f"{path}.{name}": (physical, value(minimum)) for name, (physical, minimum) in reactor.actions.items()}
        self.timers |= {f"{path}.{name}": (value(offset), value(period)) for name, (offset, period) in reactor.timers.items()}
        for at, reaction in enumerate(reactor.reactions, 1):
            triggers, uses, effects = ([ref if ref in ("startup", "shutdown") else f"{path}.{ref}" for ref in refs]
                                       for refs in (reaction.triggers, reaction.uses, reaction.effects))
            inputs = [name for name in triggers + uses if name not in ("startup", "shutdown") and name not in self.timers]
            self.reactions.append(FlatReaction(f"{path}#{at}", path, triggers, inputs, effects))
        for name, (of, given) in reactor.instances.items():
            values = {parameter: value(time) for parameter, time in given.items()}
            self.add(f"{path}.{name}", self.classes[of], self.classes[of].parameters | values)

    def connect(self, path, reactor, times):
        for sources, destinations, delay in reactor.connections:
            for source, destination in zip(sources, destinations):
                self.sources[f"{path}.{destination}"] = (f"{path}.{source}", times[delay] if isinstance(delay, str) else delay)

    @functools.cached_property
    def ports(self):
        """The origin and the delays of each port; nothing for one whose connections form a cycle."""
        return {port: self.origin(port) for port in self.port_names}

    def origin(self, port):
        delays, seen = [], set()
        while port in self.sources:
            if port in seen:
                return None
            seen.add(port)
            port, delay = self.sources[port]
            delays = ([] if delay is None else [delay]) + delays
        return port, delays

    def is_direct(self, a, b):
        """Whether reaction a directly precedes reaction b."""
        first, second = self.reactions[a], self.reactions[b]
        feeds = any(self.ports.get(name) == (effect, []) for effect in first.effects for name in second.inputs)
        return feeds or (first.instance == second.instance and a < b)

    @functools.cached_property
    def preceding(self):
        """For each reaction all that precede it."""
        count = range(len(self.reactions))
        direct = [{a for a in count if self.is_direct(a, b)} for b in count]
        found = [set(one) for one in direct]
        for via in count:
            for one in found:
                if via in one:
                    one |= found[via]
        return found

    def has_loop(self):
        return any(b in before for b, before in enumerate(self.preceding))

    def before(self, b):
        """What `show` prints: the reaction declared just before, and the last writer of each undelayed origin."""
        found = {b - 1} if b > 0 and self.reactions[b - 1].instance == self.reactions[b].instance else set()
        for name in self.reactions[b].inputs:
            if name in self.ports and not self.ports[name][1]:
                found |= set([a for a, one in enumerate(self.reactions) if self.ports[name][0] in one.effects][-1:])
        return sorted(found)

    @functools.cached_property
    def levels(self):
        found = {}
        for b in sorted(range(len(self.reactions)), key=lambda b: len(self.preceding[b])):
            found[b] = 1 + max((found[a] for a in self.before(b)), default=-1)
        return found

    def shown(self):
        """What `lftrace show` prints of a program without a loop."""
        lines = []
        for port, (origin, delays) in self.ports.items():
            time, steps = 0, 0
            for delay in delays:
                time, steps = (time + delay, 0) if delay else (time, steps + 1)
            lines.append(f"port {port} origin={origin} after={time}+{steps}\n")
        for number, reaction in enumerate(self.reactions):
            before = " ".join(self.reactions[a].name for a in self.before(number)) or "-"
            lines.append(f"reaction {reaction.name} level={self.levels[number]} before={before}\n")
        return "".join(lines).encode()
