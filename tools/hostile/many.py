"""Programs with many triggers at one reaction, or many events on their way, and a table of each that is accepted."""
HEADER = "event,worker,time,microstep,reaction,name,value,delay\n"
EXTERNALS = "kind,time,microstep,name,value\n"


def run(time, reaction, *steps):
    """The rows of a run: each step is an event, a name and a value."""
    rows = [("start", "", ""), *steps, ("end", "", "")]
    return "".join(f"{event},0,{time},0,{reaction},{name},{value},\n" for event, name, value in rows)


def of_timers(count, runs, spelled):
    """A reaction with so many timers, of which some fire each ns."""
    declared = "".join(f"timer t{k}({spelled(k)})\n" for k in range(count))
    names = ",".join(f"t{k}" for k in range(count))
    program = f"reactor A {{\n{declared}reaction({names}) {{= =}}\n}}\nmain reactor {{ a = new A() }}\n"
    return program, f"stop,{runs - 1},0,,\n", "".join(run(time, "main.a#1") for time in range(runs))


def timers(count, runs):
    """One timer fires at a tag."""
    return of_timers(count, runs, lambda k: f"{k} ns,{count} ns")


def equal(count, runs):
    """All timers fire at each tag."""
    return of_timers(count, runs, lambda k: "0,1 ns")


def actions(count, runs):
    """A reaction with so many physical actions, one at a tag."""
    declared = "".join(f"  physical action a{k}: int\n" for k in range(count))
    names = ", ".join(f"a{k}" for k in range(count))
    program = f"reactor A {{\n{declared}  reaction({names}) {{= =}}\n}}\nmain reactor {{ a = new A() }}\n"
    events = "".join(f"event,{time},0,main.a.a{time % count},7\n" for time in range(runs))
    rows = "".join(run(time, "main.a#1", ("read", f"main.a.a{time % count}", 7)) for time in range(runs))
    return program, f"{events}stop,{runs - 1},0,,\n", rows


def triggers(count, runs):
    """A reaction with so many inputs, of which one is written at a tag."""
    ports = range(count)
    outputs, inputs = ("".join(f"{kind} {name}{k}: int\n" for k in ports) for kind, name in (("output", "o"), ("input", "i")))
    effects, names = (",".join(f"{name}{k}" for k in ports) for name in "oi")
    joins = "".join(f"w.o{k} -> r.i{k}\n" for k in ports)
    program = (
        f"reactor W {{\n{outputs}timer t(0, 1 ns)\nreaction(t) -> {effects} {{= =}}\n}}\nreactor R {{\n{inputs}reaction({names}) {{= =}}\n}}\n"
        f"main reactor {{\nw = new W()\nr = new R()\n{joins}}}\n"
    )
    rows = "".join(
        run(time, "main.w#1", ("write", f"main.w.o{time % count}", 7)) + run(time, "main.r#1", ("read", f"main.r.i{time % count}", 7))
        for time in range(runs)
    )
    return program, f"stop,{runs - 1},0,,\n", rows


def waiting(count, runs):
    """So many events wait at once, and their runs come."""
    program = "reactor A {\ntimer t(0)\nlogical action later(1 ns): int\nreaction(t) -> later {= =}\nreaction(later) {= =}\n}\nmain reactor { a = new A() }\n"
    schedules = "".join(f"schedule,0,0,0,main.a#1,main.a.later,7,{k}\n" for k in range(count))
    first = run(0, "main.a#1").replace("end,", f"{schedules}end,")
    return program, f"stop,{runs},0,,\n", first + "".join(run(1 + k, "main.a#2", ("read", "main.a.later", 7)) for k in range(runs))


def tables():
    """A name, the program, the external inputs and the trace of each."""
    shapes = [(made, *size) for made in (timers, equal, actions, triggers) for size in ((33, 20_000), (128, 20_000), (1000, 5_000), (10_000, 1_000))]
    for made, count, runs in (*shapes, (equal, 35_000, 10_000), (waiting, 300_000, 300_000)):
        program, externals, rows = made(count, runs)
        yield f"{made.__name__}-{count}", program.encode(), (EXTERNALS + externals).encode(), (HEADER + rows).encode()
