"""What `lftrace follow` tells of a log, reckoned from docs/TABLES.md and not from the code.

It goes row by row, and asks the rows up to the last finished tag as a whole each time, with the external inputs that
were told by then.
"""
import collections
import dataclasses

from hostile import tables
from hostile.machine import Events, Plan, at_tag, breach_line, row_breach, runs_of, tag_breach, verdict

HEADER = tables.HEADERS["trace"].encode()
EXTERNALS = tables.HEADERS["externals"].encode()
# The rows of a log up to the first line that is none, with the plan that was told when each came, and in the end; that
# line's fault, and whether a half line is left.
Log = collections.namedtuple("Log", "rows plans fault has_rest")


def is_header(line):
    """Whether a line without its line feed is the header."""
    return line.removeprefix(tables.MARK).removesuffix(b"\r") == HEADER


def is_whole(line):
    """Whether nothing can be missing of a last line but its end."""
    is_stop = line.startswith(b"stop,") and line.count(b",") == 4 and line.endswith(b",,")
    return is_header(line) or is_stop or line.count(b",") == 7 and line.endswith(b",") and not line.startswith(b"schedule,")


def is_external(line):
    """Whether a line is of the table of external inputs: an event or a stop of five parts."""
    return line.startswith((b"event,", b"stop,")) and line.count(b",") == 4


def without_externals(text):
    """The trace table of a log: its text without the lines of external inputs."""
    header, *lines = text.split(b"\n")
    return b"\n".join([header, *(line for line in lines if not is_external(line.removesuffix(b"\r")))])


def told_external(plan, line, rows, number):
    """The plan behind a line of an event or a stop."""
    end = b"" if line.startswith(b"stop,") else b"\nstop,0,0,,"
    try:
        stop, events = tables.read_externals(plan.flat, EXTERNALS + b"\n" + line + end)
    except tables.Refused as fault:
        raise tables.Refused(str(fault).replace("line=2", f"line={number}")) from None
    last = max((row.tag for row in rows), default=(0, 0))
    if min([*(tag for tag, _ in events), *([] if events else [stop])]) < last:
        raise tables.Refused(f"externals 13 LateExternal line={number}")
    if events.keys() & plan.externals.keys():
        raise tables.Refused(f"externals 7 DuplicateExternal line={number}")
    return dataclasses.replace(plan, stop=plan.stop if events else min(plan.stop, stop), externals={**plan.externals, **events})


def read_line(plan, line, rows, told):
    """The row of a line, or the plan behind it. So many lines of external inputs stand before it."""
    part, number = ("externals", told + 2) if is_external(line) else ("trace", len(rows) + 2)
    if HEADER in line:
        raise tables.Refused(f"trace 15 SecondHeader line={number}")
    if b"\"" in line or b"\r" in line:
        raise tables.Refused(f"{part} 14 NotPlain line={number}")
    if part == "externals":
        return told_external(plan, line, rows, number)
    try:
        return tables.read_trace(plan.flat, HEADER + b"\n" + line)[0]
    except tables.Refused as fault:
        raise tables.Refused(str(fault).replace("line=2", f"line={number}")) from None


def read_log(plan, text):
    """What a text has as a log, where a plan has the external inputs that are known before."""
    *lines, rest = text.split(b"\n")
    if is_whole(rest):
        lines, rest = [*lines, rest], b""
    if not lines or not is_header(lines[0]):
        return Log([], [plan], "trace 1 BadHeader", False)
    rows, plans, told = [], [plan], 0
    for line in (one.removesuffix(b"\r") for one in lines[1:]):
        if not line:
            continue
        try:
            read = read_line(plans[-1], line, rows, told)
        except tables.Refused as fault:
            return Log(rows, plans, str(fault), False)
        if isinstance(read, Plan):
            plans[-1] = read
            told += 1
        else:
            rows.append(read)
            plans.append(plans[-1])
    return Log(rows, plans, "", bool(rest))


def before_last(rows):
    """The rows but those at the tag of the last one."""
    end = len(rows)
    while end and rows[end - 1].tag == rows[-1].tag:
        end -= 1
    return rows[:end]


def reach(rows):
    """The words for how far rows reach."""
    tags = sorted({row.tag for row in rows if row.event == "start"})
    runs = sum(row.event == "start" for row in rows)
    return f"runs={runs} tags={len(tags)}" + (f" {at_tag(tags[-1])}" if tags else "")


def is_clean(plan, rows):
    """Whether rows at finished tags break no rule from 6 to 10 up to the last one."""
    events, runs = Events(plan, rows), runs_of(rows)
    for tag in events.tags(runs):
        if rows and tag > rows[-1].tag:
            break
        due, here = events.due(tag), runs.get(tag, {})
        if not rows or due != set(here):
            return not rows
        if events.collides(tag):
            return False
        for number, run in here.items():
            if any(one in here and here[one]["end"] > run["start"] for one in plan.flat.preceding[number]):
                return False
            if run["reads"] != events.inputs(tag, number):
                return False
    return True


def first_bad(rows, plans):
    """The first row behind which a rule from 1 to 5 is sure to be broken: its place, the rule and that rule's row."""
    for place, row in enumerate(rows):
        before, plan = rows[:place], plans[place]
        if before and row.tag > before[-1].tag:
            lost = row_breach(plan, before, (5,))
            if lost and lost[2] < row.tag:
                return place, lost
        broken = row_breach(plan, rows[:place + 1], (1, 2, 3, 4)) if row.event != "stop" else row_breach_of_stop(plan, rows[:place + 1])
        if broken:
            return place, broken
    return None


def row_breach_of_stop(plan, rows):
    """The breach of the last row, a stop row: it lowers the stop for the rows behind it alone."""
    own = rows[-1]._replace(event="end")
    found = row_breach(plan, [*rows[:-1], own], (1, 2, 3, 4))
    return found


def asked(rows, until):
    """The rows that are judged, and whether a row behind the last tag that is asked for is among them."""
    if until is None:
        return rows, False
    last = next((row.tag for row in rows if row.tag >= until), None)
    for place, row in enumerate(rows):
        if last is not None and row.tag > last and any(other.tag == last for other in rows[:place]):
            return rows[:place + 1], True
    return rows, False


def finished(rows, plans):
    """The rows at finished tags, and the plan, each time that one more tag is finished."""
    for place in range(1, len(rows)):
        if rows[place].tag > rows[place - 1].tag:
            yield rows[:place], plans[place]


def first_broken(rows, plans):
    """The first rule from 6 to 10 that is told to be broken. A run that is missing behind the last finished tag, or
    two events that meet there, are told once one more tag is finished."""
    return next((tag_breach(plan, front) for front, plan in finished(rows, plans) if not is_clean(plan, front)), None)


def told(plan, text, until=None, whole=False):
    """The line of `lftrace follow` and the status. The plan has the external inputs that are known before."""
    log = read_log(plan, text)
    rows, is_past = asked(log.rows, until)
    bad = first_bad(rows, log.plans)
    if is_past and bad and bad[0] == len(rows) - 1 and bad[1][0] != 5:
        # The row behind what is asked for shows only that the tag before is over.
        bad = None
    breach = first_broken(rows[:bad[0]] if bad else rows, log.plans)
    if breach:
        return breach_line(plan, breach), 1
    return told_of_clean(log.plans[-1], rows, bad, is_past, log.fault, log.has_rest, whole)


def told_of_clean(plan, rows, bad, is_past, fault, has_rest, whole):
    """The line and the status where no finished tag breaks a rule from 6 to 10."""
    done = before_last(rows)
    if bad:
        return breach_line(plan, bad[1]), 1
    if is_past:
        return f"unbroken {reach(done)}", 0
    if fault:
        return f"fault {fault}", 2
    if whole and not has_rest:
        line = verdict(plan, rows)
        return line, int(line.startswith("broken"))
    if row_breach(plan, rows) or not is_clean(plan, rows):
        return f"unbroken {reach(done)}", 3
    if not is_ended(plan, rows):
        return f"unbroken {reach(rows)}", 3
    if has_rest:
        return f"unbroken {reach(done)}", 3
    return f"accepted {reach(rows).split(' time=')[0]}", 0


def is_ended(plan, rows):
    """Whether nothing is due behind the last row."""
    events, runs = Events(plan, rows), runs_of(rows)
    return all(not events.due(tag) - set(runs.get(tag, ())) and not events.collides(tag) for tag in events.tags(runs))
