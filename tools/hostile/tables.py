"""The three tables and the bundle, read and written as docs/TABLES.md says. A table that has no
meaning is `Refused` with what its fault line says."""
import functools
import re

from hostile.answers import FAULTS
from hostile.machine import MOST_MICROSTEPS, Card, Row
from hostile.reactors import LONGEST

HEADERS = {
    "trace": "event,worker,time,microstep,reaction,name,value,delay",
    "externals": "kind,time,microstep,name,value",
    "cards": "kind,reaction,name,delay,value",
}
# The numbers of the faults of a record: of all tables, of cards, of external inputs.
FIELD_COUNT, KIND, NUMBER, NAME, IN_PLACE = range(2, 7)
VALUE, TWICE = 7, 8
DUPLICATE, TWO_STOPS = 7, 9
MARK = b"\xef\xbb\xbf"


class Refused(Exception):
    """What a fault line says behind `fault`."""


class BadField(Exception):
    """The number of the fault of a row."""


def records(text):
    """The records of a table, each a list of fields, as `csv` reads them."""
    text = text.removeprefix(MARK)
    # What stands before the line of the first quotation mark needs no look at each byte.
    plain = len(text) if b"\"" not in text else max(text.rfind(end, 0, text.index(b"\"")) for end in (b"\r", b"\n")) + 1
    found = [line.split(b",") for line in re.split(rb"[\r\n]+", text[:plain]) if line]
    fields, field, state = [], bytearray(), "record"
    for byte in text[plain:]:
        if state == "quoted":
            if byte == 34:
                state = "quote"
            else:
                field.append(byte)
        elif state == "quote" and byte == 34:
            field.append(byte)
            state = "quoted"
        elif byte in b"\r\n":
            if state != "record":
                found.append([*fields, bytes(field)])
            fields, field, state = [], bytearray(), "record"
        elif byte == 44:
            fields.append(bytes(field))
            field, state = bytearray(), "field"
        elif byte == 34 and state in ("record", "field"):
            state = "quoted"
        else:
            field.append(byte)
            state = "text"
    return found if state == "record" else [*found, [*fields, bytes(field)]]


@functools.lru_cache(2**16)
def number(field, most):
    digits = field.lstrip(b"0")
    if not field.isdigit() or len(digits) > 20 or int(digits or b"0") > most:
        raise BadField(NUMBER)
    return int(digits or b"0")


def value(field):
    """A value, or none where it is bare."""
    if not field:
        return None
    sign = -1 if field.startswith(b"-") else 1
    return sign * number(field.removeprefix(b"-"), 2**63 - (sign > 0))


def named(field, names):
    """What a name stands for, in a map or among some names."""
    name = field.decode("utf-8", "surrogateescape")
    if name not in names:
        raise BadField(NAME)
    return names[name] if isinstance(names, dict) else name


def is_empty(*fields):
    if any(fields):
        raise BadField(IN_PLACE)


def read_table(part, text, take):
    """Gives each record below the header to `take`."""
    lines = records(text)
    if not lines or lines[0] != HEADERS[part].encode().split(b","):
        raise Refused(f"{part} 1 BadHeader")
    for line, fields in enumerate(lines[1:], 2):
        try:
            if len(fields) != len(lines[0]):
                raise BadField(FIELD_COUNT)
            take(*fields)
        except BadField as fault:
            number, = fault.args
            raise Refused(f"{part} {number} {FAULTS[part][number].replace('NUMBER', str(line))}") from None


@functools.lru_cache(4)
def read_trace(flat, text):
    rows = []
    reactions = {reaction.name: number for number, reaction in enumerate(flat.reactions)}
    things = {*flat.port_names, *flat.actions}

    def take(event, worker, time, microstep, reaction, name, given, delay):
        if event not in (b"start", b"end", b"stop", b"read", b"write", b"schedule"):
            raise BadField(KIND)
        worker, tag = number(worker, 2**32 - 1), (number(time, LONGEST), number(microstep, MOST_MICROSTEPS))
        has_name, has_delay = event in (b"read", b"write", b"schedule"), event == b"schedule"
        read = value(given) if has_name else None
        extra = number(delay, LONGEST) if has_delay and delay else 0
        reaction = named(reaction, reactions)
        thing = named(name, things) if has_name else ""
        is_empty(*(() if has_name else (name, given)), *(() if has_delay else (delay,)))
        rows.append(Row(event.decode(), worker, tag, reaction, thing, read, extra))
    read_table("trace", text, take)
    return rows


def read_externals(flat, text):
    """The stop tag, and the events by (tag, name)."""
    stops, events = [], {}
    physical = [name for name, (is_physical, _) in flat.actions.items() if is_physical]

    def take(kind, time, microstep, name, given):
        if kind not in (b"event", b"stop"):
            raise BadField(KIND)
        tag = (number(time, LONGEST), number(microstep, MOST_MICROSTEPS))
        if kind == b"stop":
            is_empty(name, given)
            if stops:
                raise BadField(TWO_STOPS)
            stops.append(tag)
            return
        read, name = value(given), named(name, physical)
        if (tag, name) in events:
            raise BadField(DUPLICATE)
        events[tag, name] = read
    read_table("externals", text, take)
    if not stops:
        raise Refused("externals 8 NoStop")
    return stops[0], events


def read_cards(flat, text):
    """A card for each reaction."""
    reactions = {reaction.name: number for number, reaction in enumerate(flat.reactions)}
    things = {*flat.port_names, *flat.actions}
    bodies, states, steps = {}, {}, [[] for _ in flat.reactions]

    def expression(field, reaction, may_be_bare):
        text = field.decode("utf-8", "surrogateescape")
        for term in [] if may_be_bare and text == "bare" else text.split("+"):
            if re.fullmatch("-?[0-9]+", term) and -2**63 <= int(term[:40]) < 2**63 and len(term.lstrip("-0")) < 20:
                continue
            if term not in ("state", "time") and term not in flat.reactions[reaction].inputs:
                raise BadField(VALUE)
        return text

    def once(given, reaction, what):
        if reaction in given:
            raise BadField(TWICE)
        given[reaction] = what

    def take(kind, reaction, name, delay, given):
        if kind not in (b"bodies", b"write", b"schedule", b"stop", b"state"):
            raise BadField(KIND)
        count = number(given, 10**6) if kind == b"bodies" else 0
        extra = number(delay, LONGEST) if kind == b"schedule" and delay else 0
        reaction = named(reaction, reactions)
        thing = named(name, things) if kind in (b"write", b"schedule") else ""
        is_empty(*(() if thing else (name,)), *(() if kind == b"schedule" else (delay,)), *((given,) if kind == b"stop" else ()))
        if kind == b"bodies":
            once(bodies, reaction, count)
        elif kind == b"state":
            once(states, reaction, expression(given, reaction, False))
        else:
            steps[reaction].append((kind.decode(), thing, expression(given, reaction, True) if thing else "", extra))
    read_table("cards", text, take)
    return [Card(bodies.get(number, 0), steps[number], states.get(number)) for number in range(len(flat.reactions))]


def trace_records(flat, rows):
    """The records of a trace table, the header among them."""
    shown = [[row.event, row.worker, *row.tag, flat.reactions[row.reaction].name, row.name, "" if row.value is None else row.value, row.delay or ""] for row in rows]
    return [HEADERS["trace"].split(","), *shown]


def text_of(table):
    """A table's text, as `lftrace` writes it."""
    return "".join(",".join(map(str, fields)) + "\n" for fields in table).encode()


def bundle(program, externals, trace):
    return b"--- program\n" + program + b"--- externals\n" + externals + b"--- trace\n" + trace


def split_bundle(text):
    """The three texts of a bundle."""
    lines = text.split(b"\n")
    if lines[0] != b"--- program":
        raise Refused("bundle 1 BadBundle")
    try:
        # What stands behind the last line feed is no line.
        externals = lines.index(b"--- externals", 1, len(lines) - 1)
        trace = lines.index(b"--- trace", externals + 1, len(lines) - 1)
    except ValueError:
        raise Refused("bundle 1 BadBundle") from None
    parts = lines[1:externals], lines[externals + 1:trace]
    return *(b"".join(line + b"\n" for line in part) for part in parts), b"\n".join(lines[trace + 1:])
