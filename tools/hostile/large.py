"""Tables over 1 MiB, the size from which several workers share a table."""
from hostile import breaking, making, tables
from hostile.machine import Plan, recorded
from hostile.reactors import LONGEST, joined, spelled

LEAST_BYTES, MOST_RUNS = 1_100_000, 20_000


def goes_on(rng):
    """A program with cards whose recording seems to go on for ever, at rising times."""
    while True:
        made = making.Making(rng)
        reactors, flat = made.program()
        cards = tables.text_of(made.cards(flat, sparing=True))
        plan = Plan(flat, (LONGEST, 0), {})
        if flat.has_loop() or not plan.timers:
            continue
        book = recorded(plan, tables.read_cards(flat, cards), making.MOST_RUNS)
        if book.stopped == "pool 4 TooManyRuns" and book.rows[-1].tag[0] > 0:
            return reactors, flat, cards


def stopping_at(tag):
    return tables.text_of([tables.HEADERS["externals"].split(","), ["stop", *tag, "", ""]])


def large_texts(rng, record):
    """A flat program, the texts for a recording up to the end of a tag, and what `record` answers to them, over 1 MiB."""
    while True:
        reactors, flat, cards = goes_on(rng)
        texts = {"program.lf": joined(spelled(reactors, rng), rng) + b"\n", "externals.csv": stopping_at((LONGEST, 0)), "cards.csv": cards}
        written = record(texts, "--max-runs", MOST_RUNS).out
        if len(written) > LEAST_BYTES:
            last = written[:LEAST_BYTES].split(b"\n")[-2].split(b",")
            texts["externals.csv"] = stopping_at((int(last[2]), int(last[3])))
            return flat, texts, record(texts, "--workers", rng.choice([1, 2, 4, 64]))


def broken_part(rng, text):
    """The text with one break somewhere: of some rows, or of bytes."""
    if rng.random() < 0.3:
        at = rng.randrange(len(text))
        return text[:at] + breaking.broken_bytes(rng, text[at:at + 60]) + text[at + 60:]
    lines = text.split(b"\n")
    at, count = rng.choice([rng.randrange(1, len(lines) - 1), len(lines) * rng.randint(1, 7) // 8, len(lines) - 20]), rng.choice([2, 10, 40])
    table = [[field.decode("utf-8", "surrogateescape") for field in fields] for fields in tables.records(b"\n".join(lines[at:at + count]) + b"\n")]
    rng.choice(breaking.ROW_BREAKS)(rng, table)
    return b"\n".join([*lines[:at], breaking.written(rng, [row or [""] for row in table]).rstrip(b"\n"), *lines[at + count:]])
