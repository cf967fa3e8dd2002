#!/usr/bin/env python3
"""slips.py SLIP SEED < trace.csv: a right trace as a recorder with a fault would have written it.

SLIP is one of those below. SEED chooses the row, or how far the clocks differ.
"""
import random
import sys


def late_ends(rows, _):
    """The end row of each run is written before its worker's next row."""
    held, out = {}, []
    for row in rows:
        worker = row.split(",")[1]
        out += [held.pop(worker)] if worker in held else []
        if row.startswith("end,"):
            held[worker] = row
        else:
            out.append(row)
    return out + list(held.values())


def of_one(kind, times):
    """One row of a kind is written so many times."""

    def slip(rows, chance):
        chosen = chance.choice([place for place, row in enumerate(rows) if row.startswith(f"{kind},")])
        return rows[:chosen] + [rows[chosen]] * times + rows[chosen + 1 :]

    return slip


def sorted_by_clocks(rows, chance):
    """The rows are sorted by clocks of the workers, which differ by up to six rows."""
    ahead = {}
    clock = [place + ahead.setdefault(row.split(",")[1], chance.uniform(0, 6)) for place, row in enumerate(rows)]
    return [rows[place] for place in sorted(range(len(rows)), key=lambda place: clock[place])]


def one_number(rows, _):
    """Two workers have one number."""
    return [row.replace(",1,", ",0,", 1) if row.split(",")[1] == "1" else row for row in rows]


SLIPS = {
    "late-ends": late_ends,
    "doubled-start": of_one("start", 2),
    "doubled-end": of_one("end", 2),
    "doubled-read": of_one("read", 2),
    "lost-start": of_one("start", 0),
    "lost-end": of_one("end", 0),
    "lost-read": of_one("read", 0),
    "lost-write": of_one("write", 0),
    "sorted-by-clocks": sorted_by_clocks,
    "one-number": one_number,
}


def main(slip, seed):
    header, *rows = sys.stdin
    sys.stdout.writelines([header, *SLIPS[slip](rows, random.Random(int(seed)))])


if __name__ == "__main__":
    if len(sys.argv) != 3 or sys.argv[1] not in SLIPS:
        print(__doc__ + f"\n{' '.join(SLIPS)}", file=sys.stderr)
        sys.exit(2)
    main(*sys.argv[1:])
