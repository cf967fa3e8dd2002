"""What an accepted trace exercised, counted by what each count means and not by how lftrace counts it."""
import collections


def facts(flat, rows):
    """The lines of `lftrace cover --list` behind the verdict, sorted."""
    name = {number: reaction.name for number, reaction in enumerate(flat.reactions)}
    runs, ends = {}, {}
    for place, row in enumerate(rows):
        if row.event == "start":
            runs[row.tag, row.reaction] = (place, row.worker)
        elif row.event == "end":
            ends[row.tag, row.reaction] = place
    lines = [f"reaction {name[number]} runs={sum(one[1] == number for one in runs)}" for number in name]
    writes = collections.Counter(row.name for row in rows if row.event == "write")
    lines += [f"port {port} writes={writes[port]}" for port, (origin, _) in flat.ports.items() if origin == port]
    for then in name:
        for first in flat.before(then):
            at_one_tag = [tag for tag, reaction in runs if reaction == then and (tag, first) in runs]
            apart = sum(runs[tag, first][1] != runs[tag, then][1] for tag in at_one_tag)
            lines.append(f"order {name[first]} {name[then]} both={len(at_one_tag)} apart={apart}")
    widths, pairs = collections.Counter(), set()
    for run, (place, _) in runs.items():
        others = [other for other, (start, _) in runs.items() if start < place < ends[other]]
        widths[len(others) + 1] += 1
        pairs |= {(other[1], run[1]) for other in others}
    lines += [f"pair {name[first]} {name[then]}" for first, then in pairs]
    lines += [f"open {width} starts={starts}" for width, starts in widths.items()]
    workers = collections.Counter(worker for _, worker in runs.values())
    lines += [f"worker {worker} runs={count}" for worker, count in workers.items()]
    return sorted(lines)


def ordered_pairs(flat):
    """How many pairs of reactions there are of which one precedes the other."""
    many = 0
    for reaction in range(len(flat.reactions)):
        found, left = set(), [reaction]
        while left:
            fresh = set(flat.before(left.pop())) - found
            found |= fresh
            left += fresh
        many += len(found)
    return many


def sums(flat, lines):
    """The line of sums that `lftrace cover` prints, of the facts."""
    told = collections.defaultdict(list)
    for line in lines:
        kind, *words = line.split(" ")
        told[kind].append([word.rpartition("=")[2] for word in words])
    written = {port for port, writes in told["port"] if int(writes)}
    fed = [origin for port, (origin, _) in flat.ports.items() if origin != port]
    count = len(flat.reactions)
    shares = {
        "reactions": (sum(int(runs) > 0 for _, runs in told["reaction"]), count),
        "ports": (sum(origin in written for origin in fed), len(fed)),
        "orders": (sum(int(apart) > 0 for *_, apart in told["order"]), len(told["order"])),
        "pairs": (len({frozenset(pair) for pair in told["pair"]}), count * (count - 1) // 2 - ordered_pairs(flat)),
    }
    return " ".join(f"{word}={some}/{whole}" for word, (some, whole) in shares.items())
