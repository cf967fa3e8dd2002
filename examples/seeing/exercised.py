#!/usr/bin/env python3
"""exercised.py SHOWN LISTED: writes the precedence of reactions, and what a trace exercised of it, for `dot`.

SHOWN is the output of `lftrace show`, LISTED that of `lftrace cover --list`. A reaction that never ran is
dashed; the others tell how many runs they have. A thick edge was met on two workers, with how often. A thin
edge was met on one worker alone, a dotted one at no tag. So each can be told without its colour.
"""
import runs


def read_listed(path):
    """How many runs each reaction has, and how often each order was met, and met on two workers."""
    ran, met = {}, {}
    with open(path, encoding="utf-8") as lines:
        for line in lines:
            kind, *words = line.split()
            if kind == "reaction":
                ran[words[0]] = int(words[1].removeprefix("runs="))
            elif kind == "order":
                met[words[0], words[1]] = int(words[2].removeprefix("both=")), int(words[3].removeprefix("apart="))
    return ran, met


def node(reaction, count):
    style = "rounded,filled" if count else "rounded,dashed"
    color = "#eef3fb" if count else "#ffffff"
    return f'  "{reaction}" [style="{style}", fillcolor="{color}", label="{reaction}\\n{count or "never"}"];'


def edge(other, reaction, both, apart):
    if apart:
        return f'  "{other}" -> "{reaction}" [color="#0050a0", penwidth=3, label="{apart}"];'
    return f'  "{other}" -> "{reaction}" [color="{"#000000" if both else "#a0a0a0"}", style={"solid" if both else "dotted"}];'


def graph(shown, ran, met):
    """The lines of the graph."""
    yield "digraph exercised {"
    yield "  rankdir=LR; ranksep=0.35; nodesep=0.12;"
    yield '  node [shape=box, fontname="monospace", fontsize=11, height=0.3]; edge [fontname="monospace", fontsize=10];'
    for reaction in shown:
        yield node(reaction, ran.get(reaction, 0))
    for reaction, (_, before) in shown.items():
        for other in before:
            yield edge(other, reaction, *met.get((other, reaction), (0, 0)))
    yield "}"


def main(shown, listed):
    print("\n".join(graph(runs.read_shown(shown), *read_listed(listed))))


if __name__ == "__main__":
    runs.call(main, __doc__, 2, 2)
