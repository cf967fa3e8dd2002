#!/usr/bin/env python3
"""precedence.py SHOWN [REACTION]: writes the precedence of reactions as a graph for Graphviz's `dot`.

SHOWN is the output of `lftrace show`. Ranks are levels. A black edge leads from a reaction to one that
reads what it writes, a grey one to the reaction that is declared behind it in its instance. With
REACTION, the graph has only that reaction and those that precede it.
"""
import runs


def is_declared_next(other, reaction):
    """Whether a reaction is the one behind the other in the same instance."""
    instance, _, place = other.rpartition("#")
    return reaction == f"{instance}#{int(place) + 1}"


def graph(shown, marked=None):
    """The lines of the graph."""
    yield "digraph precedence {"
    yield "  rankdir=LR; ranksep=0.35; nodesep=0.12;"
    yield '  node [shape=box, style="rounded,filled", fillcolor="#eef3fb", fontname="monospace", fontsize=11, height=0.3];'
    ranks = {}
    for reaction, (level, _) in shown.items():
        ranks.setdefault(level, []).append(reaction)
    for level, reactions in sorted(ranks.items()):
        nodes = " ".join(f'"{reaction}";' for reaction in reactions)
        yield f'  {{ rank=same; "level {level}" [shape=plaintext, style=""]; {nodes} }}'
    for level in range(1, len(ranks)):
        yield f'  "level {level - 1}" -> "level {level}" [style=invis];'
    if marked:
        yield f'  "{marked}" [color="#c00000", penwidth=2.5];'
    for reaction, (_, before) in shown.items():
        for other in before:
            color = "#a0a0a0" if is_declared_next(other, reaction) else "#000000"
            yield f'  "{other}" -> "{reaction}" [color="{color}"];'
    yield "}"


def main(path, marked=None):
    shown = runs.read_shown(path)
    if marked:
        if marked not in shown:
            raise ValueError(f"{path} has no reaction {marked}")
        kept = {marked} | runs.preceding(shown, marked)
        shown = {reaction: shown[reaction] for reaction in shown if reaction in kept}
    print("\n".join(graph(shown, marked)))


if __name__ == "__main__":
    runs.call(main, __doc__, 1, 2)
