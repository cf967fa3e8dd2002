#!/usr/bin/env python3
"""picture.py TRACE SHOWN SAID: draws the rows of a trace around the run that SAID names, as SVG.

SHOWN is the output of `lftrace show`, and SAID is what `lftrace explain` said of the trace, or the line of
`lftrace judge`. For a right trace, `time=T microstep=M reaction=X` names a run. Workers are lanes, runs are
boxes, a colour is a tag, and a column is a row of the table. An arrow leads to the run from one that it was to
wait for. Of many rows, workers and tags those near what counts are drawn.
"""
import itertools
from xml.sax.saxutils import escape

import runs

AROUND, NEAR = 3, 10  # rows that are drawn before and behind what counts; near each place, where not all rows are drawn
MOST_ROWS, MOST_WORKERS, MOST_TAGS, MOST_BEFORE, MOST_STEPS = 150, 12, 8, 5, 20
LEFT, LANE, BOX, GAP = 84, 78, 46, 60
NARROW, WIDE, WIDTH = 5, 52, 790
COLOURS = "#cfe2f7 #d9efcf #fbe6c2 #e6d9f2 #d3eeee #f6d6e2".split()
RED, GREEN = "#c00000", "#1a7a2e"
STYLE = """
text { font-family: 'DejaVu Sans', Verdana, sans-serif; font-size: 13px; fill: #222222 }
.line, .name { font-family: 'DejaVu Sans Mono', Menlo, Consolas, monospace; font-size: 13px }
.line { font-size: 15px; font-weight: bold }
.name { text-anchor: middle; pointer-events: none; paint-order: stroke; stroke-width: 5px; stroke-linejoin: round }
.step { font-size: 11.5px; fill: #444444; text-anchor: middle; pointer-events: none }
.row { font-size: 12px; fill: #666666; text-anchor: middle }
"""


class Window:
    """Which rows are drawn, which run is marked, and which runs it was to wait for.

    `parts` are the first and last rows of what is drawn. Where no run is marked, `place` is behind the last row up to
    the tag.
    """

    def __init__(self, trace, shown, said):
        self.breach = runs.read_race(said)
        if self.breach is None:
            raise ValueError(f"no run is named: {said.strip().partition(chr(10))[0]}")
        self.is_right = self.breach.text.startswith("time=")
        at_tag, self.last = self.read_tag(trace)
        self.marked = next(filter(self.breach.names, at_tag), None)
        self.predecessors = self.find_predecessors(at_tag, runs.preceding(shown, self.breach.reaction))[-MOST_BEFORE:]
        self.named = [self.marked, *self.predecessors] if self.marked else []
        self.parts = parts_around(self.places(), self.last)
        self.runs = [run for run in runs.read_runs(trace) if self.shows(run.first, run.last)]
        workers = [run.worker for run in self.named + sorted(self.runs, key=self.distance)]
        self.workers = sorted([*dict.fromkeys(workers)][:MOST_WORKERS])
        self.others = len(set(workers)) - len(self.workers)
        self.runs = [run for run in self.runs if run.worker in self.workers]
        self.tags = sorted({run.tag for run in self.runs})

    def places(self):
        """The rows that count."""
        if not self.marked:
            return [self.place]
        line = self.breach.line or self.marked.first
        return [self.marked.first, line, self.marked.last, *(run.last for run in self.predecessors)]

    def shows(self, first, last):
        """Some of these rows are drawn."""
        return any(first <= end and last >= begin for begin, end in self.parts)

    def distance(self, run):
        """How far a run is from what counts."""
        return min(max(run.first - place, place - run.last, 0) for place in self.places())

    def read_tag(self, trace):
        """The runs at the tag and the other one, in order of their first rows, and the last row of the table."""
        at_tag, last, self.place = [], 2, 2
        for run in runs.read_runs(trace):
            last = max(last, run.last)
            if run.tag <= self.breach.tag:
                self.place = max(self.place, run.last)
            if run.tag == self.breach.tag or run.has(self.breach.other):
                at_tag.append(run)
        return sorted(at_tag, key=lambda run: run.first), last

    def find_predecessors(self, at_tag, names):
        """The run that facts tell; for rule 9 those that hadn't ended; in a right trace the one that ended last."""
        if not self.marked:
            return []
        if self.breach.other:
            return [run for run in at_tag if run.has(self.breach.other)]
        before = sorted((run for run in at_tag if run.reaction in names), key=lambda run: run.last)
        if self.is_right:
            return before[-1:]
        return [run for run in before if run.last > self.marked.first] if self.breach.rule == 9 else []

    def sentences(self):
        """What the picture shows, in words."""
        run, breach = self.marked, self.breach
        if not run:
            causes = [f"Row {line} is a cause." for line in breach.causes]
            return [f"{breach.reaction} has no run at this tag.", *causes] if breach.reaction else []
        if self.is_right:
            return [f"{run.reaction} starts in row {run.first}. {it.reaction}, which precedes it, ended in row {it.last}." for it in self.predecessors]
        if breach.other:
            return [self.meets(run, other) for other in self.predecessors]
        if breach.rule == 9:
            return [f"{run.reaction} starts in row {run.first}. {it.reaction}, which precedes it, ends only in row {it.last}." for it in self.predecessors]
        if breach.rule == 5:
            return [f"{run.reaction} starts in row {run.first}, and no row ends it."]
        if breach.rule == 10 and breach.wrong:
            return [f"{run.reaction} reads {read} of {name}. {present.capitalize()} is present." for name, read, present in breach.wrong]
        if breach.line:
            rows = [row for row in run.rows if row.line == breach.line]
        else:
            rows = [row for row in run.rows if row.event in (("read",) if breach.rule else ("write", "schedule", "stop"))]
        return [f"Row {row.line}: {row.text()}" for row in rows]

    def meets(self, run, other):
        """That a run starts while another one is open at an earlier tag, or that it has started before."""
        if run.tag == other.tag:
            return f"{run.reaction} starts in row {other.first}, and a second time in row {run.first}."
        ends = f"ends only in row {other.last}" if other.is_whole else "has no end row"
        return f"{run.reaction} starts at a later tag in row {run.first}. {other.reaction} {ends}."


def parts_around(places, last):
    """The first and last rows of what is drawn: all around the places, or where that is too much the rows near each."""
    if max(places) - min(places) + 2 * AROUND < MOST_ROWS:
        return [(max(2, min(places) - AROUND), min(last, max(places) + AROUND))]
    parts = []
    for place in sorted(places):
        begin, end = max(2, place - NEAR), min(last, place + NEAR)
        if parts and begin <= parts[-1][1] + NEAR:
            begin, _ = parts.pop()
        parts.append((begin, end))
    return parts


class Picture:
    """Draws a window."""

    def __init__(self, window):
        self.window = window
        self.gaps = [(before[1] + 1, behind[0]) for before, behind in itertools.pairwise(window.parts)]
        rows = sum(end + 1 - begin for begin, end in window.parts)
        self.cell = max(NARROW, min(WIDE, (WIDTH - GAP * len(self.gaps)) / rows))
        self.colour = GREEN if window.is_right else RED
        self.number_of = {tag: number for number, tag in enumerate(window.tags)}
        self.sentences = window.sentences()[:6]
        self.top = 84 + 20 * len(self.sentences)
        self.right = self.x(window.parts[-1][1] + 1)
        self.bottom = self.top + len(window.workers) * LANE

    def x(self, line):
        """The left edge of a row's column. Rows that aren't drawn have a place beside those that are."""
        left = LEFT
        for begin, end in self.window.parts:
            if line <= end + 1:
                return left + max((line - begin) * self.cell, -GAP / 2)
            left += (end + 1 - begin) * self.cell + GAP
        return left - GAP / 2

    def y(self, run):
        """The upper edge of a run's box."""
        return self.top + self.window.workers.index(run.worker) * LANE + (LANE - BOX) / 2

    def draw(self):
        window = self.window
        width, height = max(self.right + 24, 820), self.bottom + 62 + 22 * min(len(window.tags), MOST_TAGS + 1)
        yield f'<svg xmlns="http://www.w3.org/2000/svg" width="{width:.0f}" height="{height:.0f}" viewBox="0 0 {width:.0f} {height:.0f}">'
        yield f"<style>{STYLE}</style>"
        yield '<rect width="100%" height="100%" fill="#ffffff"/>'
        yield f'<clipPath id="window"><rect x="{LEFT}" y="0" width="{self.right - LEFT:.1f}" height="{height:.0f}"/></clipPath>'
        yield f'<text class="line" x="16" y="32">{escape(runs.short(window.breach.text, 2 * runs.LONGEST))}</text>'
        for number, sentence in enumerate(self.sentences):
            yield f'<text x="16" y="{58 + 20 * number}" style="fill: {self.colour}; font-size: 15px">{escape(runs.short(sentence, 2 * runs.LONGEST))}</text>'
        yield from self.draw_lanes()
        yield '<g clip-path="url(#window)">'
        yield from self.draw_wait()
        for run in window.runs:
            yield from self.draw_box(run)
        for run in window.predecessors:
            yield from self.draw_arrow(run)
        for run in window.runs:
            yield from self.draw_name(run)
        yield "</g>"
        yield from self.draw_legend()
        yield "</svg>"

    def draw_lanes(self):
        edges = [(self.x(begin), self.x(end + 1)) for begin, end in self.window.parts]
        for number, worker in enumerate(self.window.workers):
            top = self.top + number * LANE
            for left, right in edges:
                yield f'<rect x="{left:.1f}" y="{top + 4}" width="{right - left:.1f}" height="{LANE - 8}" fill="#f5f5f5"/>'
            yield f'<text x="16" y="{top + LANE / 2 + 5}">worker {worker}</text>'
        every = next(step for step in (1, 5, 10, 50, 100, 500, 10**9) if step * self.cell >= 26)
        for begin, end in self.window.parts:
            for line in range(begin, end + 1):
                if line % every == 0:
                    yield f'<text class="row" x="{self.x(line) + self.cell / 2:.1f}" y="{self.bottom + 16}">{line}</text>'
        for begin, end in self.gaps:
            yield f'<text class="row" x="{(self.x(begin) + self.x(end)) / 2:.1f}" y="{self.bottom + 16}">{end - begin} rows</text>'

    def draw_wait(self):
        """The rows in which the run was to wait still, or the place where it lacks."""
        window = self.window
        if not window.marked:
            x = self.x(window.place + 1)
            yield f'<line x1="{x:.1f}" y1="{self.top - 6}" x2="{x:.1f}" y2="{self.bottom}" stroke="{RED}" stroke-width="3" stroke-dasharray="7 4"/>'
        elif window.predecessors and not window.is_right and window.predecessors[-1].last > window.marked.first:
            begin, end = self.x(window.marked.first), self.x(window.predecessors[-1].last + 1)
            yield f'<rect x="{begin:.1f}" y="{self.top - 6}" width="{end - begin:.1f}" height="{self.bottom - self.top + 6}" fill="{RED}" fill-opacity="0.13"/>'
            yield f'<text x="{(begin + end) / 2:.1f}" y="{self.top - 12}" text-anchor="middle" style="fill: {RED}">{escape(window.marked.reaction)} may not start here</text>'

    def fill(self, tag):
        return COLOURS[self.number_of[tag] % len(COLOURS)]

    def draw_box(self, run):
        left, right, top = self.x(run.first), self.x(run.last + 1), self.y(run)
        stroke = 'stroke="#8a8a8a"'
        if run == self.window.marked:
            stroke = f'stroke="{self.colour}" stroke-width="4"'
        elif run in self.window.predecessors:
            stroke = f'stroke="{self.colour}" stroke-width="3" stroke-dasharray="7 4"'
        told = [f"{run.reaction} {runs.tag_text(run.tag)}"] + [f"row {row.line}: {row.text()}" for row in run.rows[:MOST_STEPS]]
        told += [f"and {len(run.rows) - MOST_STEPS} more rows"] if len(run.rows) > MOST_STEPS else []
        yield f"<g><title>{escape(chr(10).join(told))}</title>"
        yield f'<rect x="{left + 2:.1f}" y="{top:.1f}" width="{right - left - 4:.1f}" height="{BOX}" rx="5" fill="{self.fill(run.tag)}" {stroke}/></g>'

    def draw_name(self, run):
        """The reaction's name in the box, as much of its end as fits, and the steps."""
        left, right, top = max(self.x(run.first), LEFT), min(self.x(run.last + 1), self.right), self.y(run)
        name, letters = run.reaction, int((right - left - 8) / 7.9)
        if len(name) > letters:
            name = "\u2026" + name[len(name) - letters + 1 :] if letters > 2 else ""
        yield f'<text class="name" x="{(left + right) / 2:.1f}" y="{top + 19:.1f}" style="stroke: {self.fill(run.tag)}">{escape(name)}</text>'
        for row in run.rows if self.cell >= 40 else []:
            if not self.window.shows(row.line, row.line):
                continue
            yield f'<text class="step" x="{self.x(row.line) + self.cell / 2:.1f}" y="{top + 36:.1f}">{escape(row.event)}</text>'

    def draw_arrow(self, predecessor):
        """From the end of the predecessor to the start of the marked run."""
        marked = self.window.marked
        begin, end = self.x(predecessor.last + 1) - 4, self.x(marked.first) + 4
        above, below = self.y(predecessor), self.y(marked)
        if above == below:
            bend = [above - 30, above - 30]
        elif above < below:
            above += BOX
            bend = [(above + below) / 2] * 2
        else:
            below += BOX
            bend = [(above + below) / 2] * 2
        path = f"M {begin:.1f} {above:.1f} C {begin:.1f} {bend[0]:.1f} {end:.1f} {bend[1]:.1f} {end:.1f} {below:.1f}"
        tip = 9 if bend[1] > below else -9
        yield f'<path d="{path}" fill="none" stroke="#ffffff" stroke-width="6"/>'
        yield f'<path d="{path}" fill="none" stroke="{self.colour}" stroke-width="2.5"/>'
        yield f'<path d="M {end:.1f} {below:.1f} l -6 {tip} l 12 0 z" fill="{self.colour}"/>'

    def draw_legend(self):
        window = self.window
        others = f"; {window.others} more workers have rows here" if window.others else ""
        yield f'<text x="{LEFT}" y="{self.bottom + 38}">a column is a row of the trace table{others}; the colours are tags:</text>'
        named = {run.tag for run in window.named}
        tags = sorted(sorted(window.tags, key=lambda tag: tag not in named)[:MOST_TAGS])
        for number, tag in enumerate(tags):
            y = self.bottom + 50 + 22 * number
            yield f'<rect x="{LEFT}" y="{y}" width="26" height="15" rx="3" fill="{self.fill(tag)}" stroke="#8a8a8a"/>'
            yield f'<text x="{LEFT + 36}" y="{y + 12}">{runs.tag_text(tag)}</text>'
        if len(window.tags) > len(tags):
            yield f'<text x="{LEFT}" y="{self.bottom + 62 + 22 * MOST_TAGS}">and {len(window.tags) - len(tags)} more tags</text>'


def main(trace, shown, said):
    print("\n".join(Picture(Window(trace, runs.read_shown(shown), said)).draw()))


if __name__ == "__main__":
    runs.call(main, __doc__, 3, 3)
