"""What the importers share: the order of rows of several workers, and the table that they write."""
import collections
import functools
import pathlib
import sys

sys.dont_write_bytecode = True
sys.path.append(str(pathlib.Path(__file__).resolve().parent.parent / "seeing"))
import runs

Row = collections.namedtuple("Row", "clock tag event worker reaction")


class Merge:
    """Rows of workers, each in its own order, by their clocks. Where clocks are equal, the earlier tag comes first; then
    what doesn't wait for the end of a run that precedes it, as far as that end has the same clock too; then an end."""

    def __init__(self, rows_of, shown):
        self.queues = [collections.deque(rows) for rows in rows_of if rows]
        self.preceding = functools.cache(lambda reaction: runs.preceding(shown, reaction))
        self.ends = collections.defaultdict(collections.Counter)  # of each clock and tag those that aren't taken yet
        for row in (row for queue in self.queues for row in queue if row.event == "end"):
            self.ends[row.clock, row.tag][row.reaction] += 1

    def waits(self, row):
        ends = self.ends.get((row.clock, row.tag), {})
        return row.event == "start" and any(ends[reaction] and reaction in self.preceding(row.reaction) for reaction in ends)

    def rank(self, queue):
        row = queue[0]
        return row.clock, row.tag, self.waits(row), row.event == "start"

    def __iter__(self):
        while self.queues:
            queue = min(self.queues, key=self.rank)
            row = queue.popleft()
            if row.event == "end":
                self.ends[row.clock, row.tag][row.reaction] -= 1
            if not queue:
                self.queues.remove(queue)
            yield row


def write(runs_of, shown):
    """Writes a trace table of starts and ends to standard output.

    A worker has a list in its own order: its clock, `start` or `end`, time, microstep and reaction. SHOWN is the output of
    `lftrace show`.
    """
    rows = [
        [Row(clock, (int(time), int(microstep)), event, number, reaction) for clock, event, time, microstep, reaction in found]
        for number, (_, found) in enumerate(sorted(runs_of.items()))
    ]
    if not any(rows):
        sys.exit(f"{sys.argv[0]}: no start and no end is found: look at what the head of this script names first")
    print("event,worker,time,microstep,reaction,name,value,delay")
    for row in Merge(rows, runs.read_shown(shown)):
        print(f"{row.event},{row.worker},{row.tag[0]},{row.tag[1]},{row.reaction},,,")


def words():
    """The two words of the command line. Without them it shows the head of the script."""
    if len(sys.argv) != 3:
        print(sys.modules["__main__"].__doc__, file=sys.stderr)
        sys.exit(2)
    return sys.argv[1:]
