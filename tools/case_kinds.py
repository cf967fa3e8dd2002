"""The kinds of cases that the command line shows, each as what it asks of the built program.

What is told of a case is mostly what the program writes on standard output, then what it writes on standard
error, and `status N`.

- `show`: of the text of a program; the words behind it are handed on.
- `lower`: of the files of a program, each behind a line `--- PATH`, the program's first: what `show --lower --all`
  tells, or why `explain --lower` says that it is refused. What is told of the first file without `--lower` is told
  where that shows it, and shows something else.
- `lower COMMAND`: what a command with the words beside it tells with `--lower` of the given program, of one file.
  `judge`, `cover`, `explain`, `follow` and `pair` are asked of the given tables; where there are rows, of these as a
  second trace too. `record` is asked of a table of cards, and `show` of the program alone. `lower-files COMMAND` is
  asked of files as those of `lower`.
- `judge`: of the rows of a trace table under its header, by the given program and external inputs. A number
  beside the word is that of the workers. Where none stands there, the three texts are judged as a bundle too,
  and by 2, 3 and 64 workers; what these say is told only where it is something else.
- `pair`: of the rows of a second trace beside the given one, in the same way.
- `explain`: of the rows of a trace, by one worker; what 3 say, and what `--all` says where no lines are left
  out, is told where it is something else. With words beside it, as `--all` or `--until 5,0`, it is what these say.
- `cover`, `cover --list`: of the rows of a trace, by one worker; what 3 say, and what is said of the rows with
  quotation marks, is told where it is something else.
- `explain-pair`: of the rows of a second trace beside the given one, in the same way.
- `explain-program`: of the text of a program alone.
- `bundle`, `explain-bundle`: of a text on standard input.
- `refused`: why `explain` says that the text of a program is refused: its standard output alone. Status 2 and
  the line of a fault have to come too.
- `refused-externals`, `refused-trace`: the same of a whole table of what is given. `refused-bundle`: of a bundle.
- `record WORKERS MAX_RUNS`: of the rows of a table of cards. Behind the status of a recording that came to its
  stop stands what `judge` says of it.
- `follow`: of the rows and external inputs of a log that is followed, with the words beside the kind, as
  `--until 5,0`. What is told where it comes from standard input, a byte at a time, is told only where it is something
  else. `follow-alone`: of one on standard input without a table of external inputs.
- `recordings TIMES WORKERS`: what `judge` says of so many recordings by so many workers, and of how many it says so.
- `fronts PLACE`: what is told of each front of a text, from none of its bytes to all. It stands in the place of
  the given `program`, `externals` or `trace`, which are judged by one worker and by three, or it is the table of
  `cards` by which the given program is recorded, at most ten runs. Where something else is told from a length
  on, the length is told, and the lines.

- `words WORDS`: of a command line, by files that stand above it as parts `file NAME`, or `pipe NAME` for a pipe that
  nobody writes to. In a word `\\HH` is a byte. The text is standard input. `words-typed` has a terminal as standard
  input, at which its end is typed, and `words-seen` one as standard error. `words-full` has a full device as standard
  output, and `words-both-full` as standard error too. In `words-unread` standard input is closed, in `words-unwritten`
  standard output, and `words-folder` reads a folder. Before each line of standard error stands `! `.

`judge-text`, `pair-text`, `follow-text` and `record-text` have a whole table, header and all.
"""
import collections
import concurrent.futures
import os
import pathlib
import re
import subprocess
import tempfile

import command_lines

HEADERS = {
    "externals": b"kind,time,microstep,name,value\n",
    "trace": b"event,worker,time,microstep,reaction,name,value,delay\n",
    "cards": b"kind,reaction,name,delay,value\n",
}
# Which of the texts a part gives.
GIVEN = {"program": "program", "externals": "externals", "externals-text": "externals", "trace": "trace"}
# Stands where lines of what `explain` tells are left out.
LEFT_OUT = b"  More lines, which `--all` prints: "
# KiB of stack, and what fills it before the program begins: by docs/TABLES.md the one is enough with the other.
STACK = 192
ENVIRONMENT = {**os.environ, "FILLS": "x" * 32768}
# A trace of fewer bytes is judged by one worker.
SHORT = 1 << 20
FAULT = re.compile(rb"fault [a-z]+ \d+ .*\n")


def with_stack(program, kib=STACK):
    """The words that run a program with so much stack, a minute of processor time and 8 GB of addresses. Its arguments
    stand behind them."""
    return ["sh", "-c", f'ulimit -s {kib} && ulimit -t 60 && ulimit -v 8000000 && exec "$0" "$@"', program]


class Runs:
    """Runs of a command, which is that of the built program, with texts as files of a folder."""

    def __init__(self, command, folder):
        self.command, self.folder = command, pathlib.Path(folder)

    def ask(self, command, texts, *more):
        """The standard output, the standard error and the status of a command on texts."""
        paths = [self.folder / str(place) for place in range(len(texts))]
        for path, text in zip(paths, texts):
            path.write_bytes(text)
        return self.read(b"", command, *paths, *more)

    def read(self, text, *words):
        """The same of any words, with a text as standard input."""
        done = subprocess.run([*self.command, *words], check=False, cwd=self.folder, env=ENVIRONMENT, input=text, capture_output=True, timeout=300)
        return done.stdout, done.stderr, done.returncode


def whole(answer):
    """All that an answer tells."""
    out, err, status = answer
    return out + err + b"status %d\n" % status


def spread(table):
    """The same records with empty lines between them, so many that several workers share the table."""
    ends = table.count(b"\n")
    # In an open quote an empty line would be a part of a field.
    if not ends or b'"' in table:
        return table
    return table.replace(b"\n", b"\n" * (SHORT // ends + 1))


def texts_of(case):
    """The given program and external inputs."""
    return [case.given["program"], case.given["externals"]]


def bundled(texts):
    """Three texts as a bundle; None where they can't stand in one."""
    if any(b"--- " in text or text[-1:] not in (b"", b"\n") for text in texts[:2]):
        return None
    return b"--- program\n%s--- externals\n%s--- trace\n%s" % tuple(texts)


def by_workers(runs, command, texts, tables, number):
    """What is told of tables, the last of the texts, that so many workers share."""
    return whole(runs.ask(command, texts + [spread(table) for table in tables], "--workers", str(number)))


def shared(runs, command, texts, tables, numbers):
    """What one worker tells of tables, and what others tell where it is something else."""
    told = whole(runs.ask(command, texts + tables))
    others = [(number, by_workers(runs, command, texts, tables, number)) for number in numbers]
    return told, b"".join(b"by %d workers:\n%s" % other for other in others if other[1] != told)


def judged(runs, case, table):
    """What is told of a trace table."""
    texts = texts_of(case)
    if case.words:
        return by_workers(runs, "judge", texts, [table], case.words)
    told, others = shared(runs, "judge", texts, [table], (2, 3, 64))
    bundle = bundled([*texts, table])
    alone = told if bundle is None else whole(runs.read(bundle))
    return told + others + (b"as a bundle:\n" + alone if alone != told else b"")


def paired(runs, case, second):
    """What is told of a second trace table beside the given one."""
    tables = [case.given["trace"], second]
    if case.words:
        return by_workers(runs, "pair", texts_of(case), tables, case.words)
    return b"".join(shared(runs, "pair", texts_of(case), tables, (2, 3, 64)))


def with_all(runs, texts, told):
    """What `explain --all` tells of texts, where no lines of what was told are left out, and it is something else."""
    if LEFT_OUT in told:
        return b""
    every = whole(runs.ask("explain", texts, "--all"))
    return b"" if every == told else b"with --all:\n" + every


def covered(runs, case):
    """What is told of a trace and of what it exercised."""
    texts, table = texts_of(case), HEADERS["trace"] + case.text
    told = whole(runs.ask("cover", [*texts, table], *case.words.split()))
    by_three = whole(runs.ask("cover", [*texts, spread(table)], *case.words.split(), "--workers", "3"))
    quoted = whole(runs.ask("cover", [*texts, re.sub(rb"(?m)^(\w+)", rb'"\1"', table)], *case.words.split()))
    others = ((b"by 3 workers:\n", by_three), (b"with quotation marks:\n", quoted))
    return told + b"".join(word + other for word, other in others if other != told)


def explained(runs, case):
    """What is told of a trace and explains it."""
    table = HEADERS["trace"] + case.text
    if case.words:
        return whole(runs.ask("explain", [*texts_of(case), table], *case.words.split()))
    told, others = shared(runs, "explain", texts_of(case), [table], (3,))
    return told + others + with_all(runs, [*texts_of(case), table], told)


def explained_pair(runs, case):
    """What is told of two traces and explains it."""
    texts = [*texts_of(case), case.given["trace"], HEADERS["trace"] + case.text]
    told = whole(runs.ask("explain", texts, *case.words.split()))
    return told if case.words else told + with_all(runs, texts, told)


def followed(runs, case, log, is_alone=False):
    """What is told of a log that is followed."""
    texts, words = texts_of(case)[:1 if is_alone else 2], case.words.split() if case.words else []
    paths = [runs.folder / str(place) for place in range(len(texts))]
    for path, text in zip(paths, texts):
        path.write_bytes(text)
    told = whole(runs.read(log, "follow", *paths, *words) if is_alone else runs.ask("follow", [*texts, log], *words))
    words = [*runs.command, "follow", *paths, *words]
    with subprocess.Popen(words, env=ENVIRONMENT, stdin=subprocess.PIPE, stdout=subprocess.PIPE, stderr=subprocess.PIPE) as child:
        try:
            for place in range(len(log)):
                os.write(child.stdin.fileno(), log[place:place + 1])
        except BrokenPipeError:
            pass
        out, err = child.communicate(timeout=300)
    piped = whole((out, err, child.returncode))
    return told + (b"through a pipe:\n" + piped if piped != told else b"")


def files_of(runs, case):
    """The paths of the files that a case has, which are written, the program's first."""
    parts = re.split(rb"^--- (.*)\n", case.text, flags=re.MULTILINE)
    paths = [runs.folder / part.decode() for part in parts[1::2]]
    for path, text in zip(paths, parts[2::2]):
        path.parent.mkdir(parents=True, exist_ok=True)
        path.write_bytes(text)
    return paths


def lowered(runs, case):
    """What is told of a program of several files, or why it is refused."""
    path = files_of(runs, case)[0].name
    shown = runs.read(b"", "show", "--lower", "--all", path)
    alone = runs.read(b"", "show", "--all", path)
    others = b"without --lower:\n" + whole(alone) if not alone[2] and alone != shown else b""
    if not shown[2]:
        return whole(shown) + others
    told = runs.read(b"", "explain", "--lower", path)
    return whole(told) + (b"shown:\n" + whole(shown) if shown != (b"", *told[1:]) else b"")


def by_lower(runs, case):
    """What a command tells of the given whole program, and of a second trace or cards, if there are rows."""
    command, *words = case.words.split()
    if command == "show":
        texts = [case.given["program"]]
    elif command == "record":
        texts = [*texts_of(case), HEADERS["cards"] + case.text]
    else:
        texts = [*texts_of(case), case.given["trace"]] + ([HEADERS["trace"] + case.text] if case.text else [])
    return whole(runs.ask(command, texts, "--lower", *words))


def files_by_lower(runs, case):
    """The same of the files of a program, and of nothing else."""
    command, *words = case.words.split()
    return whole(runs.read(b"", command, "--lower", files_of(runs, case)[0].name, *words))


def refused(answer):
    """Why a text is refused. Where none is, all that is told."""
    out, err, status = answer
    return out if status == 2 and FAULT.fullmatch(err) else whole(answer)


def recorded(runs, case, cards):
    """What is told of a recording by cards, and of what it wrote."""
    workers, most = case.words.split()
    table, err, status = runs.ask("record", [*texts_of(case), cards], "--workers", workers, "--max-runs", most)
    told = whole((table, err, status))
    return told if status else told + b"".join(runs.ask("judge", [*texts_of(case), table])[:2])


def each(runs, ask, values):
    """What `ask` answers to each of the values, several at a time, each with a folder of its own."""

    def one(value):
        with tempfile.TemporaryDirectory(dir=runs.folder) as folder:
            return ask(Runs(runs.command, folder), value)

    with concurrent.futures.ThreadPoolExecutor(os.cpu_count()) as pool:
        return list(pool.map(one, values))


def recordings(runs, case):
    """What is told of many recordings by cards, each line with how often it is told."""
    times, workers = case.words.split()
    texts = texts_of(case)

    def judged_once(own, _):
        table, err, status = own.ask("record", [*texts, HEADERS["cards"] + case.text], "--workers", workers)
        return whole((b"", err, status)) if status else b"".join(own.ask("judge", [*texts, table])[:2])

    told = collections.Counter(each(runs, judged_once, range(int(times))))
    return b"".join(b"%d times %s" % (count, line) for line, count in told.items())


def fronts(runs, case):
    """What is told of each front of a text, where it is something else than of the one before."""

    def of_length(own, length):
        given = {**case.given, case.words: case.text[:length]}
        if case.words == "cards":
            return [own.ask("record", [given["program"], given["externals"], given["cards"]], "--max-runs", "10")]
        texts, trace = [given["program"], given["externals"]], given["trace"]
        return [own.ask("judge", [*texts, trace]), own.ask("judge", [*texts, spread(trace)], "--workers", "3")]

    told, last = b"", b""
    for length, answers in enumerate(each(runs, of_length, range(len(case.text) + 1))):
        for out, err, _ in answers:
            if out + err != last:
                last = out + err
                told += b"%d: %s" % (length, last)
    return told


KINDS = {
    "show": lambda runs, case: whole(runs.ask("show", [case.text], *case.words.split())),
    "lower": lambda runs, case: by_lower(runs, case) if case.words else lowered(runs, case),
    "lower-files": files_by_lower,
    "judge": lambda runs, case: judged(runs, case, HEADERS["trace"] + case.text),
    "judge-text": lambda runs, case: judged(runs, case, case.text),
    "pair": lambda runs, case: paired(runs, case, HEADERS["trace"] + case.text),
    "pair-text": lambda runs, case: paired(runs, case, case.text),
    "cover": covered,
    "explain": explained,
    "explain-pair": explained_pair,
    "explain-program": lambda runs, case: whole(runs.ask("explain", [case.text])),
    "bundle": lambda runs, case: whole(runs.read(case.text)),
    "explain-bundle": lambda runs, case: whole(runs.read(case.text, "explain")),
    "refused": lambda runs, case: refused(runs.ask("explain", [case.text, b"", b""])),
    "refused-externals": lambda runs, case: refused(runs.ask("explain", [case.given["program"], case.text, b""])),
    "refused-trace": lambda runs, case: refused(runs.ask("explain", [*texts_of(case), case.text])),
    "refused-bundle": lambda runs, case: refused(runs.read(case.text, "explain")),
    "follow": lambda runs, case: followed(runs, case, HEADERS["trace"] + case.text),
    "follow-alone": lambda runs, case: followed(runs, case, HEADERS["trace"] + case.text, True),
    "follow-text": lambda runs, case: followed(runs, case, case.text),
    "record": lambda runs, case: recorded(runs, case, HEADERS["cards"] + case.text),
    "record-text": lambda runs, case: recorded(runs, case, case.text),
    "recordings": recordings,
    "fronts": fronts,
    **dict.fromkeys(command_lines.KINDS, lambda runs, case: command_lines.told(runs, case, ENVIRONMENT)),
}
