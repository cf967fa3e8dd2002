"""The lines that the program may print, and its faults by part and number, from docs/OUTPUT.md."""
import pathlib
import re

from hostile.machine import RULES

# The causes of refusal of a program, as the page has them.
PAGE = pathlib.Path(__file__).resolve().parents[2] / "docs/LANGUAGE.md"
CAUSES = {int(number): name for number, name in re.findall(r"(?m)^\| (\d+) \| `(\w+)` \|", PAGE.read_text().split("\n## Why a program is refused\n")[1])}
# The names of the faults of each part, with what stands behind them.
LINED = " line=NUMBER"
FAULTS = {
    "lex": {1: "BadChar at=NUMBER", 2: "OpenComment", 3: "OpenCode", 4: "OpenString", 5: "NumberTooLarge at=NUMBER", 6: "TooLong", 7: "NoMemory"},
    "syntax": {1: "Unexpected token=NUMBER", 2: "NoMemory"},
    "program": {**CAUSES, 16: "NoMemory"},
    "externals": {1: "BadHeader", 2: "BadFieldCount" + LINED, 3: "BadEvent" + LINED, 4: "BadNumber" + LINED, 5: "UnknownName" + LINED, 6: "FieldInPlace" + LINED,
                  7: "DuplicateExternal" + LINED, 8: "NoStop", 9: "TwoStops" + LINED, 10: "TooManyRows", 11: "NotCsv", 12: "NoMemory", 13: "LateExternal" + LINED, 14: "NotPlain" + LINED,
                  15: "ManyLater" + LINED},
    "graph": {1: "CausalityLoop NAMES", 2: "NoMemory"},
    "trace": {1: "BadHeader", 2: "BadFieldCount" + LINED, 3: "BadEvent" + LINED, 4: "BadNumber" + LINED, 5: "UnknownName" + LINED, 6: "FieldInPlace" + LINED,
              10: "TooManyRows", 11: "NotCsv", 12: "NoMemory", 13: "LongLine" + LINED, 14: "NotPlain" + LINED,
              15: "SecondHeader" + LINED},
    "check": {1: "BadWorkers", 3: "NoMemory"},
    "pool": {1: "NoBody NAME", 2: "Collision TAG", 3: "UndeclaredEffect NAME", 4: "TooManyRuns", 5: "Stranger", 6: "BodyNoMemory", 7: "NoMemory",
             8: "NoWorker", 9: "PlanChanged", 10: "BadWorkers", 11: "TooManyRows", 12: "LimitTag"},
    "cards": {1: "BadHeader", 2: "BadFieldCount" + LINED, 3: "BadKind" + LINED, 4: "BadNumber" + LINED, 5: "UnknownName" + LINED, 6: "FieldInPlace" + LINED,
              7: "BadValue" + LINED, 8: "GivenTwice" + LINED, 9: "TooManyRows", 10: "NotCsv", 11: "NoMemory"},
    "write": {1: "Failed"},
    "read": {1: "Failed PATH", 2: "TooLarge PATH"},
    "bundle": {1: "BadBundle"},
    "lower": dict.fromkeys(range(1, 22), "NAME PATH"),
    "memory": {1: "NoMemory"},
}
JUDGING = ("lex", "syntax", "lower", "program", "externals", "graph", "trace", "check", "write", "read", "memory")
PARTS = {
    "judge": JUDGING,
    "cover": JUDGING,
    "explain": JUDGING,
    "follow": JUDGING,
    "pair": JUDGING,
    "bundle": (*JUDGING, "bundle"),
    "show": ("lex", "syntax", "lower", "program", "graph", "write", "read", "memory"),
    "record": ("lex", "syntax", "lower", "program", "externals", "graph", "cards", "pool", "write", "read", "memory"),
}


WORDS = {"NUMBER": r"\d+", "NAMES": r"[^ \n]+( [^ \n]+)*", "NAME": r"[^ \n]+", "TAG": r"time=\d+ microstep=\d+", "PATH": r"[^\n]+"}


def pattern(form):
    """A regular expression of a form, in which words in capitals stand for what varies."""
    return re.sub("NUMBER|NAMES|NAME|TAG|PATH", lambda word: WORDS[word[0]], re.escape(form))


FAULT_LINES = {(part, number): re.compile(f"fault {part} {number} {pattern(form)}\n") for part, numbers in FAULTS.items() for number, form in numbers.items()}
BROKEN = "|".join(pattern(f"broken rule={rule} {RULES[rule]}{LINED if rule <= 5 else ''} TAG " + ("(outside the profile)" if rule == 6 else "reaction=NAME"))
                  for rule in range(1, 11))
REACH = r"runs=\d+ tags=\d+( time=\d+ microstep=\d+)?\n"
UNBROKEN, UNKNOWN = f"unbroken {REACH}", rf"odd line=\d+ {REACH}"
LINES = {
    "judge": {0: r"accepted runs=\d+ tags=\d+\n", 1: f"({BROKEN})\n"},
    "cover": {0: r"accepted runs=\d+ tags=\d+\n([^\n]*\n)*", 1: f"({BROKEN})\n"},
    "explain": {0: r"accepted runs=\d+ tags=\d+\n", 1: f"({BROKEN})\n\n([^\n]+\n|\n)+"},
    "follow": {0: r"accepted runs=\d+ tags=\d+\n", 1: f"({BROKEN})\n", 3: UNBROKEN, 4: UNKNOWN},
    "pair": {0: r"same runs=\d+ tags=\d+\n", 1: f"((first|second) ({BROKEN})|{pattern('differ TAG reaction=NAME')})\n"},
    "show": {0: f"({pattern('port NAME origin=NAME after=NUMBER+NUMBER')}\n)*({pattern('reaction NAME level=NUMBER before=NAMES')}\n)*"},
    "record": {0: r"event,worker,time,microstep,reaction,name,value,delay\n([a-z]+,\d+,\d+,\d+,[^\n,]+,[^\n,]*,(-?\d+)?,\d*\n)*"},
}
LINES["bundle"] = LINES["judge"]
# The first line of `explain` where more stands behind it. It stands alone where memory is refused to the facts.
FIRST_LINE = re.compile(f"((first |second )?({BROKEN})|{pattern('differ TAG reaction=NAME')})\n")
# Why a text is refused, as `explain` tells it: the text or the place, and what is wrong there; then quoted lines and help.
REASON = re.compile("((Program|External inputs|Trace)(, line [0-9]+| has|: )|[^\n]+:[0-9]+:[0-9]+: )([^\n]+\n|\n)*")
LINES = {command: {status: re.compile(form) for status, form in lines.items()} for command, lines in LINES.items()}


def fault_of(line):
    """The part and number of a fault line, or nothing if it is none."""
    words = line.split(" ")
    key = (words[1], int(words[2])) if len(words) > 3 and words[2].isdigit() else None
    return key if key in FAULT_LINES and FAULT_LINES[key].fullmatch(line) else None


def unlike(command, answer):
    """Why an answer has none of the forms that a command's answers have; nothing if it has one."""
    out, err = (text.decode("utf-8", "backslashreplace") for text in answer[1:])
    if answer.status is None:
        return "no answer in time"
    if answer.status in LINES[command]:
        if err:
            return f"status {answer.status} with words on standard error"
        return "" if LINES[command][answer.status].fullmatch(out) else f"status {answer.status} with another line"
    if answer.status != 2:
        return f"status {answer.status}"
    fault = fault_of(err)
    if not fault or fault[0] not in PARTS[command]:
        return "no fault line of this command"
    if fault[0] == "pool":
        return "" if LINES["record"][0].fullmatch(out) else "rows so far that are no table"
    if command == "explain" and (REASON.fullmatch(out) or fault == ("memory", 1) and FIRST_LINE.fullmatch(out)):
        return ""
    return "words on standard output before a fault" if out and fault[0] != "write" else ""
