"""Which texts are programs: their tokens, and the grammar of docs/, which is read from its page.

The grammar has no recursion but that of groups, so it is a graph whose edges are tokens and groups.
"""
import functools
import pathlib
import re

PAGES = pathlib.Path(__file__).resolve().parents[2] / "docs"
MOST_BYTES, MOST_NUMBER = 2**20, 2**64 - 1
TOKEN = re.compile(rb"""(?P<BLANK>[ \t\r\n;]+|//[^\n]*|\#[^\n]*|/\*.*?\*/) | (?P<CODE>\{=.*?=\}) | (?P<STRING>"(?:[^"\\]|\\.)*")
    | (?P<NAME>[A-Za-z_][A-Za-z0-9_]*) | (?P<NUMBER>[0-9]+) | (?P<SIGN>->|[!-~])""", re.DOTALL | re.VERBOSE)
UNCLOSED = {b"/*": "lex 2 OpenComment", b"{=": "lex 3 OpenCode", b"\"": "lex 4 OpenString"}
RESERVED = set("target preamble private public main reactor mutable input output timer logical physical action state reaction startup shutdown new after".split())
UNITS = set("ns nsec nsecs us usec usecs ms msec msecs s sec secs second seconds min mins minute minutes h hour hours d day days week weeks".split())


def read_tokens(text):
    """The tokens of a text, each with its kind, and what its fault line says if it has none."""
    if len(text) > MOST_BYTES:
        return [], "lex 6 TooLong"
    tokens, at = [], 0
    while at < len(text):
        found = TOKEN.match(text, at)
        kind = found.lastgroup if found else ""
        if kind in ("", "SIGN"):
            unclosed = [fault for opening, fault in UNCLOSED.items() if text.startswith(opening, at)]
            if unclosed or not found:
                return [], unclosed[0] if unclosed else f"lex 1 BadChar at={at}"
        elif kind == "NUMBER" and int(found[0].lstrip(b"0")[:21] or b"0") > MOST_NUMBER:
            return [], f"lex 5 NumberTooLarge at={at}"
        if kind != "BLANK":
            tokens.append((kind, found[0].decode("latin-1")))
        at = found.end()
    return tokens, ""


def fits(word, kind, text):
    """Whether a token is what a word of the grammar stands for."""
    if word.startswith("\""):
        return word == f"\"{text}\""
    if word == "NUMBER whose value is 0":
        return kind == "NUMBER" and not text.strip("0")
    if word == "UNIT":
        return kind == "NAME" and text in UNITS
    return kind == word and not (kind == "NAME" and text in RESERVED)


class Grammar:
    """From each place the edges to others, each by a word of the grammar, and the places that are reached by no token."""

    def __init__(self, text):
        parts = re.split(r"(?m)^(\w+) +=", text)
        word = r'"[^"]*"|group of . .|NUMBER whose value is 0|\w+|[\[\]{}()|]'
        self.rules = {name: re.findall(word, rule) for name, rule in zip(parts[1::2], parts[2::2])}
        self.edges, self.free = [[]], [[]]
        self.end = self.one_of(list(self.rules["file"]), 0)

    def place(self):
        self.edges.append([])
        self.free.append([])
        return len(self.edges) - 1

    def one_of(self, words, start):
        """Reads alternatives from a place on, and gives the place where all of them end."""
        end = self.place()
        while True:
            self.free[self.sequence(words, start)].append(end)
            if not words or words.pop(0) != "|":
                return end

    def sequence(self, words, at):
        while words and words[0] not in ("|", "]", "}", ")"):
            word = words.pop(0)
            if word in ("[", "("):
                end = self.one_of(words, at)
                self.free[at] += [end] * (word == "[")
            elif word == "{":
                end = self.place()
                self.free[at].append(end)
                self.free[self.one_of(words, end)].append(end)
            elif word in self.rules:
                end = self.one_of(list(self.rules[word]), at)
            else:
                end = self.place()
                self.edges[at].append((word, end))
            at = end
        return at

    @functools.lru_cache(None)
    def reached(self, place):
        """The place and those that are reached from it by no token, each outside of a group."""
        found, new = {place}, [place]
        while new:
            new = [other for one in new for other in self.free[one] if other not in found]
            found.update(new)
        return {(one, "", 0) for one in found}

    def step(self, at, kind, text):
        """Where a token leads. In a group a place is the one behind it, with its brackets and how deep it is."""
        place, brackets, depth = at
        if depth:
            depth += (text == brackets[0]) - (text == brackets[1])
            return {(place, brackets, depth)} if depth else self.reached(place)
        found = set()
        for word, end in self.edges[place]:
            if word.startswith("group of ") and text == word[9]:
                found.add((end, (word[9], word[11]), 1))
            elif fits(word, kind, text):
                found |= self.reached(end)
        return found

    def unexpected(self, tokens):
        """The number of the first token at which no program goes on; one past the last where it lacks one, or nothing."""
        active = self.reached(0)
        for number, token in enumerate(tokens, 1):
            active = set().union(*(self.step(at, *token) for at in active))
            if not active:
                return number
        return None if (self.end, "", 0) in active else len(tokens) + 1


@functools.lru_cache(None)
def grammar():
    """The grammar of the page that has one."""
    pages = [re.search(r"(?ms)^```\n(file +=.*?)^```", page.read_text()) for page in sorted(PAGES.glob("*.md"))]
    return Grammar(next(block[1] for block in pages if block))


def refusal(text):
    """What the fault line of the parts lex and syntax says of a text; nothing of a program that has a tree."""
    tokens, fault = read_tokens(text)
    unexpected = None if fault else grammar().unexpected(tokens)
    return fault or (f"syntax 1 Unexpected token={unexpected}" if unexpected else "")
