"""The definitions of specs/, the clauses of src/ that cite them, and what clauses reach.

A definition is known by its crate, its module and its name. A clause or a definition cites a name that it has as a
word, if its file brings that name in or has it itself: so a variable counts too that has the name of a definition.
Whoever names a type in a clause reaches the clauses of that type: its view, what it keeps. What types that stand in a
signature alone keep isn't reached, nor what std defines.
"""
import collections
import functools
import pathlib
import re

from imports import ANTT, RT, brought_in

TOP = pathlib.Path(__file__).resolve().parent.parent
CRATES = TOP / "crates"
# The calls of which a page says what they promise, and who uses the crates calls them: of a crate, or of a folder of
# one that has its own name. A star stands for all that it exports. What their clauses reach has to be believed.
PUBLIC = {
    "lft_tag": "*",
    "lft_syntax": "lex parse",
    "lft_ir": "Program",
    "lft_ir::steps": "Externals Rows",
    "lft_program": "flatten",
    "lft_graph": "Graph",
    "lft_trace": "read_trace read_externals write_trace",
    "lft_model": "*",
    "lft_slices": "cut Cut",
    "lft_check": "judge judge_alone Watch NoWatch",
    "lft_queue": "Queue",
    "lft_pool": "*",
    "lft_monitor": "law_sure",
    "lft_report": "law_race",
    "lft_pair": "pair",
    "lft_load": "load read_input finish plan_of",
    "lft_record": "*",
    "lft_driver": "*",
    "lft_coverage::driver": "*",
    "lft_log::follow": "*",
    "lft_log::explain": "*",
    "lft_whole_driver": "*",
}

# A definition. The module `declared.a.T` has what contracts see of the type T of src/a.rt.
Name = collections.namedtuple("Name", "crate module name")
# What is said above it, its text, and how many lines both have.
Definition = collections.namedtuple("Definition", "says text lines")
# What the clauses of a call or a type say: where it stands, its type or trait, its name, whether others can call it.
Said = collections.namedtuple("Said", "path place owner function is_out clauses")

HEAD = re.compile(r"(?:(?:abbrev|unfoldable) )?pub (?:(?:record|data) )?(\S+)")
CLAUSE = re.compile(r"( +)(?:(?:requires|ensures)\*?(?: \w+)?|(?:pub )?ghost \w+(?: =|:)) \{")
OWNER = re.compile(r"(?:impl(?:<[^>]*>)? (?:(?P<of>\w+)(?:<.*>)? for )?|(?P<pub>pub )?(?:struct|enum|(?P<trait>trait)) )(?P<name>\w+)")
FUNCTION = re.compile(r"(?P<indent> *)(?P<pub>pub(?:\(crate\))? )?(?:const )?fn (?P<name>\w+)")


def file_of(name):
    """The path of the file of a definition, from the top."""
    return f"crates/{name.crate}/specs/{name.module.replace('.', '/')}.antt"


def words_of(text):
    """The words of a clause or a definition: of `a.b.c`, where b and c are fields, it and `a`. None of a string."""
    words = set(re.findall(r"[^\s()\[\]{},;`⟨⟩]+", re.sub(r'"(?:[^"\\]|\\.)*"', " ", text)))
    return words | {word.partition(".")[0] for word in words}


class Scope:
    """What a file calls what: the names that it has itself, and those that it brings in."""

    def __init__(self, text, form, own=()):
        self.known, self.aliases, self.mixed = {word.name: word for word in own}, {}, []
        for known, (path, name) in brought_in(text, form).items():
            if path[:1] == ("Rattle",) and path[2:3] == ("specs",) and path[1].startswith("lft_"):
                if name is None:
                    self.aliases[known] = path[1], ".".join(path[3:])
                else:
                    self.known[known] = Name(path[1], ".".join(path[3:]), name)
        # An operator, as `◌∣◌`, stands where all its parts do.
        self.mixed = [([part for part in known.split("◌") if part], word) for known, word in self.known.items() if "◌" in known]

    def cited(self, text):
        """What a text cites."""
        words = words_of(text)
        found = {self.known[word] for word in words & self.known.keys()}
        found |= {word for parts, word in self.mixed if words.issuperset(parts)}
        for word in words:
            alias, dot, name = word.partition(".")
            if dot and alias in self.aliases:
                found.add(Name(*self.aliases[alias], name.split(".")[0]))
        return found


def definitions_in(crate, module, text):
    """The definitions of a file of specs/, each with what stands above it."""
    found, above, at = {}, [], None
    for line in text.split("\n"):
        head = HEAD.match(line)
        if head and head[1] not in ("mod", "use"):
            at = Name(crate, module, head[1])
            found[at] = [*above, line]
            above = []
        elif line.startswith(("--", "infix", "unfolding")):
            above.append(line)
        elif not line.strip():
            above = []
        elif at and not line.startswith(("use ", "pub use ")):
            found[at].append(line)
    return {name: definition_of(lines) for name, lines in found.items()}


def constructors(own):
    """The definition of each constructor that stands in a `data` of a file."""
    return {name._replace(name=word): name for name, it in own.items() if "pub data " in it.text for word in re.findall(r"(?m)^  (?:pub )?(\S+) :", it.text)}


def definition_of(lines):
    """A definition of these lines. A comment that begins with dashes is the heading of several."""
    says = [line.removeprefix("--").strip() for line in lines if line.startswith("--") and not line.startswith("-- --")]
    return Definition(" ".join(says), "\n".join(line for line in lines if not line.startswith("--")), len(lines))


@functools.cache
def definitions():
    """All definitions, the scope of each module, and the definitions to which constructors belong."""
    found, scopes, made_by = {}, {}, {}
    for path in sorted(CRATES.glob("*/specs/**/*.antt")):
        crate, _, *parts = path.relative_to(CRATES).with_suffix("").parts
        module, text = ".".join(parts), path.read_text()
        own = definitions_in(crate, module, text)
        found.update(own)
        made_by.update(constructors(own))
        scopes[crate, module] = Scope(text, ANTT, own)
    return found, scopes, made_by


def clause_at(lines, at):
    """The text of the clause that begins at a line."""
    text = lines[at]
    while text.count("{") > text.count("}"):
        at += 1
        text += " " + lines[at]
    return text.split("{", 1)[1]


def said_in(path, place, text):
    """What the clauses of a file's types and functions say. Those of a closure stand further in, and are none."""
    found, owner, kept, lines = [], None, None, text.split("\n")
    for at, line in enumerate(lines):
        head, function, clause = OWNER.match(line), FUNCTION.match(line), CLAUSE.match(line)
        if line == "}" or function and not function["indent"]:
            owner = kept = None
        if head:
            owner = head
            kept = Said(path, place, head["name"], None, bool(head["pub"] or line.startswith("impl")), [])
            found.append(kept)
        elif function:
            is_out = function["pub"] == "pub " or bool(owner and (owner["of"] or owner["trait"]))
            found.append(Said(path, place, owner and owner["name"], function["name"], is_out, []))
        elif clause and kept and len(clause[1]) == 4:
            kept.clauses.append(clause_at(lines, at))
        elif clause and found and len(clause[1]) == 4 + 4 * bool(found[-1].owner):
            found[-1].clauses.append(clause_at(lines, at))
    return found


@functools.cache
def said():
    """What all clauses say."""
    found = []
    for path in sorted(CRATES.glob("*/src/**/*.rt")):
        crate, _, *parts = path.relative_to(CRATES).with_suffix("").parts
        folder = parts[0] in folders(crate)
        found += said_in(path, f"{crate}::{parts[0]}" if folder else crate, path.read_text())
    return found


@functools.cache
def folders(crate):
    """The folders of a crate that have a name of their own outside."""
    root = CRATES / crate / "src" / "lib.rt"
    names = re.findall(r"(?m)^pub mod (\w+);", root.read_text()) if root.exists() else []
    return [name for name in names if (root.parent / name).is_dir()]


@functools.cache
def exports(place):
    """The names that a crate hands out, or a folder of one, and the files of which it hands out all that is `pub`."""
    crate, _, folder = place.partition("::")
    root = CRATES / crate / "src" / f"{folder or 'lib'}.rt"
    if not root.exists():
        return set(), set()
    modules = set(re.findall(r"(?m)^pub mod (\w+);", root.read_text())) - set([] if folder else folders(crate))
    files = {root, *(root.parent / folder / f"{module}.rt" for module in modules)}
    groups = [group for path in files for group in re.findall(r"(?s)pub use (?:\w+::)+(\{.*?\}|\w+);", path.read_text())]
    return {word for group in groups for word in re.findall(r"\w+", group)}, files


def exported(it):
    """Whether others can call a function or name a type."""
    names, files = exports(it.place)
    return it.is_out and (it.path in files or (it.owner or it.function) in names)


def called(it):
    """The name of a call or a type, with its crate."""
    return "::".join(word for word in (it.place, it.owner, it.function) if word)


@functools.cache
def scope_of(path):
    """What a file of src/ calls what."""
    return Scope(path.read_text(), RT)


def cited_in(it):
    """What the clauses of a call or a type cite."""
    return set().union(*(scope_of(it.path).cited(text) for text in it.clauses))


def public_calls():
    """The calls of PUBLIC."""
    found = []
    for it in said():
        wanted = PUBLIC.get(it.place, "")
        if it.function and exported(it) and (wanted == "*" or (it.owner or it.function) in wanted.split()):
            found.append(it)
    return found


@functools.cache
def cited_by_types():
    """What the clauses of each type cite, by its crate and its name."""
    found = collections.defaultdict(set)
    for it in said():
        if not it.function:
            found[it.path.relative_to(CRATES).parts[0], it.owner] |= cited_in(it)
    return found


@functools.cache
def cited_by(name):
    """What a definition cites, or what a type's clauses do."""
    found, scopes, made_by = definitions()
    if name.module.startswith("declared"):
        types = [part for part in [*name.module.split("."), name.name] if part[:1].isupper()]
        return set().union(*(cited_by_types().get((name.crate, part), ()) for part in types))
    scope = scopes.get((name.crate, name.module))
    if name in found:
        return scope.cited(found[name].text)
    if name in made_by:
        return {made_by[name]}
    if scope:
        return {scope.known[name.name]} if name.name in scope.known else set()
    # A constructor that is brought in by way of its type.
    module, dot, kind = name.module.rpartition(".")
    return {Name(name.crate, module, kind)} if dot else set()


def reached(calls):
    """The definitions that the clauses of calls reach, each with the call or the definition that led there first."""
    led = {}
    todo = collections.deque((called(it), name) for it in calls for name in sorted(cited_in(it)))
    while todo:
        by, name = todo.popleft()
        if name not in led:
            led[name] = by
            todo.extend((name, other) for other in sorted(cited_by(name)))
    return {name: by for name, by in led.items() if name in definitions()[0]}
