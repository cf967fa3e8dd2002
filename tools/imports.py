"""Imports of antt, alone and in groups within groups: `use` in specs/ and proofs/, `ghost use` in src/."""
import collections
import re

# How an import is written: what stands before its path, and behind its names.
Form = collections.namedtuple("Form", "mark end")
RT, ANTT = Form("ghost use ", ";"), Form("use ", "")


def parted(text):
    """The entries of a group, which end at the commas that stand in no inner group."""
    parts, depth = [""], 0
    for letter in text:
        depth += (letter == "{") - (letter == "}")
        parts += [""] if letter == "," and depth == 0 else []
        parts[-1] += letter.strip(",") if depth == 0 else letter
    return [part.strip() for part in parts if part.strip()]


def leaves(text, path=()):
    """Each name of an import (`Value as Carried` is one), with the path of its module."""
    head, brace, inner = text.removesuffix("}").partition("{")
    *way, name = head.split(".")
    if not brace:
        yield path + tuple(way), name
    for part in parted(inner):
        yield from leaves(part, path + tuple(way))


def imports(text, form):
    """Each import: where its lines begin and end, their indent, and what stands between the mark and the end."""
    at, lines = 0, iter(text.splitlines(keepends=True))
    for line in lines:
        start = at
        if line.strip().startswith(form.mark):
            while line.count("{") > line.count("}"):
                line += next(lines)
            plain = re.sub(r",? \}", "}", " ".join(line.split()).replace("{ ", "{"))
            indent = line[:len(line) - len(line.lstrip(" "))]
            yield start, start + len(line), indent, plain[len(form.mark):].removesuffix(form.end)
        at = start + len(line)


def brought_in(text, form):
    """What a text calls a name or a module that it brings in: the path of the module, and the name or None."""
    found = {}
    handed_on = imports(text, Form("pub " + form.mark, form.end))
    for _, _, _, entry in (*imports(text, form), *handed_on):
        if "{" in entry:
            for path, leaf in leaves(entry):
                name, _, known = leaf.partition(" as ")
                found[known or name] = path, name
        else:
            way, _, known = entry.partition(" as ")
            path = tuple(way.split("."))
            found[known or path[-1]] = path, None
    return found
