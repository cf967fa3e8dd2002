"""The crates of crates.txt, and what each stands on."""
import pathlib

TOP = pathlib.Path(__file__).resolve().parent.parent


def crates():
    """What each crate stands on, in the order of the file."""
    found = {}
    for line in (TOP / "crates.txt").read_text().splitlines():
        head, _, below = line.split("#")[0].partition(":")
        if head.strip():
            found[head.split()[0]] = below.split()
    return found


def below(name, uses, found=()):
    """The crates of the repository on which a crate stands at any depth, each behind those that it stands on."""
    found = list(found)
    for it in uses[name]:
        if it in uses and it not in found:
            found = [*below(it, uses, found), it]
    return found
