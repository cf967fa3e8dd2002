"""Command lines of the built program, by what its standard input, output and error are."""
import os
import pty
import re
import subprocess

# What a shell puts in their place.
SHELL = {
    "words": "",
    "words-full": "> /dev/full",
    "words-both-full": "> /dev/full 2> /dev/full",
    "words-unread": "<&-",
    "words-unwritten": ">&-",
    "words-folder": "< /",
}
# A terminal as standard input, at which the end of the input is typed; or as standard error.
TERMINALS = ("words-typed", "words-seen")


def words_of(text):
    """The words of a command line. In a word `\\HH` is the byte of that hexadecimal number, and so `\\20` a blank."""
    return [re.sub(rb"\\(..)", lambda found: bytes([int(found[1], 16)]), word.encode()) for word in text.split()]


def write_files(folder, files):
    """Writes files. A text may be made only now; None in its place is a pipe that nobody writes to."""
    for name, text in files.items():
        text = text() if callable(text) else text
        if text is None:
            os.mkfifo(folder / name)
        else:
            (folder / name).write_bytes(text.encode() if isinstance(text, str) else text)


def at_terminal(command, is_typed, **how):
    """What a command answers at a terminal."""
    ours, theirs = pty.openpty()
    how |= {"stdin": theirs, "stderr": subprocess.PIPE} if is_typed else {"stdin": subprocess.DEVNULL, "stderr": theirs}
    with subprocess.Popen(command, stdout=subprocess.PIPE, **how) as child:
        os.close(theirs)
        if is_typed:
            os.write(ours, b"\x04")
        out, err = child.communicate(timeout=300)
    seen = b""
    try:
        # What was written at two times may come at two times.
        while not is_typed and (more := os.read(ours, 1 << 16)):
            seen += more
    except OSError:
        pass
    os.close(ours)
    return out, err or seen.replace(b"\r\n", b"\n"), child.returncode


def answer(runs, case, env):
    """What the words of a case answer. Its text is standard input, where that isn't something else."""
    write_files(runs.folder, case.given["files"])
    command = [*runs.command, *words_of(case.words)]
    if case.kind in TERMINALS:
        return at_terminal(command, case.kind == "words-typed", cwd=runs.folder, env=env)
    shell = ["sh", "-c", f'exec "$@" {SHELL[case.kind]}', "sh", *command]
    done = subprocess.run(shell, check=False, cwd=runs.folder, env=env, input=case.text, capture_output=True, timeout=300)
    return done.stdout, done.stderr, done.returncode


def told(runs, case, env):
    """What the words of a case tell: what they write, with a mark before each line of standard error, and the status."""
    out, err, status = answer(runs, case, env)
    return out + b"".join(b"! " + line for line in err.splitlines(keepends=True)) + b"status %d\n" % status


KINDS = (*SHELL, *TERMINALS)
