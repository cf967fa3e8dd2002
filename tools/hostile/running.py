"""Runs of the built program, and of it with some of its calls of the system refused by refuse.c."""
import collections
import pathlib
import shutil
import signal
import struct
import subprocess
import tempfile

Answer = collections.namedtuple("Answer", "status out err")
KINDS = ("memory", "thread", "open", "read", "write")
RECORD = struct.Struct("6q")
FROM_THERE_ON = 2**62
SECONDS = 60


class NoCompiler(Exception):
    """Neither cc nor the kit's clang is there."""


class Runs:
    """Runs commands, one at a time. What they print goes to files, so that only their end is waited for."""

    def __init__(self):
        self.files = [tempfile.TemporaryFile() for _ in range(3)]

    def run(self, command, folder, stdin=b"", environment=None):
        """What a command answers; the status is None where it gives no answer in time."""
        for file in self.files:
            file.seek(0)
            file.truncate()
        self.files[0].write(stdin)
        self.files[0].seek(0)
        child = subprocess.Popen(command, cwd=folder, env=environment, **dict(zip(("stdin", "stdout", "stderr"), self.files)))
        late = []
        signal.signal(signal.SIGALRM, lambda *_: (late.append(True), child.kill()))
        signal.alarm(SECONDS)
        status = child.wait()
        signal.alarm(0)
        for file in self.files:
            file.seek(0)
        return Answer(None if late else status, *(file.read() for file in self.files[1:]))


def compiler():
    """The command of a C compiler: cc, or the clang of the kit whose rt is on the PATH."""
    if shutil.which("cc"):
        return ["cc"]
    rt = shutil.which("rt")
    tools = pathlib.Path(rt or "/").resolve().parent.parent / "toolchain" / "bin"
    if not (rt and (tools / "clang").exists()):
        raise NoCompiler("neither cc nor a kit with its clang is on the PATH, so nothing can be refused")
    return [str(tools / "clang"), f"-fuse-ld={tools}/ld.lld"]


class Refusing:
    """Runs commands with refuse.c preloaded, which is compiled into a folder."""

    def __init__(self, folder):
        self.runs = Runs()
        self.library, self.counts = pathlib.Path(folder, "refuse.so"), pathlib.Path(folder, "counts")
        source = pathlib.Path(__file__).with_name("refuse.c")
        subprocess.run([*compiler(), "-O2", "-shared", "-fPIC", "-ffreestanding", "-nostdlib", str(source), "-o", str(self.library)], check=True)
        self.environment = {"LD_PRELOAD": str(self.library), "REFUSE": str(self.counts)}

    def run(self, command, folder, stdin=b"", room=-1, **refused):
        """The answer, and by kind of call how many were made and how many were refused.

        Each kind that is named has the numbers of the first and the last call to refuse, and for read
        and write how. Standard output has room for so many bytes, or for all.
        """
        wanted = [(*refused.get(kind, (0, 0)), 0)[:3] for kind in KINDS]
        self.counts.write_bytes(b"".join(RECORD.pack(*first_last_how, room, 0, 0) for first_last_how in wanted))
        answer = self.runs.run(command, folder, stdin, self.environment)
        told = dict(zip(KINDS, RECORD.iter_unpack(self.counts.read_bytes())))
        return answer, {kind: record[4] for kind, record in told.items()}, {kind: record[5] for kind, record in told.items()}
