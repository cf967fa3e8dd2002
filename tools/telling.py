"""Each half minute a command that runs long is told of."""
import subprocess
import time

EVERY = 30


def run(what, words, **how):
    """Status and output of a command, whose standard input is empty. What it does is told while it runs."""
    since = time.monotonic()
    with subprocess.Popen([*map(str, words)], stdin=subprocess.DEVNULL, stdout=subprocess.PIPE, stderr=subprocess.PIPE, text=True, errors="replace", **how) as process:
        while True:
            try:
                out, fault = process.communicate(timeout=EVERY)
            except subprocess.TimeoutExpired:
                print(f"{what}: still at it, after {time.monotonic() - since:.0f} s", flush=True)
            else:
                return subprocess.CompletedProcess(words, process.returncode, out, fault)
