"""The plain judge of bench/judge_speed, as a second opinion on verdicts."""
import pathlib
import shutil
import subprocess

SOURCE = pathlib.Path(__file__).resolve().parents[2] / "bench" / "judge_speed" / "plain.rs"


def built(folder):
    """The plain judge, built into a folder; nothing where no rustc is there, or none that runs."""
    if not shutil.which("rustc") or subprocess.run(["rustc", "--version"], check=False, capture_output=True).returncode:
        return None
    path = str(pathlib.Path(folder, "plain"))
    subprocess.run(["rustc", "--edition", "2024", "-o", path, str(SOURCE)], check=True)
    return path


def differs(answer, plain):
    """Whether two answers to three texts differ. The plain judge takes programs that aren't lawful, ends with
    status 2 where a table has a fault, and has no fault lines."""
    if answer.status != 2:
        return (plain.status, plain.out) != (answer.status, answer.out)
    return answer.err.startswith((b"fault externals", b"fault trace")) and plain.status != 2
