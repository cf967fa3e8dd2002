"""The parts of the gate beside `rt ci`. tools/quick runs them; .ci/run calls it before the proof, and again behind it.

PROGRAM stands for the program that a part asks. The scripts of the examples find it in LFTRACE.
"""

# Of the sources alone.
SOURCES = (
    "tools/index check",
    "tools/shorter-uses --check",
    "tools/try-edits --apply",
)

# Of the reader of the cases that no command shows.
READER = ("tools/cases --reader PROGRAM",)

# Of lftrace, and of the proved program once more: on the command line, the exit statuses, the words of faults, and
# what comes where memory, files and stack are refused, no contract decides.
OF_BOTH = (
    "tools/cases PROGRAM",
    "tools/refuse-each PROGRAM",
)

# Of lftrace without a proof, which is compiled from the same code.
LFTRACE = (
    *OF_BOTH,
    "tools/check-words PROGRAM",
    "examples/seeing/check",
    "examples/pipeline/check",
    "examples/importers/check",
    "examples/recorder/run 20",
    "examples/work_stealing/run 20 4 15000",
    "examples/work_stealing/blame 5",
    "examples/starts_and_ends/run 20",
    "examples/engines/run 5",
    "examples/systemc/run",
    "tools/generated-cases PROGRAM",
    "tools/follow-cases --cases 40 PROGRAM",
    "tools/follow-bounds PROGRAM",
    "tools/lowered-by-chance PROGRAM",
    "tools/core-texts PROGRAM",
)
