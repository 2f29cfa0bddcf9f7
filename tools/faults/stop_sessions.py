"""Sessions of ldbtool for tools/faults/stops, written down and drawn.

They are so short that each state that may be left of them can be opened.
"""
import itertools
from dataclasses import dataclass

from machine import word

# each begins in an empty folder: its name, the options, and its runs one behind the other
SESSIONS = [
    ("a log alone", "", ["open new; put 61 01; write sync put 62 02 del 61; write; del 62; put 63 03; write sync put 61 04; close"]),
    ("an empty database, opened again and again", "", ["open new; close; open; close; open; put 61 01; close; open; close", "open; close"]),
    ("flushes", "--write-buffer 1", [
        "open new; write sync put 61 01; work 9; work 9; put 62 02; work 9; put 63 03; work 9; write sync put 61 04; work 9; work 9; close",
        "open; put 62 05; work 9; work 9; write sync del 61; close",
    ]),
    ("a compaction in steps", "--write-buffer 1 --level0-files 2", [
        "open new; write sync put 61 01 put 62 01; work 9; work 9; write sync put 62 02 put 63 02; work 9; work 9; work 1; work 1; write sync put 64 03; "
        "work 1; work 9; work 9; write sync del 62; close",
        "open; work 9; work 9; work 9; work 9; close",
    ]),
    ("a file for each key, and levels", "--write-buffer 1 --file-bytes 1 --level0-files 1 --base-bytes 400", [
        "open new; write sync put 61 01 put 62 02 put 63 03; work 9; work 9; work 9; work 9; work 9; write sync put 64 04 del 61; work 9; work 9; work 9; "
        "work 9; work 9; close",
    ]),
    ("all compacted", "", [
        "open new; put 61 01; put 62 02; compact all; write sync put 61 03; compact all; del 62; compact all; compact all; close",
        "open; put 63 04; compact all; write sync put 62 05; close",
    ]),
    ("runs that end open", "--write-buffer 1", ["open new; put 61 01; work 9", "open; put 62 02; work 9; work 9; put 63 03", "open; write sync put 61 04"]),
    ("another process between two opens", "--write-buffer 1", [
        "open new; write sync put 61 01; put 62 02; work 9; close; other: open, put 63 03, work 9, work 9, write sync del 61, compact all, close; "
        "open; write sync put 64 04; work 9; work 9; close; other: open, put 65 05, close; open; put 66 06; work 9; work 9; close",
    ]),
    ("a batch over blocks of a log", "", [f"open new; write sync put 61 01 put 62 {'02' * 40_000}; put 63 {'03' * 33_000}; write sync del 62; close; open; close"]),
]  # fmt: skip

# into the calls of these runs bugs are planted
PLANTED = [*SESSIONS[2][2], "open; close"]


# In each of these one call of the system is refused: its options and its lines. After an open that
# is refused another one follows.
REFUSED = {
    "opens": ("", "open any; open any; write sync put 61 01; put 62 02; close; open any; open any; put 63 03; close; open any; open any; write sync del 61; close"),
    "work": ("--write-buffer 1 --level0-files 2", "open any; open any; write sync put 61 01; work 9; work 9; close; open any; open any; put 62 02; work 9; work 9; work 9; "
        "close; open any; open any; write sync put 63 03; work 9; work 9; put 64 04; close; open any; open any; close"),
}  # fmt: skip


# imports, at whose end all lines are on disk: the options, and how many lines
IMPORTS = [("--batch 2", 4), ("--batch 2", 5), ("--batch 1", 3), ("--batch 1 --write-buffer 1", 4), ("", 3), ("", 0)]


@dataclass(frozen=True)
class Case:
    """A session for one thing that a power loss could do, from one of its lines on.

    It says whether names reach the disk in any order.
    """

    options: str
    script: str
    line: int
    is_unordered: bool = False


CASES = {
    "a log that is sealed, behind a write with sync": Case("--write-buffer 1", "open new; put 61 01; work 9; write sync put 62 02; close", 4),
    "a log that is sealed": Case("--write-buffer 1", "open new; put 61 01; work 9; put 62 02; close", 0),
    "a log that an open keeps, behind a write with sync": Case("", "open new; put 61 01; close; open; write sync put 62 02; close", 5),
    "a log that an open keeps": Case("", "open new; put 61 01; close; open; put 62 02; close", 0),
    "a log that an open keeps, behind the open": Case("--write-buffer 1", "open new; put 61 01; close; open; work 9; work 9; work 9; close", 4),
    "CURRENT at a first open, on a device to which names come in any order": Case("", "open new; close", 0, True),
    "CURRENT at an open, on a device to which names come in any order": Case("", "open new; write sync put 61 01; close; open; close", 3, True),
}


# ---- drawn sessions

# what their options are drawn from
OPTIONS = {
    "--write-buffer": (1, 1, 200, 1_000), "--block-bytes": (1, 64, 4_096), "--file-bytes": (1, 300, 2_097_152), "--level0-files": (1, 2, 4),
    "--base-bytes": (1, 400, 10_485_760),
}  # fmt: skip
KEYS = [b"a", b"b", b"c", b"ab", b"abc", b""]


def drawn_options(chance):
    return [text for name, sizes in OPTIONS.items() for text in (name, str(chance.choice(sizes)))]


def drawn_runs(chance, runs, commands):
    """Scripts one after the other over one folder, of so many commands. Each value is new."""
    numbers = itertools.count(chance.randrange(2**16))
    return ["; ".join(["open any", *drawn_lines(chance, numbers, commands), *chance.choice((["close"], []))]) for _ in range(runs)]


def drawn_lines(chance, numbers, commands):
    kinds = {"put": 6, "write": 6, "work": 9, "work to the end": 1, "compact": 1, "open": 1.5}
    return [line for kind in chance.choices([*kinds], [*kinds.values()], k=commands) for line in drawn_command(chance, numbers, kind)]


def drawn_command(chance, numbers, kind):
    """A line or a few."""
    if kind == "put":
        return [drawn_put(chance, numbers)]
    if kind == "write":
        return [" ".join([chance.choice(("write", "write sync")), drawn_put(chance, numbers), *drawn_rest(chance, numbers)])]
    if kind == "work":
        return [f"work {chance.choice((1, 2, 9))}"]
    if kind == "work to the end":
        return ["work 100"] * 6
    if kind == "compact":
        return [f"compact {chance.choice((0, 1, 2, 'all'))}"]
    return ["close", "open"]


def drawn_rest(chance, numbers):
    """More operations of a batch."""
    count = chance.choice((0, 0, 1, 4))
    return [f"del {word(chance.choice(KEYS))}" if chance.random() < 0.4 else drawn_put(chance, numbers) for _ in range(count)]


def drawn_put(chance, numbers):
    length = chance.choice((0, 0, 8, 40, 300))
    return f"put {word(chance.choice(KEYS))} {next(numbers):06x}{'ee' * length}"
