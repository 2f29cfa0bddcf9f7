"""What `ldbtool check` and `ldbtool dump` of a settled folder take, beside the nearest that LevelDB
has."""
import os
import statistics
import subprocess

from pages import CHECKS, put_between, taken_of
from sides import ROOT, fail, measured, say


def tool():
    """Returns the command of this repository: LDBTOOL, or what `make build` makes."""
    given = os.path.abspath(os.environ.get("LDBTOOL") or f"{ROOT}/build/ldbtool")
    if not os.path.isfile(given) and subprocess.run(["make", "--no-print-directory", "build"], cwd=ROOT).returncode:
        fail("ldbtool was not built")
    return given


def lines_of(command):
    """Counts the lines that a program prints."""
    with subprocess.Popen(command, stdout=subprocess.PIPE) as run:
        count = sum(piece.count(b"\n") for piece in iter(lambda: run.stdout.read(1 << 20), b""))
    if run.returncode:
        fail(f"{' '.join(command)} ended with status {run.returncode}")
    return count


def same_entries(check, dump, walk, theirs):
    """Stops if the four don't tell of as many entries. A settled folder has one for each key."""
    report, _ = measured(check)
    good, *files = report.splitlines()
    if good != "good":
        fail(f"{' '.join(check)} prints {good}")
    counts = {"check": sum(int(it.split()[3]) for it in files if it.startswith("table "))}
    counts["dump"] = lines_of(dump)
    counts["LevelDB's walk"] = int(measured(walk)[0].partition("entries=")[2].split()[0])
    # (the last line of a twin is what it counted)
    counts["LevelDB's dump"] = lines_of(theirs) - 1
    if len(set(counts.values())) > 1:
        fail(f"of one folder there are entries: {counts}")


def rows_of(sides, rounds):
    """Measures each over the same files. What is printed goes to /dev/null."""
    ours, theirs = (f"{it.room}/same-settled" for it in sides)
    words = (sides[1].program, "readseq", str(sides[1].number), theirs), (sides[1].program, "dump", "1", theirs)
    check, dump, walk, printed = [tool(), "check", ours], [tool(), "dump", ours], [*words[0]], [*words[1]]
    same_entries(check, dump, walk, printed)
    commands = {
        "`ldbtool check`": check,
        "LevelDB's walk, with checksums verified": walk,
        "`ldbtool dump`": dump,
        "LevelDB's `DumpFile` of each table and log": printed,
    }
    taken = {name: [] for name in commands}
    for _ in range(rounds):
        for name, command in commands.items():
            taken[name].append(measured(command, silent=True)[1])
    rows = [(name, tuple(map(statistics.median, zip(*it)))) for name, it in taken.items()]
    for name, (wall, processor, memory) in rows:
        say(f"{name}: {wall:.3f} s, {processor:.3f} s of processors, {memory:.1f} MB")
    return rows


def show(sides, rounds, told):
    """Writes the table into docs/SPEED.md; `told` returns the line above it."""
    text = taken_of(rows_of(sides, rounds))
    print(text)
    put_between(f"{ROOT}/docs/SPEED.md", CHECKS, told() + "\n\n" + text)
