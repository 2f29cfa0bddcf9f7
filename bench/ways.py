"""Reads beside LevelDB in each of its ways of reading a table. Each reads a copy of LevelDB's
folder, so that all read the same files."""
from pages import WAYS, put_between, ways_of
from sides import ROOT, WORKLOADS, by_turns

READS = [name for name, (_, writes) in WORKLOADS.items() if not writes]

# What LevelDB's twin is told (bench/leveldb_twin.cc). The first is as in the other tables, the
# second LevelDB's default, and the third what this database does.
MAPPED, UNVERIFIED, READ = "LevelDB mapped", "mapped, not verified", "by `pread`"
HOW = {MAPPED: (), UNVERIFIED: ("unverified",), READ: ("pread",)}


def read_in_each_way(workload, sides, rounds):
    """Returns a row: the name, and what this database and each way of LevelDB take."""
    ours, theirs = sides
    runs = {"ours": lambda: ours.run(workload, "same-settled")}
    for way, how in HOW.items():
        runs[way] = lambda how=how: theirs.run(workload, "same-settled", how)
    return workload, by_turns(f"{workload}, same files", runs, rounds)


def rows_of(workloads, sides, rounds):
    return [read_in_each_way(it, sides, rounds) for it in workloads if it in READS]


def both_read(rows):
    """Returns the rows in which both read tables by `pread`: a name, ours and LevelDB's."""
    return [(f"{workload}, both by pread", taken["ours"], taken[READ]) for workload, taken in rows]


def show(sides, rounds, told):
    """Writes the table into docs/SPEED.md, and returns its rows; `told` returns the line above
    it."""
    rows = rows_of(READS, sides, rounds)
    text = ways_of(rows)
    print(text)
    put_between(f"{ROOT}/docs/SPEED.md", WAYS, told() + "\n\n" + text)
    return rows
