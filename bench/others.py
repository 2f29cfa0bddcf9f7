"""The workloads over LevelDB, goleveldb, RocksDB and LMDB, beside this database."""
import os

from pages import OTHERS, others_of, put_between
from sides import ROOT, Side, by_turns, headline, load, measured, number_of, proved_program, say, twin

NAMES = ("LevelDB", "goleveldb", "RocksDB", "LMDB")

COMPARED = (
    "fillseq",
    "fillbatch",
    "fillrandom",
    "overwrite",
    "deleterandom",
    "readrandom",
    "readmissing",
    "readhot",
    "readseq",
    "readreverse",
    "seekrandom",
    "open",
)


def megabytes(side):
    """Returns the MB of a side's settled files after an open, in which goleveldb removes what it
    has merged."""
    measured([side.program, "open", str(side.number), f"{side.room}/settled"])
    return sum(it.stat().st_size for it in os.scandir(f"{side.room}/settled")) / 1e6


def rows_of(sides, rounds):
    rows = []
    for workload in COMPARED:
        runs = {it.name: lambda it=it: it.run(workload) for it in sides}
        rows.append((workload, by_turns(workload, runs, rounds)))
    return rows


def show():
    number, rounds = number_of("N", 1_000_000), number_of("ROUNDS", 3)
    sides = [Side("ours", proved_program(), number), *(Side(it, twin(it), number) for it in NAMES)]
    begun = load()
    for side in sides:
        say(f"filling the folders of {side.name}")
        side.prepare()
    sizes = {it.name: megabytes(it) for it in sides}
    text = others_of(rows_of(sides, rounds), sizes)
    print(text)
    told = headline(f"Wall time / processor time in seconds, N = {number:,}", rounds, begun, NAMES)
    put_between(f"{ROOT}/bench/README.md", OTHERS, told + "\n\n" + text)
    for side in sides:
        side.remove()
