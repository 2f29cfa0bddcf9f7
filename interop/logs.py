"""Checks of logs: LevelDB reads what quickstart writes, and quickstart what LevelDB writes."""
import os

from beside import (
    BLOCK,
    FRAGMENT_HEADER,
    KEY,
    WRITTEN,
    check,
    last_log,
    leveldb_reads,
    leveldb_writes,
    new_folder,
    operations_in,
    quickstart,
    read_and_go_on,
    sequence_of,
    short,
    want,
    want_map,
)


def theirs(name, opens):
    """Returns a folder that LevelDB made in some opens, with its state in logs alone, each open
    with these lines."""

    @check(f"theirs to ours: {name}")
    def read(room):
        folder = os.path.join(room, "folder")
        for lines in opens:
            leveldb_writes(folder, lines, "--reuse")
        read_and_go_on(folder, operations_in(opens))


# ---- from quickstart to LevelDB


@check("ours to theirs: a fresh folder holds exactly the pair")
def fresh_folder(room):
    folder = new_folder(room)
    before, _ = quickstart(folder)
    want(before == "none", f"quickstart printed {short(before)} for a fresh folder")
    want_map(leveldb_reads(folder), {KEY: WRITTEN})
    want_map(leveldb_reads(folder, "--reuse"), {KEY: WRITTEN})


@check("ours to theirs: the log is byte for byte the one that LevelDB writes")
def same_log(room):
    ours, other = new_folder(room), os.path.join(room, "other")
    _, log = quickstart(ours)
    leveldb_writes(other, [f"put {KEY} {WRITTEN}"])
    with open(last_log(other), "rb") as file:
        wanted = file.read()
    want(log == wanted, f"LevelDB's log is {wanted.hex()}, ours {log.hex()}")
    with open(last_log(ours), "rb") as file:
        want(file.read() == log, "the log that quickstart printed is not the one in the folder")


@check("ours to theirs: two runs of quickstart, and more")
def many_runs(room):
    folder = new_folder(room)
    quickstart(folder)
    for run_number in range(2, 6):
        before, log = quickstart(folder)
        want(before == WRITTEN, f"run {run_number} printed {short(before)} for what the one before it wrote")
        want(sequence_of(log) == run_number, f"run {run_number} wrote at sequence {sequence_of(log)}")
        want_map(leveldb_reads(folder), {KEY: WRITTEN})


@check("ours to theirs: LevelDB writes to the folder between two runs")
def leveldb_between(room):
    folder = new_folder(room)
    quickstart(folder)
    leveldb_writes(folder, [f"put {KEY} 3939", "put 62 32", "del 63"], "--reuse")
    read_and_go_on(folder, 4)


@check("ours to theirs: read by Python's plyvel")
def by_plyvel(room):
    import plyvel

    folder = new_folder(room)
    quickstart(folder)
    quickstart(folder)
    database = plyvel.DB(folder, create_if_missing=False, paranoid_checks=True, compression=None)
    try:
        found = list(database.iterator(verify_checksums=True))
    finally:
        database.close()
    want(found == [(bytes.fromhex(KEY), bytes.fromhex(WRITTEN))], f"plyvel finds {found}")


# ---- from LevelDB to quickstart

theirs("a fresh database with a few writes", [["put 62 3232", f"put {KEY} 6f6e65", "put 63 33"]])
theirs("a database without the key", [["put 60 00", "put 62 00", "del 62"]])
theirs("overwrites", [[f"put {KEY} {n:02x}" for n in range(200)]])
theirs("a delete of the key", [[f"put {KEY} 3939", "put 62 32", f"del {KEY}"]])
theirs("a delete, and the key again", [[f"put {KEY} 3939", f"del {KEY}", f"put {KEY} 3838", "del 64"]])
theirs(
    "one batch over many blocks of the log",
    [
        [
            "begin",
            *[f"put {n:08x} {n:08x}{'ab' * 100}" for n in range(3000)],
            f"put {KEY} 77",
            *[f"del {n:08x}" for n in range(0, 3000, 3)],
            "end",
        ]
    ],
)
theirs(
    "one batch that says a key many times",
    [["begin", *[line for n in range(50) for line in (f"put {KEY} {n:02x}", f"del {KEY}")], f"put {KEY} fe", "end"]],
)
theirs("a value over many blocks of the log", [["put 62 32", f"put {KEY} {'c3' * 100_000}", "put 63 33"]])
theirs(
    "keys and values of any bytes, and empty ones",
    [["put - -", "put 00 ff", "put ff 00", f"put {KEY} {bytes(range(256)).hex()}", f"put {KEY}00 -", f"put {KEY}61 6161", "put - 00"]],
)
theirs("an empty value at the key", [[f"put {KEY} 3838", f"put {KEY} -"]])
theirs("two opens of one log", [["put 62 32", f"put {KEY} 01"], [f"put {KEY} 02", "put 63 33"]])
theirs("two opens, the first without writes", [[], [f"put {KEY} 05"]])
theirs("four opens of one log, a delete in the last", [[f"put {KEY} 01"], ["put 62 32"], [f"put {KEY} 02"], ["del 62"]])


@check("theirs to ours: a block of the log that ends with 0 to 8 bytes left")
def block_ends(room):
    for left in range(9):
        # the header of a fragment, of a batch and of a put with a key of one byte and a length of
        # three bytes
        length = BLOCK - left - FRAGMENT_HEADER - 12 - 1 - 2 - 3
        folder = os.path.join(room, str(left))
        leveldb_writes(folder, [f"put 62 {'5a' * length}", f"put {KEY} 0{left}"])
        read_and_go_on(folder, 2)
