"""Checks of logs that were cut or changed, of the lock, and of what is known to differ."""
import contextlib
import fcntl
import os
import signal
import struct
import subprocess
import tempfile

from beside import (
    BLOCK,
    KEY,
    SECONDS,
    WRITTEN,
    Programs,
    Wrong,
    check,
    copied,
    files_of,
    flip,
    held_by_leveldb,
    last_log,
    leveldb_reads,
    leveldb_writes,
    quickstart,
    refused,
    run,
    short,
    want,
    want_logs_alone,
    want_map,
)

LARGE_VALUE = "c3" * 16_000_000


# ---- a log that was cut


def cut_alike(room, lines, behind):
    """Cuts LevelDB's log at each of these numbers of bytes after its last record's start, and has
    both read it."""
    made = os.path.join(room, "made")
    leveldb_writes(made, lines[:-1])
    start = os.path.getsize(last_log(made))
    leveldb_writes(made, lines[-1:], "--reuse")
    end = os.path.getsize(last_log(made))
    for cut in sorted({start + more for more in behind(end - start)}):
        want_read_alike(made, cut)


def want_read_alike(made, cut):
    """Has both read a copy of the folder whose last log is cut to so many bytes."""
    with tempfile.TemporaryDirectory(prefix="interop-") as inner:
        folder = copied(made, inner)
        os.truncate(last_log(folder), cut)
        wanted = leveldb_reads(folder)
        before, _ = quickstart(folder)
        found = wanted.get(KEY, "none")
        want(before == found, f"cut at byte {cut} quickstart printed {short(before)}, LevelDB has {short(found)}")
        want_map(leveldb_reads(folder), {**wanted, KEY: WRITTEN})


@check("a torn tail: a record of one fragment, cut at each byte")
def torn_fragment(room):
    cut_alike(room, ["put 62 32", f"put {KEY} 3838", f"put {KEY} 3939"], lambda length: range(length + 1))


@check("a torn tail: a record of many fragments, cut at and around the ends of blocks")
def torn_fragments(room):
    def places(length):
        ends = range(BLOCK - 100, length, BLOCK)
        return [place for end in ends for place in range(end - 10, end + 120, 3) if place < length] + [0, 1, length - 1, length]

    cut_alike(room, ["put 62 32", f"put {KEY} 3838", f"put {KEY} {'d4' * 100_000}"], places)


@check("a torn tail: a first record, cut at each byte")
def torn_first(room):
    cut_alike(room, [f"put {KEY} 3939"], lambda length: range(length + 1))


@check("a torn tail: our log behind LevelDB's, cut at each byte")
def torn_ours(room):
    made = os.path.join(room, "made")
    leveldb_writes(made, ["put 62 32", f"put {KEY} 3838"])
    _, log = quickstart(made)
    for cut in range(len(log) + 1):
        want_read_alike(made, cut)


@check("a changed byte: both refuse the log")
def changed_byte(room):
    made = os.path.join(room, "made")
    leveldb_writes(made, [f"put {KEY} 3838", "put 62 32"])
    for at in (0, 3, 6, 9, 20):
        with tempfile.TemporaryDirectory(prefix="interop-") as inner:
            folder = copied(made, inner)
            flip(last_log(folder), at, 0x40)
            refused(folder, "Corrupt")
            ran = run([Programs.leveldb, "dump", folder])
            want(ran.returncode == 1, f"LevelDB reads a log whose byte {at} was changed")


# ---- the lock


@check("the lock: quickstart is refused while LevelDB holds the folder")
def quickstart_against_leveldb(room):
    folder = os.path.join(room, "folder")
    leveldb_writes(folder, [f"put {KEY} 3838"])
    with held_by_leveldb(folder):
        refused(folder, "Locked")
    before, _ = quickstart(folder)
    want(before == "3838", f"once LevelDB has let go, quickstart printed {short(before)}")


def is_locked(folder):
    """Says whether a process holds a lock on LOCK, without taking one."""
    wanted = struct.pack("hhqqi", fcntl.F_WRLCK, os.SEEK_SET, 0, 0, 0)
    try:
        with open(os.path.join(folder, "LOCK"), "rb+") as file:
            found = fcntl.fcntl(file, fcntl.F_GETLK, wanted)
    except FileNotFoundError:
        return False
    return struct.unpack("hhqqi", found)[0] != fcntl.F_UNLCK


@contextlib.contextmanager
def held_by_quickstart(folder):
    """Runs quickstart over a folder whose log takes it a while to read, and stops it with the
    database open while the body runs."""
    leveldb_writes(folder, [f"put 62 {LARGE_VALUE}"])
    want_logs_alone(folder)
    for _ in range(5):
        holder = subprocess.Popen([Programs.quickstart, folder], stdout=subprocess.PIPE, stderr=subprocess.PIPE, text=True)
        while not is_locked(folder) and holder.poll() is None:
            pass
        holder.send_signal(signal.SIGSTOP)
        if is_locked(folder):
            break
        holder.send_signal(signal.SIGCONT)
        holder.communicate(timeout=SECONDS)
    else:
        raise Wrong("quickstart was not caught with the database open")
    try:
        yield
        want(is_locked(folder), "quickstart did not hold the folder to the end of this check")
    finally:
        holder.send_signal(signal.SIGCONT)
        printed, complained = holder.communicate(timeout=SECONDS)
    want(holder.returncode == 0 and f"\n{WRITTEN}\n" in printed, f"quickstart did not go on: {short(complained)}")
    want_map(leveldb_reads(folder), {KEY: WRITTEN, "62": LARGE_VALUE})


@check("the lock: quickstart is refused while another quickstart holds the folder")
def quickstart_against_quickstart(room):
    folder = os.path.join(room, "folder")
    with held_by_quickstart(folder):
        refused(folder, "Locked")


@check("the lock: LevelDB is refused while quickstart holds the folder")
def leveldb_against_quickstart(room):
    folder = os.path.join(room, "folder")
    with held_by_quickstart(folder):
        ran = run([Programs.leveldb, "dump", "--reuse", folder])
        said = short(ran.stdout + ran.stderr)
        want(ran.returncode == 1 and "lock" in ran.stderr, f"LevelDB opened the folder, or was refused otherwise: {said}")


# ---- tables


@check("a folder with a table: the value that LevelDB wrote, and its next open has ours, twice in turns")
def turns_over_tables(room):
    folder = os.path.join(room, "folder")
    for value in ("3838", "3939"):
        leveldb_writes(folder, [f"put {KEY} {value}"])
        leveldb_writes(folder, [])
        want(files_of(folder, ".ldb") != [], "LevelDB made no table")
        before, _ = quickstart(folder)
        want(before == value, f"LevelDB put {value}, and quickstart printed {short(before)}")
        want_map(leveldb_reads(folder), {KEY: WRITTEN})


# ---- known differences


@check("known difference: a folder with a name that isn't UTF-8 is refused as Io")
def name_not_utf8(room):
    folder = os.path.join(room, "folder")
    leveldb_writes(folder, [f"put {KEY} 3838"])
    with open(os.path.join(os.fsencode(folder), b"a name \xff"), "wb"):
        pass
    refused(folder, "Io")
    want_map(leveldb_reads(folder), {KEY: "3838"})


@check("known difference: a folder of another comparator is refused as Unsupported")
def comparators(room):
    folder = os.path.join(room, "folder")
    leveldb_writes(folder, [f"put {KEY} 3838"], "--other-comparator")
    refused(folder, "Unsupported")


@check("known difference: files numbered 0 are refused as Corrupt")
def numbered_zero(room):
    folder = os.path.join(room, "folder")
    leveldb_writes(folder, [f"put {KEY} 3838"])
    (manifest,) = [name for name in os.listdir(folder) if name.startswith("MANIFEST-")]
    os.rename(os.path.join(folder, manifest), os.path.join(folder, "MANIFEST-000000"))
    with open(os.path.join(folder, "CURRENT"), "w", encoding="ascii") as current:
        current.write("MANIFEST-000000\n")
    want_map(leveldb_reads(folder), {KEY: "3838"})
    refused(folder, "Corrupt")
