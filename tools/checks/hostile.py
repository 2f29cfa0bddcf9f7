"""Checks of tools/checks/program over hostile directories: lengths, offsets and counts beyond all
bounds. Whatever `check`, `dump` and `run` answer, they answer it within a processor second and 64
MB."""
import os
import signal
import struct
import subprocess
import sys
import threading

from files import ONE_TABLE, Manifest, hexadecimal, internal_key, log_of, masked, record, stored, string, varint, write_directory
from listed import Wrong, check
from running import SECONDS, under_test, want

A_SECOND = 1.0
MEGABYTES = 64

CORRUPT = "refused 5 Corrupt"


# ---- tables


def with_footer(metaindex, index):
    """Returns the one-entry table with these two handles in its footer, each an offset and a
    length."""
    handles = b"".join(map(varint, (*metaindex, *index)))
    return ONE_TABLE[:128] + handles + bytes(40 - len(handles)) + ONE_TABLE[-8:]


def with_index(offset, length):
    """Returns the one-entry table, whose index names a data block there."""
    handle = varint(offset) + varint(length)
    entry = varint(0) + varint(9) + varint(len(handle)) + internal_key("61", 1) + handle
    index = entry + struct.pack("<II", 0, 1)
    footer = varint(49) + varint(47) + varint(101) + varint(len(index))
    return ONE_TABLE[:101] + stored(index) + footer + bytes(40 - len(footer)) + ONE_TABLE[-8:]


# the handles that the footer of the one-entry table has
METAINDEX, INDEX = (49, 47), (101, 22)
assert with_footer(METAINDEX, INDEX) == ONE_TABLE and with_index(0, 21) == ONE_TABLE

# the end of that table, and lengths that no file has
FAR = (176, 2**31, 2**32, 2**32 + 22, 2**63, 2**64 - 1, 2**64 - 5)

TABLES = {f"{name} at {offset}, {length} bytes": table(offset, length) for offset in (0, *FAR) for length in (22, *FAR) for name, table in (
    ("metaindex", lambda offset, length: with_footer((offset, length), INDEX)),
    ("index", lambda offset, length: with_footer(METAINDEX, (offset, length))),
    ("data", with_index),
)}  # fmt: skip


# ---- directories


def directory(manifest=None, log=b"", **files):
    """Returns the files of a database whose MANIFEST has these bytes, or says log 3, next file 6,
    last sequence 1 and no table."""
    return {"CURRENT": b"MANIFEST-000001\n", "MANIFEST-000001": record(hexadecimal("02 03 03 06 04 01")) if manifest is None else manifest,
            "000003.log": log, **files}  # fmt: skip


def with_one_table(table, said=None):
    """Returns the table 5 of level 6, for which the MANIFEST says this length."""
    manifest = Manifest(log=3, next_file=6, last_sequence=1, tables=[(6, 5, len(table) if said is None else said, ("61", 1), ("61", 1))])
    return directory(manifest.file(), **{"000005.ldb": table})


def edit(text):
    return directory(record(hexadecimal("02 03 03 06 04 01") + text))


def logged(text):
    return directory(log=record(text))


BATCH = struct.pack("<QI", 1, 1)

MANY = 100_000


def listed(number):
    """Returns a table of this number in level 6, with one key, which rises with the number."""
    key = internal_key(f"{number:08x}", 1)
    return b"\x07\x06" + varint(number) + varint(len(ONE_TABLE)) + 2 * string(key)


def many_tables(tables_in_edits):
    """Returns a MANIFEST that lists tables whose files aren't there."""
    return directory(log_of([hexadecimal("02 03") + b"\x03" + varint(MANY + 6) + b"\x04\x01", *tables_in_edits]))


NUMBERS = range(5, MANY + 5)

# files, what a check prints first, and the answer to an open, which reads no table
DIRECTORIES = {
    **{f"a table with its {name}": (with_one_table(table), CORRUPT, "ok") for name, table in TABLES.items()},
    **{f"a table of which the MANIFEST says {said} bytes": (with_one_table(ONE_TABLE, said), CORRUPT, CORRUPT) for said in FAR[1:]},
    **{f"an edit with a key of {length} bytes": (edit(b"\x07\x06\x05\xb0\x01" + varint(length)), CORRUPT, CORRUPT) for length in FAR},
    **{f"an edit with a comparator of {length} bytes": (edit(b"\x01" + varint(length)), CORRUPT, CORRUPT) for length in FAR},
    **{f"a batch of {count} operations": (logged(struct.pack("<QI", 1, count)), CORRUPT, CORRUPT) for count in (2**31, 2**32 - 1)},
    **{f"a batch with a key of {length} bytes": (logged(BATCH + b"\x01" + varint(length)), CORRUPT, CORRUPT) for length in FAR},
    **{f"a batch with a value of {length} bytes": (logged(BATCH + b"\x01\x01a" + varint(length)), CORRUPT, CORRUPT) for length in FAR},
    "a record of 65,535 bytes in a log of seven": (directory(log=masked(b"\x01") + b"\xff\xff\x01"), CORRUPT, CORRUPT),
    "a log by a number of 30 digits": (directory(**{"1" * 30 + ".log": b"\xff"}), "good", "ok"),
    "a table by a number of 30 digits": (directory(**{"9" * 30 + ".ldb": b"\xff"}), "good", "ok"),
    f"a MANIFEST of {MANY} tables in one edit": (many_tables([b"".join(map(listed, NUMBERS))]), CORRUPT, CORRUPT),
    f"a MANIFEST of {MANY} tables, from the last to the first": (many_tables([b"".join(map(listed, reversed(NUMBERS)))]), CORRUPT, CORRUPT),
    f"a MANIFEST of {MANY} tables in an edit each, from the last to the first": (many_tables(map(listed, reversed(NUMBERS))), CORRUPT, CORRUPT),
    "a MANIFEST by a number of 30 digits": ({"CURRENT": b"MANIFEST-" + b"1" * 30 + b"\n", "MANIFEST-" + "1" * 30: b""}, CORRUPT, CORRUPT),
}


# ---- files that go on with zeros


GIGABYTE = 2**30


# a block of a log: the put of a value that fills it
WHOLE_BLOCK = record(BATCH + b"\x01\x01a" + varint(32_743) + bytes(32_743))
assert len(WHOLE_BLOCK) == 32_768

# The files, and the one whose bytes are followed by zeros up to a gigabyte. They are refused, and
# none of them is read whole.
ENDLESS = {
    "a log of a gigabyte of zeros": (directory(), "000003.log"),
    "a log of one batch and a gigabyte of zeros": (logged(BATCH + b"\x01\x01a\x011"), "000003.log"),
    "a log of two megabytes and a gigabyte of zeros": (directory(log=WHOLE_BLOCK * 64), "000003.log"),
    "a MANIFEST with a gigabyte of zeros behind it": (directory(), "MANIFEST-000001"),
    "a CURRENT with a gigabyte of zeros behind it": (directory(), "CURRENT"),
}


# ---- what is measured


# A process counts as its own the memory that its parent had when it forked. So a small process in
# between starts the program and reports what it took.
MEASURE = """
import os, sys
silent = [(os.POSIX_SPAWN_OPEN, 2, os.devnull, os.O_WRONLY, 0)]
_, status, usage = os.wait4(os.posix_spawn(sys.argv[1], sys.argv[1:], os.environ, file_actions=silent), 0)
print(os.waitstatus_to_exitcode(status), usage.ru_utime + usage.ru_stime, usage.ru_maxrss / 1024, file=sys.stderr)
"""


def measured(words, script):
    """Returns what a run printed, its status, and the processor seconds and megabytes that it
    took."""
    command = [sys.executable, "-S", "-E", "-c", MEASURE, under_test(), *words]
    with subprocess.Popen(command, stdin=subprocess.PIPE, stdout=subprocess.PIPE, stderr=subprocess.PIPE, start_new_session=True) as process:
        killer = threading.Timer(SECONDS, os.killpg, (process.pid, signal.SIGKILL))
        killer.start()
        printed, told = process.communicate(script)
        killer.cancel()
    status, seconds, megabytes = told.split() or (b"-9", b"inf", b"inf")
    return printed.decode().splitlines(), int(status), float(seconds), float(megabytes)


OPENED = ["open any", "get 61", "iter", "first 1", "put 61 32", "compact all", "get 61", "close"]


def want_within_bounds(folder, name, report, opened):
    """Checks what a check prints first and an open is answered, and that a dump says no more than a
    check; all within the bounds."""
    for verb, script, status, first in (("check", [], int(report != "good"), report), ("dump", [], int(report != "good"), None), ("run", OPENED, 0, opened)):
        printed, found, seconds, megabytes = measured([verb, folder], "".join(f"{line}\n" for line in script).encode())
        what = f"{verb} of {name}"
        if seconds > A_SECOND or megabytes > MEGABYTES:
            raise Wrong(f"{what} took {seconds:.2f} s and {megabytes:.0f} MB")
        want(found, status, f"the status of {what}")
        if verb == "dump":
            want(printed[-1:], [] if report == "good" else [report], what)
        else:
            want(printed[0], first, what)
        if verb == "run":
            want(len(printed), len(OPENED), f"the answers to {what}")


@check("lengths, offsets and counts beyond all bounds are refused within a second and 64 MB")
def beyond_bounds(room):
    for number, (name, (files, *wanted)) in enumerate(DIRECTORIES.items()):
        want_within_bounds(write_directory(room, f"{number}", None, files), name, *wanted)


@check("files with a gigabyte of zeros in them are refused within a second and 64 MB")
def without_end(room):
    for number, (name, (files, endless)) in enumerate(ENDLESS.items()):
        folder = write_directory(room, f"endless-{number}", None, files)
        os.truncate(os.path.join(folder, endless), GIGABYTE)
        want_within_bounds(folder, name, CORRUPT, CORRUPT)
