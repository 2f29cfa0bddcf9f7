"""What the checks of this folder share: their list, the programs under test, LevelDB, and
folders."""
import contextlib
import functools
import os
import re
import shutil
import struct
import subprocess
import sys
import tempfile

sys.path[1:1] = [f"{sys.path[0]}/../tools{it}" for it in ("", "/checks", "/faults")]
from files import BLOCK, bytes_of, new_folder  # noqa: F401
from judged import pairs_of  # noqa: F401
from listed import CHECKS, Wrong, check, parser, run_checks  # noqa: F401
from machine import word  # noqa: F401
from running import SECONDS


class Order:
    """Holds an order of keys: how ldbtool and LevelDB are told it, and whether it is the reverse
    order of bytes."""

    def __init__(self, ours, theirs, turned):
        self.ours, self.theirs, self.turned = ours, theirs, turned


BYTES = Order((), (), False)
REVERSE = Order(("--order", "reverse"), ("--reverse",), True)


class Programs:
    """Holds the programs under test, and LevelDB behind its command line. Whoever runs the checks
    says where they are. ldbtool and LevelDB work in the order that stands here."""

    quickstart = ldbtool = leveldb = ""
    order = BYTES


def in_reverse(function):
    """Returns the same check with all keys in the reverse order of bytes."""

    @functools.wraps(function)
    def turned(room):
        Programs.order = REVERSE
        try:
            return function(room)
        finally:
            Programs.order = BYTES

    return turned


# what quickstart writes
KEY = "61"
WRITTEN = "31"

FRAGMENT_HEADER = 7


def want(holds, text):
    if not holds:
        raise Wrong(text)


def short(text):
    text = text.strip().replace("\n", " | ")
    return text if len(text) <= 160 else text[:157] + "..."


def joined(lines):
    return "".join(f"{line}\n" for line in lines)


# ---- the programs


def run(words, **how):
    return subprocess.run(words, capture_output=True, text=True, timeout=SECONDS, **how)


def ldbtool(verb, folder, script=None, flags=()):
    return run([Programs.ldbtool, verb, *Programs.order.ours, *flags, folder], input=script)


def prints(verb, folder, script=None, flags=()):
    """Returns what ldbtool prints over a folder that it must accept."""
    ran = ldbtool(verb, folder, script, flags)
    want(ran.returncode == 0, f"ldbtool {verb} ended with status {ran.returncode}: {short(ran.stdout + ran.stderr)}")
    # (except why something was refused)
    said = [it for it in ran.stderr.splitlines() if "refused" not in ran.stdout or not it.startswith("ldbtool: ")]
    want(said == [], f"ldbtool {verb} complained: {short(ran.stderr)}")
    return ran.stdout


def want_answers(folder, script, wanted, whose, flags=()):
    """Runs a script, one answer a line, over the folder itself."""
    want_lines(prints("run", folder, joined(script), flags), joined(wanted), whose)


def quickstart(folder):
    """Runs the program under test over a folder that it must accept. Returns the value before, and
    the log."""
    ran = run([Programs.quickstart, folder])
    want(ran.returncode == 0, f"quickstart ended with status {ran.returncode}: {short(ran.stderr)}")
    lines = ran.stdout.split("\n")
    want(len(lines) == 4 and lines[3] == "", f"quickstart printed {len(lines) - 1} lines, not 3: {short(ran.stdout)}")
    want(lines[1] == WRITTEN, f"quickstart printed {short(lines[1])} for the value that it had just written")
    return lines[0] or "-", bytes.fromhex(lines[2])


def refused(folder, name):
    """Runs the program under test over a folder that it must refuse by this name, and leave as it
    is."""
    before = contents(folder)
    ran = run([Programs.quickstart, folder])
    want(ran.returncode == 1, f"quickstart ended with status {ran.returncode}, not 1: {short(ran.stdout + ran.stderr)}")
    want(re.search(rf"\b{name}\b", ran.stderr) is not None, f"quickstart was refused, but not with {name}: {short(ran.stderr)}")
    want(ran.stdout == "", f"a refused quickstart printed {short(ran.stdout)}")
    want(contents(folder) == before, "a refused quickstart changed the folder")


def leveldb(verb, folder, *flags, lines=()):
    """Returns what LevelDB prints, over the folder itself."""
    ran = run([Programs.leveldb, verb, *Programs.order.theirs, *flags, folder], input=joined(lines))
    want(ran.returncode == 0, f"LevelDB did not {verb}: {short(ran.stderr)}")
    return ran.stdout


def leveldb_writes(folder, lines, *flags):
    leveldb("write", folder, *flags, lines=lines)


def leveldb_reads(folder, *flags):
    """Returns what LevelDB finds in a copy of the folder, as a map."""
    with tempfile.TemporaryDirectory(prefix="interop-") as room:
        printed = leveldb("dump", copied(folder, room), *flags)
    pairs = [line.split(" ") for line in printed.splitlines()]
    keys = [bytes.fromhex(key.replace("-", "")) for key, _ in pairs]
    want(keys == sorted(set(keys), reverse=Programs.order.turned), "LevelDB's keys do not rise")
    return dict(pairs)


@contextlib.contextmanager
def held_by_leveldb(folder):
    """Has LevelDB hold the folder open while the body runs."""
    words = [Programs.leveldb, "hold", *Programs.order.theirs, "--reuse", folder]
    with subprocess.Popen(words, stdin=subprocess.PIPE, stdout=subprocess.PIPE, text=True) as holder:
        want(holder.stdout.readline() == "held\n", "LevelDB did not open the folder")
        yield


# ---- folders


def copied(folder, room):
    return shutil.copytree(folder, os.path.join(room, "copy"))


def contents(folder):
    """Returns the names and bytes of a folder, without LevelDB's text file LOG and the empty
    LOCK."""
    found = {}
    for name in sorted(os.listdir(folder)):
        if name not in ("LOG", "LOG.old", "LOCK"):
            with open(os.path.join(folder, name), "rb") as file:
                found[name] = file.read()
    return found


def files_of(folder, ending):
    return sorted(name for name in os.listdir(folder) if name.endswith(ending))


def flip(path, place, mask):
    with open(path, "r+b") as file:
        file.seek(place)
        byte = file.read(1)[0]
        file.seek(place)
        file.write(bytes([byte ^ mask]))


def last_log(folder):
    return os.path.join(folder, files_of(folder, ".log")[-1])


def want_logs_alone(folder):
    tables = files_of(folder, ".ldb") + files_of(folder, ".sst")
    want(not tables, f"the folder has tables, so this check would say nothing: {tables}")


def sequence_of(log):
    """Returns the sequence of the one batch of a log that quickstart has just made."""
    want(len(log) >= FRAGMENT_HEADER + 8, f"the log has {len(log)} bytes")
    return struct.unpack_from("<Q", log, FRAGMENT_HEADER)[0]


def operations_in(opens):
    return sum(line.startswith(("put", "del")) for lines in opens for line in lines)


# ---- what was found


def want_map(found, wanted):
    more = {key: value for key, value in found.items() if wanted.get(key) != value}
    less = {key: value for key, value in wanted.items() if found.get(key) != value}
    want(not more and not less, f"LevelDB finds {short(str(more))} in place of {short(str(less))}")


def want_lines(found, wanted, whose):
    if found != wanted:
        found, wanted = found.splitlines(), wanted.splitlines()
        less = [line for line in wanted if line not in set(found)] or wanted
        more = [line for line in found if line not in set(wanted)] or found
        raise Wrong(f"{whose}: {len(found)} lines in place of {len(wanted)}, {short(str(more[:2]))} for {short(str(less[:2]))}")


def read_and_go_on(folder, operations):
    """Has quickstart read a folder that LevelDB wrote, and LevelDB read what is there after it."""
    want_logs_alone(folder)
    wanted = leveldb_reads(folder)
    before, log = quickstart(folder)
    want(before == wanted.get(KEY, "none"), f"quickstart printed {short(before)}, LevelDB has {short(wanted.get(KEY, 'none'))}")
    want(sequence_of(log) == operations + 1, f"quickstart wrote at sequence {sequence_of(log)}, behind {operations} operations")
    want_map(leveldb_reads(folder), {**wanted, KEY: WRITTEN})
