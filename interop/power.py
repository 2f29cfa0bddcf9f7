"""Checks of what a crash and a power loss may leave of ldbtool's sessions and of LevelDB's, by the
recording and the model of tools/faults/stops (tools/faults/recorded.py, tools/faults/remains.py).
LevelDB's own work goes on while a script runs."""
import collections
import functools
import os
import random

from beside import CHECKS, Programs, check, last_log, ldbtool, leveldb_reads, leveldb_writes, new_folder, want, want_map
from opened import Opener, found_by_ldbtool
from promises import Story, breach_of_loss, breach_of_stop, is_synced, keys_in
from recorded import Recording, files_in
from remains import History, losses, losses_in_any_order, stops, zeroed_losses
from running import under_test
from shims import built_shim

# the seed by which losses are drawn
SEED = 1

# LevelDB's least write buffer, which these writes fill
BUFFER = 65_536
LARGE = [f"put {key} {key * 30_000}" for key in ("61", "62", "63")]

# a synced write follows an unsynced one, in its own log: the other log was sealed, or found by an
# open
SEALED = [
    "open new", *LARGE, "work 9", "write sync put 64 04", "put 65 05", "work 9", "write sync put 61 06", "close", "open", "put 66 07", "close",
]  # fmt: skip
FOUND = ["open new", "put 61 01", "put 62 02", "close", "open", "write sync put 63 03", "close"]

# and a session with tables
TABLES = [
    "open new", "put 61 01", "write sync put 62 02", "put 63 03", "compact all", "put 61 04", "write sync put 64 05", "del 62", "close",
    "open", "write sync put 65 06", "put 66 07", "close", "open", "close",
]  # fmt: skip

OURS, THEIRS, REUSING = "ldbtool", "LevelDB", "LevelDB with reuse_logs"


def command_of(whose):
    if whose == OURS:
        return [Programs.ldbtool, "run", "--write-buffer", str(BUFFER)]
    return [Programs.leveldb, "script", f"--write-buffer={BUFFER}", *(["--reuse"] if whose == REUSING else [])]


def recorded(room, whose, script):
    """Records the session, with tables that take a while to be synced, so that LevelDB's writes go
    on meanwhile."""
    folder = new_folder(room, f"folder of {whose}")
    recording = Recording(built_shim(room, "recording_calls"), folder, os.path.join(room, f"record of {whose}"), SLOW_SYNC="200")
    recording.run(command_of(whose), script)
    History(recording, recording.calls()).want_end(files_in(folder))
    return recording


# ---- what both find in what is left


class Readers(Opener):
    """Opens what is left by both, each state once, and checks that they find the same. It returns
    what the one finds whose session it is."""

    whose = OURS

    def found(self, files):
        ours, theirs = super().found(files)
        return ours if self.whose == OURS else theirs

    def opened(self, files):
        ours, theirs = (self.opened_by(it, files) for it in (found_by_ldbtool, self.leveldb.found))
        if is_without_current(files):
            want(ours.refusal, "we take a folder with a log or a table and without CURRENT")
        else:
            want(bool(ours.refusal) == bool(theirs.refusal) and ours.pairs == theirs.pairs, f"we find {ours}, and LevelDB {theirs}, in {[*files]}")
        return ours, theirs


def is_without_current(files):
    """Says whether it is the known difference: damaged for ldbtool, a new database for LevelDB."""
    return "CURRENT" not in files and any(name.endswith((".log", ".ldb")) for name in files)


# ---- power losses, on three devices

# each with how many losses are drawn
DEVICES = {
    "a sync of a file keeps all names": (True, losses, 100),
    "only a sync of the folder keeps names": (False, losses, 100),
    "names come in any order": (True, losses_in_any_order, 400),
}

HELD, REFUSED, GONE, GAP = "as promised", "refused", "a synced batch gone", "a batch gone that wasn't synced, and a later one there"


def kind(story, remains, found):
    """Says what became of ldbtool's promise."""
    if found.refusal:
        return REFUSED
    if not breach_of_loss(story, remains, found):
        return HELD
    return GONE if is_one_gone(story, remains.moment, found.pairs) else GAP


def is_one_gone(story, moment, pairs):
    """Says whether a key has a value from before a batch that was synced and answered by then."""
    count, _, is_under_way = story.accepted(moment)
    batches = story.batches[: count + is_under_way]
    for number, batch in enumerate(batches[:count]):
        values = {key: [it.pairs.get(key) for it in batches[number:]] for key in keys_in(batch.text)}
        if is_synced(batch.text) and any(pairs.get(key) not in it for key, it in values.items()):
            return True
    return False


def left(recording, device, readers):
    """Counts the states of each kind among those that a power loss may leave."""
    keeps_names, states, count = DEVICES[device]
    history = History(recording, recording.calls(), keeps_names)
    story = Story(recording, history)
    found = [kind(story, it, readers.found(it.files)) for it in states(history, random.Random(SEED), count)]
    return collections.Counter(found)


def want_stops(recording, readers):
    history = History(recording, recording.calls())
    story = Story(recording, history)
    for it in stops(history, random.Random(SEED)):
        wrong = breach_of_stop(story, it, readers.found(it.files))
        want(not wrong, f"{it.way}: {wrong}")


# what is seen on each device besides what is as promised (at least, if names come in any order),
# and whether it is refused; docs/COMPATIBILITY.md says it in words
SEEN = {
    "a log that is sealed": (SEALED, {
        OURS: (set(), set(), set()),
        THEIRS: ({GAP}, {GAP, GONE}, {GAP, REFUSED}),
        REUSING: ({GAP}, {GAP, GONE, REFUSED}, {GAP}),
    }),
    "a log that an open finds": (FOUND, {
        OURS: (set(), set(), set()),
        THEIRS: (set(), {GAP}, {REFUSED}),
        REUSING: (set(), {GONE}, set()),
    }),
    "tables": (TABLES, {
        OURS: (set(), set(), set()),
        THEIRS: (set(), {GAP, REFUSED}, {REFUSED}),
        REUSING: (set(), {GONE, REFUSED}, set()),
    }),
}  # fmt: skip


def power(script, seen, room):
    """Runs a session of each. Every crash must leave all that was answered, and power losses what
    is written above."""
    under_test(Programs.ldbtool)
    with Readers(room, Programs.leveldb) as readers:
        told = [f"{whose} {', '.join(shares(room, whose, script, wanted, readers))}" for whose, wanted in seen.items()]
    return f"not as promised on each device: {'; '.join(told)}"


def shares(room, whose, script, wanted, readers):
    """Says how many states aren't as promised on each device, and of how many."""
    recording, readers.whose = recorded(room, whose, script), whose
    want_stops(recording, readers)
    for device, kinds in zip(DEVICES, wanted):
        found = left(recording, device, readers)
        others = set(found) - {HELD}
        is_seen = others >= kinds and (REFUSED in others) == (REFUSED in kinds) if DEVICES[device][1] is losses_in_any_order else others == kinds
        want(is_seen, f"{whose}, where {device}: {dict(found)}, and not {sorted(kinds)}")
        count = sum(found.values())
        yield f"{count - found[HELD]}/{count}"


@check("known difference: zeros behind a log's records are refused as Corrupt, until they are mended")
def zeros(room):
    """Checks zeros in a log, which a device may leave that keeps a file's length before its
    bytes."""
    folder = new_folder(room)
    leveldb_writes(folder, ["put 61 01", "put 62 02"])
    with open(last_log(folder), "ab") as log:
        log.write(bytes(24))
    want_map(leveldb_reads(folder), {"61": "01", "62": "02"})
    ran = ldbtool("check", folder)
    want((ran.returncode, ran.stdout) == (1, "refused 5 Corrupt\n"), f"a check answers {ran.stdout!r}, status {ran.returncode}")
    ran = ldbtool("mend", folder)
    want((ran.returncode, ran.stdout.endswith(" zeros 24 broken 0\n")) == (0, True), f"mend answers {ran.stdout!r}, status {ran.returncode}")
    want(ldbtool("check", folder).returncode == 0, "a check behind it is refused")
    want_map(leveldb_reads(folder), {"61": "01", "62": "02"})


@check("what power losses leave with zeros, of ldbtool's files and of LevelDB's own, is read the same by both once it is mended")
def mended(room):
    under_test(Programs.ldbtool)
    told = []
    with Readers(room, Programs.leveldb) as readers:
        for readers.whose in (OURS, THEIRS):
            recording = recorded(room, readers.whose, TABLES)
            history = History(recording, recording.calls(), keeps_names=True)
            story, states = Story(recording, history), list(zeroed_losses(history, random.Random(SEED), 100))
            left = [(it, readers.mended(it.files)) for it in states]
            for it, files in left:
                found = kind(story, it, readers.found(files))
                want(found == HELD, f"{readers.whose}, {it.way}: {found}")
            told.append(f"{sum(files != it.files for it, files in left)} of {len(left)} of {readers.whose} were mended")
    return ", ".join(told)


for name, (script_of, seen_of) in SEEN.items():
    CHECKS.append((f"stops and losses of power: {name}", functools.partial(power, script_of, seen_of)))
