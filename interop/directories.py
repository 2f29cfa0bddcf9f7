"""Checks of LDBTOOL over directories that LevelDB made by random histories, with several opens and
tables in several levels.

What a directory has is taken from LevelDB: its MANIFEST, its tables and its logs as DumpFile prints
them, and the pairs that its iterators and gets find in a copy.
"""
import functools
import os
import random
import re
import shutil
import tempfile

from beside import (
    BYTES,
    REVERSE,
    Programs,
    bytes_of,
    check,
    contents,
    copied,
    files_of,
    flip,
    held_by_leveldb,
    joined,
    ldbtool,
    leveldb,
    leveldb_reads,
    new_folder,
    pairs_of,
    prints,
    short,
    want,
    want_answers,
    want_lines,
    want_map,
)
from layout import Layout, want_dump

# the directories of each order
SEEDS = {BYTES: range(1, 21), REVERSE: range(21, 29)}
CHANGES = 12


# ---- the directories


def seeds():
    return SEEDS[Programs.order]


@functools.lru_cache(maxsize=None)
def history(seed):
    """Makes a directory by LevelDB, kept for all checks; they copy what they change."""
    folder = os.path.join(tempfile.mkdtemp(prefix="interop-history-"), "folder")
    leveldb("history", folder, f"--seed={seed}")
    return folder


def forget_histories():
    for seed in seeds():
        shutil.rmtree(os.path.dirname(history(seed)), ignore_errors=True)


@check("directories: a check prints the tables and logs that LevelDB's own files say, and changes nothing")
def checked(_room):
    levels, filters = set(), 0
    for seed in seeds():
        folder = history(seed)
        layout, before = Layout(folder), contents(folder)
        want_lines(prints("check", folder), layout.report(), f"seed {seed}")
        want(contents(folder) == before, f"seed {seed}: a check changed the folder")
        levels.add(len(layout.levels()))
        filters += any(b"filter.leveldb.BuiltinBloomFilter2" in bytes_of(layout.path(number)) for _, number in layout.tables)
    want(max(levels) >= 3, f"no directory has tables in three levels: {levels}")
    want(0 < filters, "no table has a filter")


@check("directories: a dump has each entry of each table and log, and its newest ones are LevelDB's pairs")
def dumped(_room):
    for seed in seeds():
        folder = history(seed)
        text = prints("dump", folder)
        want_dump(Layout(folder), text)
        want_map(pairs_of(text), leveldb_reads(folder))


# ---- a byte that was changed


@check("directories: a check refuses a table with a changed byte, wherever it lies")
def changed(_room):
    taken, kinds = [], {}
    for seed in seeds():
        chance, layout = random.Random(seed), Layout(history(seed))
        with tempfile.TemporaryDirectory(prefix="interop-") as room:
            copy = copied(layout.folder, room)
            for _ in range(CHANGES):
                level, number = chance.choice(sorted(layout.tables))
                path, mask = os.path.join(copy, f"{number:06d}.ldb"), chance.randrange(1, 256)
                length = os.path.getsize(path)
                place = chance.choice([chance.randrange(length), length - 1 - chance.randrange(min(length, 400))])
                flip(path, place, mask)
                ran = ldbtool("check", copy)
                flip(path, place, mask)
                kinds[ran.stdout] = kinds.get(ran.stdout, 0) + 1
                if ran.returncode != 1 or re.fullmatch(r"refused 5 Corrupt\n|refused 6 Unsupported\n", ran.stdout) is None:
                    taken.append(f"seed {seed}, level {level}, table {number}, byte {place} of {length}: {short(ran.stdout)}")
    want(not taken, f"{len(taken)} of {CHANGES * len(seeds())} changes were taken: {short(str(taken))}")
    want(kinds.get("refused 5 Corrupt\n", 0) > 9 * CHANGES * len(seeds()) // 10, f"refusals: {kinds}")


# ---- scripts


def between(chance, keys):
    """Returns keys that may be there, and others before, between and after them."""
    found = chance.sample(sorted(keys), min(len(keys), 60))
    near = [key + "00" for key in found[:20] if key != "-"] + [key[:-2] or "-" for key in found[20:40] if key != "-"]
    return [*found, *near, "-", "ff" * 20, "6b6579", *[chance.randbytes(5).hex() for _ in range(20)]]


def want_reads(folder, chance):
    """Has a script read a copy of the folder: gets, seeks, and all pairs in both directions."""
    pairs = leveldb_reads(folder)
    walk = [f"at {key} {value}" for key, value in pairs.items()]
    asked = between(chance, pairs)
    with tempfile.TemporaryDirectory(prefix="interop-") as room:
        copy = copied(folder, room)
        got = leveldb("get", copy, lines=asked).split("\n")[:-1]
        sought = leveldb("seek", copy, lines=asked).split("\n")[:-1]
    script = ["open", *[f"get {key}" for key in asked], "iter", "first 1", *["next 1" for _ in pairs], "last 1"]
    script += [*["prev 1" for _ in pairs], *[f"seek 1 {key}" for key in asked], "drop 1", "close"]
    wanted = ["ok", *["none" if value == "none" else f"value {value}" for value in got], "iter 1", *walk, "end"]
    wanted += [*reversed(walk), "end", *["end" if pair == "end" else f"at {pair}" for pair in sought], "ok", "ok"]
    with tempfile.TemporaryDirectory(prefix="interop-") as room:
        want_answers(copied(folder, room), script, wanted, "a script that reads")


def want_writes(folder, chance):
    """Has a script write to a copy of the folder, twice, and LevelDB read the result."""
    pairs = leveldb_reads(folder)
    with tempfile.TemporaryDirectory(prefix="interop-") as room:
        copy = copied(folder, room)
        for _ in range(2):
            keys = between(chance, pairs)
            script = ["open"]
            for key in keys[::2]:
                pairs[key] = chance.randbytes(chance.randrange(300)).hex() or "-"
                script.append(f"put {key} {pairs[key]}")
            for key in keys[1::4]:
                pairs.pop(key, None)
                script.append(f"del {key}")
            more = {chance.randbytes(4).hex(): chance.randbytes(20).hex() for _ in range(30)}
            pairs.update(more)
            script.append("write sync " + " ".join(f"put {key} {value}" for key, value in more.items()))
            want_answers(copy, script, ["ok" for _ in script], "a script that writes")
            want_map(leveldb_reads(copy), pairs)
        want_map(leveldb_reads(copy, "--reuse"), pairs)


@check("directories: a script reads what LevelDB reads, both ways, and at keys between")
def read_by_script(_room):
    for seed in seeds():
        want_reads(history(seed), random.Random(seed))


@check("directories: LevelDB reads what a script wrote over its own tables")
def written_by_script(_room):
    for seed in seeds():
        want_writes(history(seed), random.Random(seed))


@check("directories: LevelDB reads the tables that `work` wrote beside its own, and no table is left that isn't live")
def worked(_room):
    for seed in seeds():
        chance, pairs = random.Random(seed), leveldb_reads(history(seed))
        with tempfile.TemporaryDirectory(prefix="interop-") as room:
            copy = copied(history(seed), room)
            for _ in range(2):
                more = {chance.randbytes(2).hex(): chance.randbytes(chance.randrange(1, 300)).hex() for _ in range(60)}
                pairs.update(more)
                script = ["open", *[f"put {key} {value}" for key, value in more.items()], *["work 100000" for _ in range(60)], "close"]
                answers = prints("run", copy, joined(script), ["--write-buffer", "4096"]).splitlines()
                want(answers.count("worked") >= 2 and answers[-2] == "idle", f"seed {seed}: work answers {answers[-61:-1]}")
                layout = Layout(copy)
                want_lines(prints("check", copy), layout.report(), f"seed {seed}")
                want_dump(layout, prints("dump", copy))
                want(files_of(copy, ".ldb") == sorted(f"{number:06d}.ldb" for _, number in layout.tables), f"seed {seed}: a table is left")
                want_map(leveldb_reads(copy), pairs)


@check("directories of logs alone: a script reads what LevelDB reads, and LevelDB what it writes; so does a check, before and after")
def logs_alone(room):
    for seed in (1, 2, 3):
        folder, chance = os.path.join(room, str(seed)), random.Random(seed)
        lines = []
        for _ in range(400):
            key = chance.randbytes(chance.randrange(3)).hex() or "-"
            lines.append(f"del {key}" if chance.random() < 0.2 else f"put {key} {chance.randbytes(chance.randrange(90)).hex() or '-'}")
        leveldb("write", folder, "--reuse", lines=lines)
        layout = Layout(folder)
        want_lines(prints("check", folder), layout.report(), f"seed {seed}")
        want_dump(layout, prints("dump", folder))
        want_reads(folder, chance)
        want_writes(folder, chance)


@check("directories: one that LevelDB holds is checked and not opened, an empty one is empty, a missing one a fault")
def no_lock(room):
    empty = new_folder(room, "empty")
    for verb, printed in ("check", "empty\n"), ("dump", ""):
        ran = ldbtool(verb, empty)
        want((ran.returncode, ran.stdout) == (0, printed) and "no CURRENT" in ran.stderr, f"{verb} doesn't say that an empty folder is empty")
    held = copied(history(seeds()[0]), room)
    with held_by_leveldb(held):
        want(prints("check", held).startswith("good\n"), "a folder that LevelDB holds is not good")
        want_answers(held, ["open", "close"], ["refused 18 Locked", "refused 16 NotOpen"], "a script")
    ran = ldbtool("check", os.path.join(room, "none"))
    want(ran.returncode == 1 and ran.stdout == "" and ran.stderr != "", f"a missing folder: {short(ran.stdout + ran.stderr)}")
    forget_histories()
