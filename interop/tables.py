"""Checks of tables: LevelDB reads those that LDBTOOL writes, and LDBTOOL prints LevelDB's.

`work` makes a table of given entries, with deletes and several versions of a key, from a memory
table: it drops nothing.
"""
import os
import random
import re
import shutil
import struct
import tempfile

from beside import (
    KEY,
    WRITTEN,
    bytes_of,
    check,
    copied,
    files_of,
    joined,
    ldbtool,
    leveldb,
    new_folder,
    prints,
    short,
    want,
    want_answers,
    want_lines,
    word,
)
from entries import Entry, a_value, by_sequence, lines_of, map_of, newest, rows_of, some_entries, some_keys

FOOTER = 48


def dumped(folder):
    """Returns the entries of each table of a directory that a check accepts, as LDBTOOL prints
    them, by the table's number."""
    want(prints("check", folder).startswith("good\n"), "a check refuses the directory")
    found = {}
    for line in prints("dump", folder).splitlines(keepends=True):
        kind, _, number, entry = line.split(" ", 3)
        want(kind == "table", f"an entry isn't in a table: {short(line)}")
        found.setdefault(int(number), []).append(entry)
    return found


def our_table(folder, entries, block_bytes):
    """Has LDBTOOL make a database of these entries, all in one table, and returns its name."""
    lines = [entry.write() for entry in by_sequence(entries)]
    script = ["open new", *lines, "work 1", "work 1", "close"]
    answers = ["ok", *["ok" for _ in lines], "worked", "worked", "ok"]
    want_answers(folder, script, answers, "a script that writes", ["--write-buffer", "1", "--block-bytes", str(block_bytes)])
    (name,) = files_of(folder, ".ldb")
    ((number, found),) = dumped(folder).items()
    want(name == f"{number:06d}.ldb", f"the entries of {name} are said to be in table {number}")
    want_lines("".join(found), lines_of(entries), f"of {name}")
    return name


def leveldb_tables(folder, entries, *flags):
    """Has LevelDB write these entries by their sequences, and make tables of its logs. Returns the
    names."""
    leveldb("write", folder, *flags, lines=["begin", *[entry.write() for entry in by_sequence(entries)], "end"])
    leveldb("dump", folder, *flags)
    return files_of(folder, ".ldb")


@check("tables: one entry is written byte for byte as LevelDB writes it, by a flush and by a compaction")
def same_small_table(room):
    flushed, compacted, theirs = new_folder(room, "flushed"), new_folder(room, "compacted"), os.path.join(room, "other")
    entries = [Entry(bytes.fromhex(KEY), 1, bytes.fromhex(WRITTEN))]
    (name,) = leveldb_tables(theirs, entries, "--filter")
    wanted = bytes_of(theirs, name)
    want(len(wanted) == 176, f"LevelDB's table has {len(wanted)} bytes")
    our_table(flushed, entries, 4096)
    # `work` removes the table that the compaction has read
    script = ["open new", f"put {KEY} {WRITTEN}", "compact all", "work 1", "close"]
    want_answers(compacted, script, ["ok", "ok", "ok", "idle", "ok"], "a compaction")
    want(dumped(compacted) == {5: [f"{KEY} 1 put {WRITTEN}\n"]}, f"a compaction left {dumped(compacted)}")
    for folder in (flushed, compacted):
        (name,) = files_of(folder, ".ldb")
        found = bytes_of(folder, name)
        want(found == wanted, f"LevelDB's table is {wanted.hex()}, ours {found.hex()}")


def like_leveldb(block_bytes):
    """Returns entries of a table that has one form only. LevelDB shortens keys of the index, but
    none if each key follows the one before it and the last is all ones. It adds empty filters up to
    the table's end, but none after a last block of less than 2 KiB. A value that ends the block
    before makes such a last block."""
    chance = random.Random(block_bytes)
    keys = [struct.pack(">H", number) for number in range(65536 - 1500, 65536)]
    keys += keys[200:260] * 5
    chance.shuffle(keys)
    entries = [Entry(key, at, None if chance.random() < 0.1 else a_value(chance)) for at, key in enumerate(keys, 1)]
    for entry in entries:
        if entry.key == b"\xff\xfe":
            entry.value = chance.randbytes(block_bytes)
    return entries


@check("tables: many blocks are written byte for byte as LevelDB writes them, where it shortens nothing and adds nothing")
def same_large_table(room):
    for block_bytes in (1024, 4096, 65536):
        entries = like_leveldb(block_bytes)
        folder = new_folder(room, f"ours{block_bytes}")
        other = os.path.join(room, f"theirs{block_bytes}")
        (name,) = leveldb_tables(other, entries, "--filter", f"--block-bytes={block_bytes}")
        wanted = bytes_of(other, name)
        found = bytes_of(folder, our_table(folder, entries, block_bytes))
        at = next((at for at, pair in enumerate(zip(found, wanted)) if pair[0] != pair[1]), min(len(found), len(wanted)))
        want(found == wanted, f"blocks of {block_bytes}: {len(found)} and {len(wanted)} bytes, other from byte {at} on")


def read_by_leveldb(folder, name, entries, seed):
    """Has LevelDB read all of our table, the only one of a database, in every way."""
    chance = random.Random(seed)
    wanted, before = map_of(entries), bytes_of(folder, name)
    rows = [f"{key} {value}\n" for key, value in rows_of(entries)]
    want_lines(leveldb("dump", folder, "--filter"), "".join(rows), "LevelDB, forwards")
    want_lines(leveldb("dump", folder, "--filter", "--backwards"), "".join(reversed(rows)), "LevelDB, backwards")
    keys = [word(entry.key) for entry in newest(entries)]
    keys += [word(bytes.fromhex(key.replace("-", "")) + chance.randbytes(1)) for key in keys]
    chance.shuffle(keys)
    gets = "".join(wanted.get(key, "none") + "\n" for key in keys)
    want_lines(leveldb("get", folder, "--filter", lines=keys), gets, "LevelDB's gets")
    kept = files_of(folder, ".ldb") + files_of(folder, ".sst")
    want(kept == [name] and bytes_of(folder, name) == before, "LevelDB did not read our table as it is")


@check("tables, ours to theirs: in our database, and alone where it is repaired into one, LevelDB reads each entry, in every way")
def tables_to_leveldb(room):
    for seed, block_bytes in ((2, 1), (3, 4096), (4, 65536)):
        folder, alone = new_folder(room, str(block_bytes)), new_folder(room, f"{block_bytes} alone")
        entries = some_entries(seed)
        name = our_table(folder, entries, block_bytes)
        shutil.copy(os.path.join(folder, name), alone)
        leveldb("repair", alone, "--filter")
        for it in (folder, alone):
            read_by_leveldb(it, name, entries, seed)


def want_dumped(folder, entries):
    """Has LDBTOOL print the tables of a directory, which together must have these entries. Returns
    how many tables there are."""
    found = dumped(folder)
    wanted = lines_of(entries).splitlines(keepends=True)
    names = files_of(folder, ".ldb")
    want(names == [f"{number:06d}.ldb" for number in sorted(found)], f"of {names} the tables {sorted(found)} were printed")
    want_lines("".join(sorted(line for lines in found.values() for line in lines)), "".join(sorted(wanted)), f"of {names}")
    places = {line: place for place, line in enumerate(wanted)}
    for lines in found.values():
        order = [places[line] for line in lines]
        want(order == sorted(order), "the entries of a table are not in their order")
    return len(found)


@check("tables, theirs to ours: each entry of LevelDB's tables, from its logs and from its compactions")
def tables_from_leveldb(room):
    several = 0
    for seed, flags in enumerate(
        (
            ("--restarts=16", "--filter"),
            ("--restarts=1", "--filter", "--block-bytes=1024"),
            ("--restarts=16", "--block-bytes=65536"),
            ("--restarts=1", "--block-bytes=4096"),
        ),
        10,
    ):
        folder = os.path.join(room, str(seed))
        entries = some_entries(seed)
        leveldb_tables(folder, entries, *flags)
        want_dumped(folder, entries)
        chance = random.Random(seed)
        later = [
            Entry(key, sequence, None if chance.random() < 0.2 else chance.randbytes(900))
            for sequence, key in enumerate(chance.sample(some_keys(chance, 2500), 1400), len(entries) + 1)
        ]
        leveldb("write", folder, *flags, lines=["begin", *[entry.write() for entry in later], "end"])
        leveldb("compact", folder, *flags, "--file-bytes=1048576")
        # LevelDB removes old files when it opens a folder.
        leveldb("dump", folder, *flags)
        kept = [entry for entry in newest(entries + later) if entry.value is not None]
        several += want_dumped(folder, kept) > 1
    want(several > 0, "no compaction made several tables")


def want_refused(folder, refusal):
    for verb in ("check", "dump"):
        ran = ldbtool(verb, folder)
        told = ran.stderr.startswith("ldbtool: ") and f"refused {refusal}" in ran.stderr
        want((ran.returncode, ran.stdout, told) == (1, f"refused {refusal}\n", True), f"{verb} of what is to be refused as {refusal}: {short(ran.stdout + ran.stderr)}")


@check("tables: compressed ones are refused as Unsupported")
def compressed_tables(room):
    entries = [Entry(b"%05d" % at, at, b"value " * 50) for at in range(1, 500)]
    for flags in (("--snappy",), ("--snappy", "--filter", "--block-bytes=1024")):
        folder = os.path.join(room, str(len(flags)))
        (name,) = leveldb_tables(folder, entries, *flags)
        length = os.path.getsize(os.path.join(folder, name))
        want(length < 50 * len(entries), f"LevelDB's table has {length} bytes, so it did not compress")
        want_refused(folder, "6 Unsupported")
        want_answers(folder, ["open", f"get {entries[0].key.hex()}"], ["ok", "refused 6 Unsupported"], "a get of a compressed block")


REFUSED = re.compile(r"refused (5 Corrupt|6 Unsupported)\n")


def want_right_or_refused(folder, wanted, what):
    """Has LDBTOOL print a table that was changed: what it had before, or a refusal alone. Returns
    whether it was refused."""
    ran = ldbtool("dump", folder)
    if ran.returncode == 0:
        want_lines(ran.stdout, wanted, what)
        return False
    refused = ran.returncode == 1 and REFUSED.fullmatch(ran.stdout) is not None and ran.stderr.startswith("ldbtool: ")
    want(refused, f"{what}: status {ran.returncode}, {short(ran.stdout + ran.stderr)}")
    return True


def want_walk_or_refusal(folder, rows, what):
    """Has a script iterate over a copy of a table that was changed: each pair that it had before,
    up to a refusal. Returns whether there was one."""
    script = ["open", "iter", "first 1", *["next 1" for _ in rows]]
    wanted = ["ok", "iter 1", *[f"at {key} {value}" for key, value in rows], "end"]
    with tempfile.TemporaryDirectory(prefix="interop-") as room:
        found = prints("run", copied(folder, room), joined(script)).splitlines(keepends=True)
    right = next((at for at, line in enumerate(found) if line.startswith("refused ")), len(found))
    want_lines("".join(found[:right]), joined(wanted[:right]), f"{what}, a walk")
    want(right == len(wanted) or REFUSED.fullmatch(found[right]) is not None, f"{what}, a walk: {short(str(found[right:][:1]))}")
    return right < len(wanted)


@check("tables: a changed byte gives the same entries or a refusal")
def changed_tables(room):
    chance = random.Random(20)
    folder = os.path.join(room, "folder")
    entries = some_entries(20)[:600]
    (name,) = leveldb_tables(folder, entries, "--filter")
    file, wanted, rows = os.path.join(folder, name), prints("dump", folder), rows_of(entries)
    want(list(dumped(folder).values()) == [lines_of(entries).splitlines(keepends=True)], "other entries before any change")
    want(not want_walk_or_refusal(folder, rows, "before any change"), "a refusal before any change")
    good = bytes_of(file)
    places = chance.sample(range(len(good) - FOOTER), 50) + list(range(len(good) - FOOTER - 12, len(good)))
    refusals = stops = 0
    for place in places:
        changed = bytearray(good)
        changed[place] ^= chance.randrange(1, 256)
        with open(file, "wb") as out:
            out.write(changed)
        what = f"byte {place} of {len(good)} changed"
        refusals += want_right_or_refused(folder, wanted, what)
        stops += want_walk_or_refusal(folder, rows, what)
    want(refusals > len(places) * 9 // 10, f"only {refusals} of {len(places)} changes were refused by a dump")
    want(stops > len(places) * 9 // 10, f"only {stops} of {len(places)} changes stopped a walk")
