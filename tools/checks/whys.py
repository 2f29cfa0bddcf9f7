"""Checks of tools/checks/program: where a refusal comes from, as standard error says it, and what
helps.

A row for each kind of damage that docs/FORMATS.md names, with the file, the place in it, what is
found there and what is wanted, worked out here by hand; and some calls of the system that fail."""
import os
import re
import resource
import struct
import subprocess

from files import BLOCK, ONE_TABLE, Manifest, internal_key, log_file, log_of, masked, new_folder, record, stored, string, varint, write_directory
from files import block as sorted_block
from listed import check
from running import SECONDS, ldbtool, lines, under_test, want
from streams import failing_behind

MAGIC = ONE_TABLE[-8:]
KEY = internal_key("61", 1)
DATA = ONE_TABLE[:21]
FILTER = ONE_TABLE[26:44]

# how each command is asked; those that write come over a folder of their own, as the others do
COMMANDS = [["check", "DIR"], ["dump", "DIR"], ["stats", "DIR"], ["get", "DIR", "61"], ["scan", "DIR"], ["export", "DIR"], ["run", "DIR"], ["import", "DIR"], ["compact", "DIR"]]
SCRIPT = lines("open", "get 61", "iter", "first 1", "next 1", "compact all")
IMPORTED = lines("put 6d 31")


def handle(offset, size):
    return varint(offset) + varint(size)


def number_of(sum_of):
    """A checksum as it is said."""
    return f"{struct.unpack('<I', sum_of)[0]:08x}"


def sums(found, wanted):
    return f"checksum {number_of(found)} found, {number_of(wanted)} wanted"


def table_of(data=DATA, filters=FILTER, index=None, meta=None, footer=None):
    """A table of these blocks, whose checksums fit; an index entry is its key and its value."""
    place = handle(0, len(data))
    at_filter = len(data) + 5
    at_meta = at_filter + len(filters) + 5
    meta = sorted_block([(b"filter.leveldb.BuiltinBloomFilter2", handle(at_filter, len(filters)))]) if meta is None else meta
    index = sorted_block([(KEY, place)] if index is None else index)
    at_index = at_meta + len(meta) + 5
    ends = handle(at_meta, len(meta)) + handle(at_index, len(index)) if footer is None else footer
    return stored(data) + stored(filters) + stored(meta) + stored(index) + ends + bytes(40 - len(ends)) + MAGIC


def tables(files, level=1, keys=(("61", 1), ("61", 1)), last=1):
    """The files of a directory that has these tables, by number, and an empty log."""
    found = {f"{number:06}.ldb": text for number, text in files.items()}
    placed = [(level, number, len(text), *keys) for number, text in files.items()]
    manifest = Manifest(log=3, next_file=9, last_sequence=last, tables=placed)
    return {"CURRENT": b"MANIFEST-000001\n", "MANIFEST-000001": manifest.file(), "000003.log": b"", **found}


def one(text, **how):
    return tables({5: text}, **how)


def of_old_names(files):
    """The same files, the tables named as older writers did."""
    return {name.replace(".ldb", ".sst"): text for name, text in files.items()}


def logged(text):
    """The files of a directory with this log."""
    return {"CURRENT": b"MANIFEST-000001\n", "MANIFEST-000001": Manifest(log=2, next_file=9).file(), "000002.log": text}


def edited(*edits, comparator="leveldb.BytewiseComparator"):
    """The files of a directory whose MANIFEST has these edits behind its first one."""
    first = Manifest(log=2, next_file=9, comparator=comparator).file()
    return {"CURRENT": b"MANIFEST-000001\n", "MANIFEST-000001": first + b"".join(map(record, edits)), "000002.log": b""}


def fragment(kind, data, checksum=None):
    return (checksum or masked(bytes([kind]) + data)) + struct.pack("<HB", len(data), kind) + data


def new_table(number, least, greatest, level=1):
    return b"\x07" + varint(level) + varint(number) + varint(176) + string(internal_key(*least)) + string(internal_key(*greatest))


def batch(sequence, key, value):
    return struct.pack("<QI", sequence, 1) + b"\x01" + string(key) + string(value)


GOOD = log_file([(1, [("61", "31")])])
FIRST = len(edited()["MANIFEST-000001"])
CHANGED = ONE_TABLE[:5] + b"\x00" + ONE_TABLE[6:]
FULL = b"\x01"
TAB = b"\x09"
WRONG = b"\x01\x02\x03\x04"

# what is damaged; the files; which file is named, and what is said of it; and whether a check alone
# sees it, or sees it so
LOGS = [
    ("a checksum", logged(GOOD + fragment(1, b"abc", WRONG)), "000002.log", f"fragment at 24: {sums(masked(FULL + b'abc'), WRONG)}"),
    ("a type", logged(GOOD + fragment(9, b"abc")), "000002.log", "fragment at 24: there is no such type of a fragment: 9 found, 4 at most wanted"),
    ("a length past the block", logged(GOOD + bytes(4) + b"\xff\xff\x01"), "000002.log", f"fragment at 24: it runs past its block: 65535 found, {BLOCK - 24 - 7} at most wanted"),
    ("bytes where no header fits", logged(fragment(1, bytes(BLOCK - 10)) + b"\x00x\x00" + GOOD), "000002.log", f"byte at {BLOCK - 3}: other bytes than zeros at the end of a block"),
    ("a LAST without a FIRST", logged(GOOD + fragment(4, b"abc")), "000002.log", "fragment at 24: a fragment of this type may not stand here"),
    ("a FULL in a record", logged(GOOD + fragment(2, b"abc") + fragment(1, b"abc")), "000002.log", "fragment at 34: a fragment of this type may not stand here"),
    ("a batch of too few operations", logged(GOOD + record(bytes(8) + b"\xff" * 4)), "000002.log", "record at 24: it is no write batch"),
    ("a batch in pieces", logged(log_of([batch(1, b"a", b"1"), batch(2, b"b", bytes(70_000)), batch(3, b"c", bytes(70_000)) + b"x"])), "000002.log", f"record at {24 + 70_018 + 3 * 7}: it is no write batch"),
    ("a sequence twice, behind an empty batch of a higher one", logged(record(struct.pack("<QI", 9, 0)) + record(batch(1, b"a", b"1")) + record(batch(1, b"b", b"2"))), "000002.log",
     "record at 43: its sequence doesn't rise: 1 found, 2 at least wanted"),
    ("sequences that fall", logged(log_file([(5, [("61", "31"), ("62", None)]), (2, [("62", "32")])])), "000002.log", "record at 27: its sequence doesn't rise: 2 found, 7 at least wanted"),
]  # fmt: skip

OVERLAPPING = edited(new_table(5, ("61", 1), ("63", 1)) + new_table(6, ("62", 1), ("64", 1)) + new_table(7, ("70", 1), ("71", 1)))

OVERLAP = "overlaps another table of its level, by the keys that the MANIFEST says"

MANIFESTS = [
    ("no newline", {"CURRENT": b"MANIFEST-000001"}, "CURRENT", "is no name of a MANIFEST with a newline behind it"),
    ("another name", {"CURRENT": b"000001.log\n"}, "CURRENT", "is no name of a MANIFEST with a newline behind it"),
    ("a long name", {"CURRENT": b"M" * 65}, "CURRENT", "is no name of a MANIFEST with a newline behind it"),
    ("no MANIFEST", {"CURRENT": b"MANIFEST-000009\n"}, "MANIFEST-000009", "isn't there"),
    ("no CURRENT beside a log", {"000003.log": b""}, "CURRENT", "isn't there, and a table or a log is"),
    ("a checksum", {**edited(), "MANIFEST-000001": edited()["MANIFEST-000001"][:-1] + b"\x09"}, "MANIFEST-000001", None),
    ("a tag", edited(b"\x08"), "MANIFEST-000001", f"record at {FIRST}: it is no version edit"),
    ("a cut field", edited(b"", b"\x02"), "MANIFEST-000001", f"record at {FIRST + 7}: it is no version edit"),
    ("a level", edited(b"\x06\x07\x01"), "MANIFEST-000001", f"record at {FIRST}: it is no version edit"),
    ("a field that is missing", {"CURRENT": b"MANIFEST-000001\n", "MANIFEST-000001": record(b"\x02\x01")}, "MANIFEST-000001", None),
    ("a table that is taken away twice", edited(b"\x06\x01\x05"), "MANIFEST-000001", None),
    ("an order of keys", edited(comparator="mine"), "MANIFEST-000001", "keys in another order than the one that is asked for"),
    ("a table of a high number", edited(new_table(2**62, ("61", 1), ("61", 1))), "MANIFEST-000001", "a table of a number that isn't read"),
    ("tables that overlap", OVERLAPPING, "000006.ldb", OVERLAP),
    ("tables that overlap, of older names", {**OVERLAPPING, "000006.sst": b""}, "000006.sst", OVERLAP),
    ("tables that overlap, of both names", {**OVERLAPPING, "000006.sst": b"", "000006.ldb": b""}, "000006.ldb", OVERLAP),
]  # fmt: skip

EDITS = "the edits leave no layout: a field is missing, or tables are taken away that aren't there, or added that are"

TABLES = [
    ("a table that is missing", {name: it for name, it in one(ONE_TABLE).items() if name != "000005.ldb"}, "000005.ldb", "isn't there"),
    ("another length", {**one(ONE_TABLE), "000005.ldb": ONE_TABLE[:100]}, "000005.ldb", "has another length than the MANIFEST says: 100 found, 176 wanted"),
    ("less than a footer", one(ONE_TABLE[:20]), "000005.ldb", "is shorter than a footer: 20 found, 48 at least wanted"),
    ("a magic number", one(ONE_TABLE[:-1] + b"x"), "000005.ldb", f"footer at 128: magic number {MAGIC[:-1].hex()}78 found, {MAGIC.hex()} wanted"),
    ("a handle in the footer", one(table_of(footer=b"\xff" * 40)), "000005.ldb", "footer at 128: no handle of a block stands where one belongs"),
    ("bytes behind the footer's handles", one(ONE_TABLE[:150] + b"x" + ONE_TABLE[151:]), "000005.ldb", "footer at 128: other bytes than zeros stand behind its handles"),
    ("a block past the end", one(table_of(footer=handle(1000, 5) + handle(101, 22))), "000005.ldb", "block at 1000: it runs past the end of the file: 1010 found, 176 at most wanted"),
    ("a checksum of a data block", one(CHANGED), "000005.ldb", f"block at 0: {sums(masked(CHANGED[:22]), ONE_TABLE[22:26])}"),
    ("a checksum of the index", one(ONE_TABLE[:102] + b"x" + ONE_TABLE[103:]), "000005.ldb", f"block at 101: {sums(masked(ONE_TABLE[101:102] + b'x' + ONE_TABLE[103:124]), ONE_TABLE[124:128])}"),
    ("a compressed block", one(DATA + b"\x01" + masked(DATA + b"\x01") + ONE_TABLE[26:]), "000005.ldb", "block at 0: it is compressed; its type: 1 found, 0 wanted"),
    ("restarts past the end", one(table_of(b"\xff" * 4)), "000005.ldb", "block at 0: entries or restarts run past its end"),
    ("keys that fall", one(table_of(sorted_block([(internal_key("62", 1), b""), (KEY, b"")]))), "000005.ldb", "block at 0: entries or restarts are in a wrong order"),
    ("an index entry without a handle", one(table_of(index=[(KEY, b"\x80")])), "000005.ldb", "block at 101: the value of an entry is no handle of a block"),
    ("a metaindex entry without a handle", one(table_of(meta=sorted_block([(b"filter.leveldb.BuiltinBloomFilter2", b"\x80")]))), "000005.ldb", "block at 49: the value of an entry is no handle of a block"),
    ("filters that don't fit", one(table_of(filters=b"\x00\x00\x00\x00\x0a")), "000005.ldb", "block at 26: its filters don't fit together"),
    ("two blocks in one another", one(table_of(index=[(KEY, handle(0, 21)), (internal_key("62", 1), handle(0, 21))])), "000005.ldb", "two blocks lie in one another"),
]  # fmt: skip

# what a check alone sees, or says in these words
CHECKED = [
    ("a key that is none", one(table_of(sorted_block([(b"ab", b"")]))), "000005.ldb", "block at 0: entries or restarts are in a wrong order"),
    ("a key above its bound", one(table_of(index=[(internal_key("60", 1), handle(0, 21))])), "000005.ldb", "block at 0: entries or restarts are in a wrong order"),
    ("a key that its filter denies", one(table_of(filters=b"\x00" * 8 + b"\x06" + FILTER[9:])), "000005.ldb", "block at 0: a key is out of the block's bounds, or isn't in its filter"),
    ("no entry", one(table_of(sorted_block([]))), "000005.ldb", "has no entry"),
    ("other keys than those of the edit", one(ONE_TABLE, keys=(("60", 1), ("61", 1))), "000005.ldb", "its first or last key isn't the one that the MANIFEST says"),
    ("a sequence above the recorded one", one(ONE_TABLE, last=0), "000005.ldb", "has a newer entry than the MANIFEST's last sequence: 1 found, 0 at most wanted"),
    ("a log that is older", {**one(ONE_TABLE), "000004.log": GOOD}, "000005.ldb", "has a newer entry of a key than a log or a table that has to be newer"),
    ("tables of level 0 that are older", tables({5: ONE_TABLE, 6: ONE_TABLE}, level=0), "000005.ldb", "has a newer entry of a key than a log or a table that has to be newer"),
    ("a sequence above the recorded one, in an older name", of_old_names(one(ONE_TABLE, last=0)), "000005.sst", "has a newer entry than the MANIFEST's last sequence: 1 found, 0 at most wanted"),
    ("a log that is older than a table of an older name", of_old_names({**one(ONE_TABLE), "000004.log": GOOD}), "000005.sst", "has a newer entry of a key than a log or a table that has to be newer"),
    ("tables of level 0 that are older, of older names", of_old_names(tables({5: ONE_TABLE, 6: ONE_TABLE}, level=0)), "000005.sst", "has a newer entry of a key than a log or a table that has to be newer"),
]  # fmt: skip


def where(ran, folder):
    """The lines that say where a refusal comes from, without those that say what helps."""
    return [it.removeprefix(f"ldbtool: {folder}/") for it in ran.stderr.decode().splitlines() if it.startswith(f"ldbtool: {folder}/")]


def asked(words, folder):
    script = SCRIPT if words[0] == "run" else IMPORTED
    return ldbtool(*[folder if it == "DIR" else it for it in words], script=script)


def want_where(room, rows, commands):
    """Wants each of these commands that is refused to say of each row where that comes from. The
    first command has to be refused."""
    for number, (what, files, name, words) in enumerate(rows):
        for command in commands:
            folder = write_directory(room, f"{number} {command[0]}", None, files)
            ran = asked(command, folder)
            is_refused = any(it in ran.stdout + ran.stderr for it in (b"refused 5", b"refused 6"))
            want(is_refused or command != commands[0], True, f"{command[0]} over {what} is refused")
            found = set(where(ran, folder))
            want(found, {f"{name}: {words}"} if is_refused else set(), f"{command[0]} over {what}")


@check("where a log is refused is said: the fragment or the record, and what it lacks")
def logs(room):
    want_where(room, LOGS, COMMANDS)


@check("where CURRENT or a MANIFEST is refused is said, and which file is missing")
def manifests(room):
    changed = edited()["MANIFEST-000001"]
    checksum = f"fragment at 0: {sums(masked(FULL + changed[7:-1] + TAB), changed[:4])}"
    rows = [(what, files, name, words or (checksum if what == "a checksum" else EDITS)) for what, files, name, words in MANIFESTS]
    want_where(room, rows, COMMANDS)


@check("where a table is refused is said: the block, the footer or the length, what was found there and what was wanted")
def refused_tables(room):
    want_where(room, TABLES, COMMANDS)


@check("what of tables and logs a check alone holds against one another is said by the table's name")
def held_together(room):
    want_where(room, CHECKED, COMMANDS[:1])


@check("a block of more than 2^30 bytes is said by its place and its length")
def long_blocks(room):
    size = 2**30 + 1
    length = size + 5 + 48
    files = one(b"")
    files["MANIFEST-000001"] = Manifest(log=3, next_file=9, last_sequence=1, tables=[(1, 5, length, ("61", 1), ("61", 1))]).file()
    footer = handle(0, size) + handle(0, size)
    folder = write_directory(room, "folder", None, files)
    with open(f"{folder}/000005.ldb", "r+b") as file:
        file.truncate(length - 48)
        file.seek(length - 48)
        file.write(footer + bytes(40 - len(footer)) + MAGIC)
    ran = asked(COMMANDS[0], folder)
    want((ran.stdout, where(ran, folder)), (b"refused 6 Unsupported\n", [f"000005.ldb: block at 0: it is longer than is read: {size} found, {2**30} at most wanted"]), "a check")


@check("with --keep-going each file that is refused is followed by where that comes from")
def each_file(room):
    files = {**tables({5: CHANGED, 6: ONE_TABLE[:-1] + b"x"}, level=0), "000003.log": GOOD + fragment(9, b"abc")}
    wanted = [
        f"000005.ldb: block at 0: {sums(masked(CHANGED[:22]), ONE_TABLE[22:26])}",
        f"000006.ldb: footer at 128: magic number {MAGIC[:-1].hex()}78 found, {MAGIC.hex()} wanted",
        "000003.log: fragment at 24: there is no such type of a fragment: 9 found, 4 at most wanted",
    ]
    for verb in ("check", "dump"):
        folder = write_directory(room, verb, None, files)
        ran = ldbtool(verb, "--keep-going", folder)
        want(where(ran, folder), wanted, f"{verb} --keep-going")
        said = [it for it in ran.stderr.decode().splitlines() if not it.startswith(f"ldbtool: {folder}/")]
        want(len(said), len(wanted), f"the lines of the files: {said}")


@check("a refusal of the work that --work auto brings has no answer, and is said with the line that brought it")
def work_behind_lines(room):
    folder = write_directory(room, "folder", None, tables({5: CHANGED, 6: ONE_TABLE}, level=0))
    ran = ldbtool("run", "--work", "auto", "--level0-files", "1", folder, script=lines("open", "put 62 32", "get 62"))
    want(ran.stdout, lines("ok", "ok", "value 32"), "the answers")
    want(where(ran, folder), [f"000005.ldb: block at 0: {sums(masked(CHANGED[:22]), ONE_TABLE[22:26])}"], "where it comes from")
    want(b"ldbtool: line 2: refused 5 Corrupt" in ran.stderr, True, f"the line: {ran.stderr}")


@check("what was noted of an earlier refusal is not said of a later one")
def earlier_notes(room):
    folder = write_directory(room, "folder", None, one(CHANGED))
    ran = ldbtool("run", folder, script=lines("open", "get 61", "get 61 7", "get 62", "put 61", "get 61"))
    want(ran.stdout, lines("ok", "refused 5 Corrupt", "refused 8 NoSnapshot", "none", "refused 20 BadLine", "refused 5 Corrupt"), "the answers")
    said = f"000005.ldb: block at 0: {sums(masked(CHANGED[:22]), ONE_TABLE[22:26])}"
    want(where(ran, folder), [said, said], "what is said")


def limited(kind, most):
    return lambda: resource.setrlimit(kind, (most, most))


@check("of Io it is said which file it was, what couldn't be done with it, and what the system says")
def system_errors(room):
    def run(folder, script, **how):
        return subprocess.run([under_test(), "run", folder], input=lines(*script), capture_output=True, timeout=SECONDS, **how)

    locked = new_folder(room, "locked")
    os.symlink("LOCK", f"{locked}/LOCK")
    ran = run(locked, ["open new"])
    want((ran.stdout, where(ran, locked)), (lines("refused 2 Io"), ["LOCK: is a symbolic link, and nothing is written through one"]), "a LOCK that leads nowhere")
    linked, beside = new_folder(room, "linked"), new_folder(room, "beside")
    with open(f"{linked}/other", "wb"):
        pass
    os.link(f"{linked}/other", f"{linked}/LOCK")
    os.mkdir(f"{beside}/LOCK-wal")
    words = "LOCK: must be a plain file, no link and with no second name, and no folder or link may be named LOCK-wal"
    for folder in (linked, beside):
        ran = run(folder, ["open new"])
        want((ran.stdout, where(ran, folder)), (lines("refused 2 Io"), ["LOCK: can't be locked", words]), "a LOCK of two names, or a folder beside it")

    full = new_folder(room, "full")
    ran = run(full, ["open new", f"put 61 {'31' * 5000}", "get 61"], preexec_fn=failing_behind(2000))
    want((ran.stdout, where(ran, full)), (lines("ok", "refused 2 Io", "refused 7 Broken"), ["000002.log: can't be written: File too large (os error 27)"]), "a file that is full")

    made = new_folder(room, "made")
    os.mkdir(f"{made}/MANIFEST-000001")
    ran = run(made, ["open new"])
    want((ran.stdout, where(ran, made)), (lines("ok"), []), "a folder of the name of a MANIFEST: its number is taken")
    want(sorted(os.listdir(made)), ["000003.log", "CURRENT", "LOCK", "MANIFEST-000001", "MANIFEST-000002"], "its files")

    few = write_directory(room, "few", None, one(ONE_TABLE))
    ran = subprocess.run([under_test(), "get", few, "61"], capture_output=True, timeout=SECONDS, preexec_fn=limited(resource.RLIMIT_NOFILE, 5))
    want((ran.stdout, where(ran, few)), (lines("31"), []), "few descriptors: a file is closed for the next")
    ran = subprocess.run([under_test(), "check", few], capture_output=True, timeout=SECONDS, preexec_fn=limited(resource.RLIMIT_NOFILE, 4))
    said = ran.stderr.decode().splitlines()
    want((ran.stdout, f"ldbtool: {few}: can't be listed: Too many open files (os error 24)" in said), (lines("refused 2 Io"), True), f"no descriptor for a listing: {said}")


# the name of the reverse order
REVERSED = "ldbtool.ReverseBytewiseComparator"

# the files of a directory, the options, and the lines that say what helps
HELPS = [
    ({"CURRENT": b"rubbish", "MANIFEST-000004": b"", "MANIFEST-000011": b""}, [], ["the newest MANIFEST here is MANIFEST-000011", "in a copy of the folder, `echo MANIFEST-000011 > CURRENT` names it; then check that"]),
    ({"CURRENT": b"MANIFEST-000009\n", "MANIFEST-000004": b""}, [], ["the newest MANIFEST here is MANIFEST-000004", "in a copy of the folder, `echo MANIFEST-000004 > CURRENT` names it; then check that"]),
    ({"CURRENT": b"MANIFEST-000009\n"}, [], ["no MANIFEST is here: take a backup, or let LevelDB's RepairDB work on a copy"]),
    ({"000003.log": b"", "MANIFEST-000002": b""}, [], ["the newest MANIFEST here is MANIFEST-000002", "in a copy of the folder, `echo MANIFEST-000002 > CURRENT` names it; then check that"]),
    ({**edited(), "MANIFEST-000001": edited()["MANIFEST-000001"][:-1] + b"\x09"}, [], ["the MANIFEST is damaged: take a backup, or let LevelDB's RepairDB work on a copy"]),
    (edited(comparator="mine\x1b"), [], ["the MANIFEST says `mine\\x1b`: an order of another program's own, by which that program alone can read it"]),
    (edited(comparator=REVERSED), [], [f"the MANIFEST says `{REVERSED}`: add `--order reverse`"]),
    (edited(), ["--order", "reverse"], ["the MANIFEST says `leveldb.BytewiseComparator`: leave `--order` out"]),
    (tables({5: DATA + b"\x01" + masked(DATA + b"\x01") + ONE_TABLE[26:], 6: DATA + b"\x02" + masked(DATA + b"\x02") + ONE_TABLE[26:], 7: ONE_TABLE}, level=0), [],
     ["2 of 3 tables have compressed blocks, by (Snappy|Zstd)", "have the program that wrote it copy all pairs into a new database without compression"]),
]  # fmt: skip


@check("what helps after a refusal is said, and `check --keep-going` is advised where it says more")
def helps(room):
    advice = "`ldbtool check --keep-going"
    for number, (files, options, wanted) in enumerate(HELPS):
        for command in COMMANDS:
            folder = write_directory(room, f"{number} {command[0]}", None, files)
            ran = asked([*command, *options], folder)
            said = [it.removeprefix(f"ldbtool: {folder}: ") for it in ran.stderr.decode().splitlines() if it.startswith(f"ldbtool: {folder}: ")]
            found = [it for it in said if not it.startswith(("refused ", "table ", "log ", "each file"))]
            # (a get may find its key before a compressed block, and stats reads no block)
            is_met = b"refused" in ran.stdout + ran.stderr
            want(is_met or command[0] not in ("check", "dump", "scan"), True, f"{command[0]} over row {number} is refused")
            matched = [bool(re.fullmatch(re.escape(it).replace(r"\(Snappy\|Zstd\)", "(Snappy|Zstd)"), one)) for it, one in zip(wanted, found)]
            want((len(found), all(matched)), (len(wanted) if is_met else 0, True), f"{command[0]} over row {number}: {found}")
    damaged = write_directory(room, "damaged", None, one(CHANGED))
    for command in COMMANDS:
        ran = asked(command, damaged)
        is_advised = command[0] in ("get", "scan", "export", "run", "compact")
        want(advice in ran.stderr.decode(), is_advised, f"{command[0]} of a damaged table: {ran.stderr}")


@check("a line that ends with a carriage return is told so")
def carriage_returns(room):
    ran = ldbtool("run", new_folder(room), script=b"open new\r\nput 61 31\r\nget\r\n")
    want(ran.stdout, lines(*["refused 20 BadLine"] * 3), "the answers")
    words = "the line ends with a carriage return: a newline alone is wanted"
    want(ran.stderr.decode().splitlines(), [f"ldbtool: line 1: word 2: {words}", f"ldbtool: line 2: word 3: {words}", f"ldbtool: line 3: word 1: {words}"], "what is said")
