"""Checks of tools/checks/program about `get`, `scan`, `export` and `stats`, and about the forms of
`dump`: what they print, and that they change nothing, whatever stands in the folder."""
import json
import os
import subprocess

from files import ONE_TABLE, Manifest, bytes_of, log_file, new_folder, spelled, table_file, with_table, write_directory
from folders import as_a_user
from listed import check
from running import SECONDS, ldbtool, lines, no_current, under_test, want, want_answers, want_fault, want_printed, want_ran, want_refused
from streams import at_hand, want_beginning, want_next

REVERSE = ("--order", "reverse")

# the pairs of a small database, by key: one without bytes, some that begin alike, some not text
PAIRS = {"": "76", "00": "", "61": "31", "6100": "3100", "6161": "-", "61ff": "33", "6b6579": "76616c7565", "7f20": "5c7e", "ff": "ff", "ffff": "00"}
WORDS = {key or "-": "-" if value in ("", "-") else value for key, value in PAIRS.items()}


def filled(room, name="folder", *options):
    """Makes a folder with these pairs, in tables and in a log, besides overwritten and deleted
    ones."""
    folder = new_folder(room, name)
    keys = list(WORDS)
    script = ["open new", "put 6162 39", "put 61 39", *[f"put {key} {WORDS[key]}" for key in keys[::2]], "compact all", "del 6162", *[f"put {key} {WORDS[key]}" for key in keys[1::2]]]
    want_answers(folder, lines(*script), "; ".join(["ok"] * len(script)), *options)
    return folder


def in_order(turned=False):
    """Returns the keys in their order; in the reverse order a prefix comes last."""
    return sorted(WORDS, key=spelled, reverse=turned)


# ---- get


@check("get prints the value of a key that has one, in each form, and ends with status 4 where it has none")
def gets(room):
    folder = filled(room)
    for key, value in WORDS.items():
        # (a hyphen alone asks for the keys of standard input)
        words = [key, key] if key == "-" else [key]
        want_printed(["get", folder, *words], 0, *[value for _ in words])
        want_printed(["get", folder, *[it.upper() for it in words]], 0, *[value for _ in words])
        want_printed(["get", "--order=bytes", folder, *words], 0, *[value for _ in words])
    for key in ("6162", "6101", "62", "fffe", "ffffff", "0000", "61" * 30_000):
        want_printed(["get", folder, key], 4)
    for key, value in (("a", "1"), ("key", "value"), ("", "v"), ("\x7f ", "\\\\~"), ("\\x7f ", "\\\\~"), ("a\\xff", "3"), ("a\\xFF", "3")):
        want_printed(["get", "--text", folder, key], 0, value)
        want_printed(["get", folder, key, "--text"], 0, value)
    for key in ("b", "61", "key "):
        want_printed(["get", "--text", "--", folder, key], 4)
    raw = write_directory(room, "raw", Manifest(log=2, next_file=3), {"000002.log": log_file([(1, [("2d78", "00097f80ff5c2022"), ("c3a9", "c3a9"), ("62", None)])])})
    want_printed(["get", "--text", "--", raw, "-x"], 0, '\\x00\\x09\\x7f\\x80\\xff\\\\ "')
    want_printed(["get", "--text", raw, "\u00e9"], 0, "\\xc3\\xa9")
    want_printed(["get", raw, "c3a9"], 0, "c3a9")
    want_printed(["get", raw, "62"], 4)


@check("reverse: get finds what the order has, and scan walks it")
def turned(room):
    folder = filled(room, "folder", *REVERSE)
    want_printed(["get", *REVERSE, folder, *WORDS], 0, *WORDS.values())
    want_printed(["scan", *REVERSE, folder], 0, *in_order(True))
    want_printed(["scan", *REVERSE, "--reverse", folder], 0, *in_order(True)[::-1])
    want_printed(["scan", *REVERSE, "--from", "61ff", "--to", "61", folder], 0, "61ff", "6161", "6100")


@check("get prints a line for each key, of the command line or of standard input, in their order; \\N is one without a value")
def gets_many(room):
    folder = filled(room)
    keys, wanted = ["61", "6162", "6100", "61", "ffff", "0000"], ["31", "\\N", "3100", "31", "00", "\\N"]
    want_printed(["get", folder, *keys], 4, *wanted)
    want_printed(["get", folder, "-"], 4, *wanted, script=lines(*keys))
    want_printed(["get", folder, "-"], 4, *wanted, script=lines(*keys)[:-1])
    want_printed(["get", folder, "-"], 0, script=b"")
    want_printed(["get", folder, "-"], 0, *WORDS.values(), script=lines(*WORDS))
    want_printed(["get", "--text", folder, "a", "b", "a\\xff"], 4, "1", "\\N", "3")
    want_printed(["get", "--text", folder, "-"], 0, "v", "1", script=b"\na\n")
    want_printed(["get", folder, "-"], 0, *["31"] * 3_000, script=lines(*["61"] * 3_000))
    for script, line in ((b"61\n6\n61\n", 2), (b"\n", 1), (b"61\r\n", 1)):
        ran = ldbtool("get", folder, "-", script=script)
        want((ran.returncode, ran.stdout, ran.stderr), (1, b"", f"ldbtool: line {line}: a key in hexadecimal is wanted, two digits a byte, or - for the empty one\n".encode()), f"the keys {script}")
    want(ldbtool("get", "--text", folder, "-", script=b"a\n\\q\n").returncode, 1, "a key that is no text")


@check("get --raw writes the bytes of a value alone, whatever they are")
def raw_values(room):
    value = bytes(range(256)) * 100
    folder = write_directory(room, "raw", Manifest(log=2, next_file=3), {"000002.log": log_file([(1, [("61", value.hex()), ("62", ""), ("63", None)])])})
    for key, wanted, status in (("61", value, 0), ("62", b"", 0), ("63", b"", 4), ("64", b"", 4)):
        ran = ldbtool("get", "--raw", folder, key)
        want((ran.returncode, ran.stdout, ran.stderr), (status, wanted, b""), f"the bytes of {key}")
    want(ldbtool("get", "--raw", "--text", folder, "a").stdout, value, "a key as text")


@check("what --text prints of any key and value is taken back as the same bytes")
def texts_return(room):
    some = (0, 9, 10, 13, 31, 32, 34, 45, 47, 91, 92, 93, 120, 126, 127, 128, 255)
    pairs = {bytes([n]): bytes([n, 92, n]) for n in some} | {b"": b"\\", b"\\x41": b"\\\\", bytes(range(256)): b"-"}
    entries = [(key.hex(), value.hex()) for key, value in pairs.items()]
    folder = write_directory(room, "folder", Manifest(log=2, next_file=3), {"000002.log": log_file([(1, entries)])})
    keys = ldbtool("scan", "--text", folder).stdout
    want(ldbtool("scan", folder).stdout.decode().splitlines(), [key.hex() or "-" for key in sorted(pairs)], "the keys")
    values = [ldbtool("get", "--raw", folder, "--text", "--", key).stdout for key in keys.decode().splitlines() if key != "-"]
    want(values, [pairs[key] for key in sorted(pairs) if key != b"-"], "the values of the texts of the keys")
    ran = ldbtool("get", "--text", folder, "-", script=keys)
    want((ran.returncode, len(ran.stdout.splitlines())), (0, len(pairs)), "all of them")
    copy = new_folder(room, "copy")
    for key, value in zip(keys.decode().splitlines(), ran.stdout.decode().splitlines()):
        want_printed(["put", "--text", "--", copy, key, value], 0)
    want(ldbtool("export", copy).stdout, ldbtool("export", folder).stdout, "a copy by text")


@check("put writes a pair and del deletes a key, each synced, and a refusal is said on standard error alone")
def one_by_one(room):
    folder = new_folder(room)
    want_refused(["del", folder, "61"], "3 NoDatabase")
    want_printed(["put", folder, "61", "31"], 0)
    want_printed(["put", "--text", folder, "b", "\\x00"], 0)
    want_printed(["put", folder, "-", "-"], 0)
    want_printed(["scan", "--values", folder], 0, "- -", "61 31", "62 00")
    want_printed(["put", folder, "61", "32"], 0)
    want_printed(["del", folder, "62"], 0)
    want_printed(["del", folder, "62"], 0)
    want_printed(["scan", "--values", folder], 0, "- -", "61 32")
    want_printed(["put", *REVERSE, new_folder(room, "turned"), "61", "31"], 0)
    want_refused(["put", *REVERSE, folder, "61", "31"], "6 Unsupported")
    want_refused(["put", "--text", folder, "a" * 65_536, "31"], "11 KeyTooLong")
    with at_hand(folder) as ran:
        want_next(ran, b"open\n", b"ok\n")
        want_refused(["put", folder, "61", "33"], "18 Locked")
        want_refused(["del", folder, "61"], "18 Locked")
    want_printed(["get", folder, "61"], 0, "32")


# ---- scan


def ranged(turned, first, last, prefix):
    """Returns those of the keys that a scan with these bounds has."""

    def is_before(key, other):
        return spelled(key) > spelled(other) if turned else spelled(key) < spelled(other)

    found = [it for it in in_order(turned) if not (first and is_before(it, first)) and (last is None or is_before(it, last))]
    return [it for it in found if prefix is None or spelled(it).startswith(spelled(prefix))]


BOUNDS = (None, "-", "00", "61", "6100", "6101", "62", "ff", "ffff", "ffffff")


def want_scan(folder, turned, first, last, prefix, limit, backwards):
    options = [*(REVERSE if turned else ()), *(["--reverse"] if backwards else [])]
    for name, value in (("from", first), ("to", last), ("prefix", prefix), ("limit", limit)):
        options += [] if value is None else [f"--{name}", str(value)]
    wanted = ranged(turned, first, last, prefix)
    wanted = (wanted[::-1] if backwards else wanted)[: None if limit is None else limit]
    want_printed(["scan", *options, folder], 0, *wanted)


@check("a scan has the keys from one on and in front of another, forwards and backwards, at most so many, in both orders")
def ranges(room):
    for turned_round in (False, True):
        folder = filled(room, f"folder {turned_round}", *(REVERSE if turned_round else ()))
        for number, (first, last) in enumerate((first, last) for first in BOUNDS for last in BOUNDS):
            for backwards in (False, True):
                want_scan(folder, turned_round, first, last, None, (None, 0, 1, 3, 2**64 - 1)[number % 5], backwards)


@check("a scan has the keys that begin so, within its bounds, forwards and backwards")
def prefixes(room):
    folder = filled(room)
    for prefix in BOUNDS[1:]:
        for number, (first, last) in enumerate(((None, None), ("6100", None), (None, "61ff"), ("00", "ffff"), ("ff", "61"))):
            want_scan(folder, False, first, last, prefix, (None, 2)[number % 2], number % 3 == 0)
            want_scan(folder, False, first, last, prefix, None, True)
    want_printed(["scan", "--prefix", "a", "--text", folder], 0, "a", "a\\x00", "aa", "a\\xff")
    want_printed(["scan", "--prefix", "", "--text", "--limit", "1", folder], 0, "")


# the options of a scan, and the lines that it prints of the pairs `-` to 76, 00 to none, 61 to 31
STYLES = [
    ("", ["-", "00", "61"]),
    ("--values", ["- 76", "00 -", "61 31"]),
    ("--text", ["", "\\x00", "a"]),
    ("--text --values", [" v", "\\x00 ", "a 1"]),
    ("--json", ['{"key":""}', '{"key":"00"}', '{"key":"61"}']),
    ("--json --values", ['{"key":"","value":"76"}', '{"key":"00","value":""}', '{"key":"61","value":"31"}']),
]


@check("a scan prints keys or pairs in hexadecimal, as text or as JSON")
def styles(room):
    folder = filled(room)
    for options, wanted in STYLES:
        behind = "a\x01" if "--text" in options else "6101"
        want_printed(["scan", *options.split(), "--limit", "3", folder], 0, *wanted)
        want_printed(["scan", *options.split(), "--limit", "0", folder], 0)
        found = ldbtool("scan", *options.split(), "--reverse", "--to", behind, folder).stdout.decode().splitlines()
        want(found[1:], wanted[::-1], f"a scan with {options} backwards")


@check("export prints each pair as a put, in the order of the keys")
def exports(room):
    want_printed(["export", filled(room)], 0, *[f"put {key} {WORDS[key]}" for key in in_order()])
    want_printed(["export", *REVERSE, filled(room, "turned", *REVERSE)], 0, *[f"put {key} {WORDS[key]}" for key in in_order(True)])


@check("a scan counts the pairs that it would print, and an export has those of a range")
def counts_and_parts(room):
    folder = filled(room)
    for options in ([], ["--limit", "3"], ["--from", "61", "--to", "62"], ["--prefix", "61", "--reverse"], ["--values", "--json"], ["--text", "--from", "a"], ["--limit", "0"]):
        found = ldbtool("scan", *options, folder).stdout.count(b"\n")
        want_printed(["scan", "--count", *options, folder], 0, str(found))
    for options, keys in ((["--from", "61"], in_order()[2:]), (["--to", "61"], in_order()[:2]), (["--prefix", "61", "--to", "6162"], ["61", "6100", "6161"])):
        want_printed(["export", *options, folder], 0, *[f"put {key} {WORDS[key]}" for key in keys])
    some = ldbtool("export", "--prefix", "61", folder).stdout
    want_printed(["import", "--create", f"{room}/made"], 0, f"taken {some.count(bytes([10]))}", script=some)
    want_printed(["import", "--create", f"{room}/made"], 0, "taken 0")
    want(ldbtool("export", f"{room}/made").stdout, some, "the part")
    want_fault(ldbtool("import", "--create", f"{room}/none/below"), 1, "a folder below one that isn't there")
    with open(f"{room}/file", "wb"):
        pass
    want_fault(ldbtool("import", "--create", f"{room}/file"), 1, "a folder of the name of a file")


@check("many pairs come whole and in order, forwards, backwards and in parts, out of several levels")
def many(room):
    folder = new_folder(room)
    keys = [f"{(n * 7_919) % 20_000:08x}" for n in range(20_000)]
    script = ["open new", *[line for n, key in enumerate(keys) for line in ([f"put {key} {n:06x}"] + (["work 600"] if n % 100 == 99 else []))]]
    ran = ldbtool("run", "--write-buffer", "20000", "--file-bytes", "30000", "--base-bytes", "60000", folder, script=lines(*script))
    want((ran.returncode, ran.stdout.count(b"refused")), (0, 0), "the script")
    wanted = sorted((key, f"{n:06x}") for n, key in enumerate(keys))
    want_printed(["scan", "--values", folder], 0, *[f"{key} {value}" for key, value in wanted])
    want_printed(["scan", "--reverse", folder], 0, *[key for key, _ in wanted[::-1]])
    want_printed(["scan", "--from", wanted[777][0], "--limit", "1000", folder], 0, *[key for key, _ in wanted[777:1777]])
    want_printed(["scan", "--to", wanted[777][0], "--limit", "500", "--reverse", folder], 0, *[key for key, _ in wanted[277:777][::-1]])
    want_printed(["scan", "--prefix", "000012", folder], 0, *[key for key, _ in wanted if key.startswith("000012")])
    want_printed(["export", folder], 0, *[f"put {key} {value}" for key, value in wanted])


# ---- dump


# entries of a table and of a log: keys and values of no bytes, with control characters, not UTF-8,
# and a delete
ENTRIES = "open new; put - 76; put 0a1b 095b; put 225c 22; compact all; put c3a9 -; del 0a1b; put ff20 ff7f; put 6b6579 76616c7565"

# the options of a dump, and the lines that it prints of them
DUMPS = [
    ("", ["table 6 5 - 1 put 76", "table 6 5 0a1b 2 put 095b", "table 6 5 225c 3 put 22",
          "log 3 c3a9 4 put -", "log 3 0a1b 5 delete", "log 3 ff20 6 put ff7f", "log 3 6b6579 7 put 76616c7565"]),
    ("--text", ["table 6 5  1 put v", "table 6 5 \\x0a\\x1b 2 put \\x09[", 'table 6 5 "\\\\ 3 put "',
                "log 3 \\xc3\\xa9 4 put ", "log 3 \\x0a\\x1b 5 delete", "log 3 \\xff  6 put \\xff\\x7f", "log 3 key 7 put value"]),
    ("--json", ['{"file":"table","level":6,"number":5,"key":"","sequence":1,"kind":"put","value":"76"}',
                '{"file":"table","level":6,"number":5,"key":"0a1b","sequence":2,"kind":"put","value":"095b"}',
                '{"file":"table","level":6,"number":5,"key":"225c","sequence":3,"kind":"put","value":"22"}',
                '{"file":"log","number":3,"key":"c3a9","sequence":4,"kind":"put","value":""}',
                '{"file":"log","number":3,"key":"0a1b","sequence":5,"kind":"delete"}',
                '{"file":"log","number":3,"key":"ff20","sequence":6,"kind":"put","value":"ff7f"}',
                '{"file":"log","number":3,"key":"6b6579","sequence":7,"kind":"put","value":"76616c7565"}']),
]  # fmt: skip


@check("a dump prints entries in hexadecimal, as text or as JSON, and of a directory that is refused the refusal alone")
def dumps(room):
    folder = new_folder(room)
    want_answers(folder, ENTRIES, "; ".join(["ok"] * 9))
    damaged = with_table(room, "damaged", ONE_TABLE[:5] + b"\x00" + ONE_TABLE[6:])
    for options, wanted in DUMPS:
        want_printed(["dump", *options.split(), folder], 0, *wanted)
        want_printed(["dump", folder, *options.split(), "--order=bytes"], 0, *wanted)
        empty = new_folder(room, f"empty {options}")
        ran = ldbtool("dump", *options.split(), empty)
        want((ran.returncode, ran.stdout, ran.stderr), (0, b"", no_current(empty)), "a dump of an empty folder")
        want_printed(["dump", *options.split(), damaged], 1, "refused 5 Corrupt")


# two tables of one entry, and a log of one
SECOND_TABLE = table_file([("62", 2, "32")])


def damaged_directory(room, name, first=ONE_TABLE, second=SECOND_TABLE, log=log_file([(3, [("63", "33")])])):
    tables = [(1, 5, len(ONE_TABLE), ("61", 1), ("61", 1)), (1, 6, len(SECOND_TABLE), ("62", 2), ("62", 2))]
    return write_directory(room, name, Manifest(log=7, next_file=8, last_sequence=2, tables=tables), {"000005.ldb": first, "000006.ldb": second, "000007.log": log})


# what of such a directory is damaged, and what is said of it; the entries of the others are printed
# after that
EACH_ENTRY = {"table 1 5": "table 1 5 61 1 put 31", "table 1 6": "table 1 6 62 2 put 32", "log 7": "log 7 63 3 put 33"}
DAMAGES = [
    ({}, []),
    ({"first": ONE_TABLE[:5] + b"\x00" + ONE_TABLE[6:]}, ["table 1 5: refused 5 Corrupt: a table has a checksum that doesn't fit its bytes"]),
    ({"second": SECOND_TABLE[:-1] + b"x"}, ["table 1 6: refused 5 Corrupt: a table "]),
    ({"first": b"", "log": b"\x00" * 7 + b"rubbish" * 9}, ["table 1 5: refused 5 Corrupt: a table ends too soon", "log 7: refused 5 Corrupt: a log "]),
    ({"first": b"x", "second": b"y", "log": b"\x00" * 7 + b"rubbish" * 9}, ["table 1 5: refused 5", "table 1 6: refused 5", "log 7: refused 5"]),
]  # fmt: skip


def want_said(ran, folder, said, what):
    # (tools/checks/whys.py has the lines that say where a refusal comes from)
    lines_said = [it for it in ran.stderr.decode().splitlines() if not it.startswith(f"ldbtool: {folder}/")]
    want(len(lines_said), len(said), f"{what}: {lines_said}")
    for line, wanted in zip(lines_said, said):
        want(line.startswith(f"ldbtool: {folder}: {wanted}"), True, f"{what}: {line}")


# the lines of a script that are refused, and what is said of each
REASONS = [
    ("put 6g 31", "word 2: two hexadecimal digits a byte are wanted"),
    ("write put 61 31 sync", "word 5: put or del is wanted"),
    ("", "word 1: the name of a command is wanted"),
    ("get 61 9", None),
    ("compact 6", None),
    ("open now", "word 2: new, any or nothing more is wanted"),
]


@check("why a line was refused is said by its number: which word is wrong, or what kind of file is damaged")
def reasons_of_lines(room):
    folder = new_folder(room)
    ran = ldbtool("run", folder, script=lines("open new", *(line for line, _ in REASONS)))
    want(ran.stdout.count(b"refused"), len(REASONS), "the refusals")
    said = [f"ldbtool: line {number}: {why}" for number, (_, why) in enumerate(REASONS, 2) if why]
    found = ran.stderr.decode().splitlines()
    want([it.startswith(start) for it, start in zip(found, said)], [True] * len(said), f"{found}")
    want(len(found), len(said), f"{found}")
    ran = ldbtool("import", folder, script=lines("put 61 31", "del", "put 62 32"))
    want((ran.stdout, ran.stderr), (b"refused 20 BadLine\ntaken 0\n", b"ldbtool: line 2: word 2: two hexadecimal digits a byte are wanted, or - for none\n"), "an import")


@check("why a directory was refused is said by each command: what kind of file is damaged and how, and which one it is or how to see that")
def reasons_of_directories(room):
    damage = {"first": ONE_TABLE[:5] + b"\x00" + ONE_TABLE[6:]}
    why = "refused 5 Corrupt: a table has a checksum that doesn't fit its bytes"
    for n, words in enumerate([["get", "61"], ["scan"], ["export"], ["compact"], ["check"], ["dump"]]):
        folder = damaged_directory(room, f"folder {n}", **damage)
        ran = ldbtool(words[0], folder, *words[1:])
        is_data = words[0] in ("get", "scan", "export")
        want((ran.returncode, ran.stdout), (1, b"" if is_data else b"refused 5 Corrupt\n"), f"{words}")
        said = [f"table 1 5: {why}"] if words[0] in ("check", "dump") else [why, "`ldbtool check --keep-going"]
        want_said(ran, folder, said, f"{words}")
    folder = damaged_directory(room, "script", **damage)
    ran = ldbtool("run", folder, script=lines("open", "get 62", "get 61"))
    want(ran.stdout, lines("ok", "value 32", "refused 5 Corrupt"), "the script")
    want(ran.stderr.decode().splitlines()[0], f"ldbtool: line 3: {why}", "what is said of it")
    none = write_directory(room, "no manifest", None, {"CURRENT": b"MANIFEST-000009\n"})
    for command in ("get", "scan", "export", "stats", "check", "dump", "compact"):
        ran = ldbtool(command, none, *(["61"] if command == "get" else []))
        want(ran.stderr.decode().splitlines()[0], f"ldbtool: {none}: refused 5 Corrupt: the MANIFEST isn't there, or lacks a field that it must have", command)
    want_said(ldbtool("get", new_folder(room, "empty"), "61"), f"{room}/empty", ["refused 3 NoDatabase: there is no database"], "no database")


@check("--keep-going: a dump prints the files that are sound, and of the others it is said what is wrong, as a check says it")
def kept_going(room):
    for n, (damage, said) in enumerate(DAMAGES):
        folder = damaged_directory(room, f"folder {n}", **damage)
        sound = [line for name, line in EACH_ENTRY.items() if not any(it.startswith(f"{name}:") for it in said)]
        ran = ldbtool("dump", "--keep-going", folder)
        want((ran.returncode, ran.stdout.decode().splitlines()), (1 if said else 0, sound), f"a dump of {n}")
        want_said(ran, folder, said, f"a dump of {n}")
        checked, plain = ldbtool("check", "--keep-going", folder), ldbtool("check", folder)
        want((checked.returncode, checked.stdout), (plain.returncode, plain.stdout), f"a check of {n}")
        want_said(checked, folder, said, f"a check of {n}")
        want_said(plain, folder, said[:1], f"a plain check of {n}")
    # files that contradict one another, a MANIFEST that can't be read, and none
    twice = damaged_directory(room, "twice", log=log_file([(1, [("61", "33")])]))
    want_said(ldbtool("check", "--keep-going", twice), twice, ["each file is sound by itself"], "a log that is older than a table")
    want_printed(["dump", "--keep-going", twice], 0, *list(EACH_ENTRY.values())[:2], "log 7 61 1 put 33")
    none = write_directory(room, "no manifest", None, {"CURRENT": b"MANIFEST-000009\n"})
    want_printed(["dump", "--keep-going", none], 1, "refused 5 Corrupt")
    want_said(ldbtool("check", "--keep-going", none), none, ["refused 5 Corrupt: the MANIFEST isn't there", "no MANIFEST is here"], "no MANIFEST")
    empty = new_folder(room, "empty")
    for words in (["check"], ["dump"]):
        want(ldbtool(*words, "--keep-going", empty).stderr, no_current(empty), f"{words} of an empty folder")


def words_of_object(line):
    """Returns the line of words that says what this object does."""
    found = json.loads(line)
    place = ["table", found.pop("level"), found.pop("number")] if found["file"] == "table" else ["log", found.pop("number")]
    change = ["put", found.pop("value") or "-"] if found["kind"] == "put" else ["delete"]
    words = [*place, found.pop("key") or "-", found.pop("sequence"), *change]
    want(found, {"file": place[0], "kind": change[0]}, f"what is left of {line}")
    return " ".join(str(it) for it in words)


@check("each object of a dump says what its line of words does, in both orders")
def dumped_objects(room):
    for options in ((), REVERSE):
        folder = filled(room, f"folder {len(options)}", *options)
        words, objects = (ldbtool("dump", *more, *options, folder).stdout.decode().splitlines() for more in ((), ("--json",)))
        want([words_of_object(it) for it in objects], words, "the objects")
        want(len(words) > len(PAIRS), True, "there are entries")


# ---- stats


def described(folder, *options):
    """Returns what stats prints: the head's values, each level's files, bytes and whether a
    compaction is due, and each log's bytes."""
    ran = ldbtool("stats", *options, folder)
    want((ran.returncode, ran.stderr), (0, b""), f"stats of {os.path.basename(folder)}")
    words = [line.split() for line in ran.stdout.decode().splitlines()]
    head = {it[0]: it[1] for it in words if it[0] not in ("level", "log")}
    levels = {int(it[1]): (int(it[3]), int(it[5]), it[6:] == ["due"]) for it in words if it[0] == "level"}
    want(list(levels), list(range(7)), "the levels")
    return head, levels, {int(it[1]): int(it[3]) for it in words if it[0] == "log"}


def lengths(folder, ending):
    return {int(name[:6]): os.path.getsize(f"{folder}/{name}") for name in os.listdir(folder) if name.endswith(ending)}


def levels_by_check(folder):
    """Returns the same of each level, by the tables that a check names and the lengths of their
    files. Level 0 is due with four files."""
    found, sizes = {level: (0, 0, False) for level in range(7)}, lengths(folder, ".ldb")
    for line in ldbtool("check", folder).stdout.decode().splitlines():
        word, level, number, *_ = line.split() + ["", "", ""]
        if word == "table":
            files, length, _ = found[int(level)]
            found[int(level)] = files + 1, length + sizes[int(number)], int(level) == 0 and files + 1 >= 4
    return found


@check("stats says of each level what a check and the files' lengths say, and how long the logs are, in both orders")
def counted(room):
    for options in ((), REVERSE):
        folder = filled(room, f"folder {len(options)}", *options)
        head, levels, logs = described(folder, *options)
        want((head["comparator"], head["next-file"]), ("ldbtool.ReverseBytewiseComparator" if options else "leveldb.BytewiseComparator", "6"), "the head")
        want(logs, {number: length for number, length in lengths(folder, ".log").items() if number in logs}, "the logs")
        want((levels[6][0], sum(logs.values()) > 0), (1, True), "what there is")
    for count in (3, 4, 5):
        folder = new_folder(room, f"{count} tables")
        script = ["open new", *[line for n in range(count) for line in (f"put 61 {n:02x}", "work 1")], "put 62 -"]
        ran = ldbtool("run", "--write-buffer", "1", "--level0-files", "100", folder, script=lines(*script))
        want((ran.returncode, ran.stdout.count(b"refused")), (0, 0), "the script")
        want(described(folder)[1], levels_by_check(folder), f"the levels of {count} tables")
        want(described(folder)[1][0][2], levels_by_check(folder)[0][0] >= 4, "level 0 is due")


@check("each level is due from its own number of bytes on, by the sizes that the MANIFEST tells, though no table is there")
def due_levels(room):
    for level in range(1, 7):
        limit = 10 * 2**20 * 10 ** (level - 1)
        for size, is_due in ((limit, False), (limit + 1, level < 6)):
            folder = write_directory(room, f"{level} {size}", Manifest(log=9, next_file=10, last_sequence=2, tables=[(level, 5, size - 7, ("61", 1), ("62", 2)), (level, 6, 7, ("63", 1), ("64", 2))]), {})
            head, levels, logs = described(folder)
            want((head["recorded-sequence"], levels[level], logs), ("2", (2, size, is_due), {}), f"level {level}")


@check("each object of stats says what its line of words does; of a folder without a database, and of a refused one, nothing is printed")
def objects_of_stats(room):
    folder = filled(room)
    head, levels, logs = described(folder)
    found = [json.loads(line) for line in ldbtool("stats", "--json", folder).stdout.decode().splitlines()]
    want({name: str(value) for name, value in found[0].items()}, head, "the first object")
    want({it["level"]: (it["files"], it["bytes"], it["due"]) for it in found[1:8]}, levels, "the levels")
    want({it["log"]: it["bytes"] for it in found[8:]}, logs, "the logs")
    empty = new_folder(room, "empty")
    for options in ((), ("--json",)):
        want_refused(["stats", *options, empty], "3 NoDatabase")
    want_refused(["stats", *REVERSE, folder], "6 Unsupported")
    want_refused(["stats", write_directory(room, "no manifest", None, {"CURRENT": b"MANIFEST-000009\n"})], "5 Corrupt")
    want_refused(["stats", write_directory(room, "no CURRENT", None, {"000005.ldb": b"x"})], "5 Corrupt")
    # (damage in a table or a log isn't looked for)
    want(ldbtool("stats", with_table(room, "table", ONE_TABLE[:5] + b"\x00" + ONE_TABLE[6:])).returncode, 0, "a damaged table")


# ---- refusals


def want_each(folder, refusal, options=()):
    """Each of them is refused so, of which standard error alone says something."""
    for words in (["get", folder, "61"], ["get", folder, "61", "62"], ["scan", folder], ["scan", "--reverse", folder], ["scan", "--count", folder], ["export", folder]):
        want_refused([*words, *options], refusal)


@check("an empty folder, a damaged one, and one of another order or with compressed blocks are refused by get, scan and export")
def refused(room):
    want_each(new_folder(room, "empty"), "3 NoDatabase")
    want_each(filled(room, "bytes"), "6 Unsupported", options=REVERSE)
    want_each(write_directory(room, "no manifest", None, {"CURRENT": b"MANIFEST-000009\n"}), "5 Corrupt")
    want_each(write_directory(room, "rubbish", None, {"CURRENT": b"MANIFEST-000001\n", "MANIFEST-000001": b"rubbish"}), "5 Corrupt")
    want_each(with_table(room, "table", ONE_TABLE[:5] + b"\x00" + ONE_TABLE[6:]), "5 Corrupt")
    # (a script's bad log)
    log = log_file([(1, [("61", "31")])])
    want_each(write_directory(room, "log", Manifest(log=2, next_file=3), {"000002.log": b"\x00" + log[1:] + log}), "5 Corrupt")


@check("what a scan, an export or a get printed before a refusal holds, and standard error alone says the refusal")
def refused_behind(room):
    folder = new_folder(room)
    want_answers(folder, "open new; put 61 31; put 62 32; put 63 33; compact all; close", "ok; ok; ok; ok; ok; ok", "--block-bytes", "1")
    table = bytearray(bytes_of(folder, "000005.ldb"))
    at = table.index(b"\x63\x01\x03")
    table[at] ^= 1
    with open(f"{folder}/000005.ldb", "wb") as file:
        file.write(table)
    want_refused(["scan", "--values", folder], "5 Corrupt", "61 31", "62 32")
    want_refused(["export", folder], "5 Corrupt", "put 61 31", "put 62 32")
    want_refused(["scan", "--reverse", folder], "5 Corrupt")
    want_refused(["scan", "--count", folder], "5 Corrupt")
    want_refused(["get", folder, "61", "63", "62"], "5 Corrupt", "31")
    want_printed(["scan", "--limit", "2", folder], 0, "61", "62")
    want_printed(["get", folder, "61"], 0, "31")
    want_refused(["get", folder, "63"], "5 Corrupt")


# ---- nothing is changed


READERS = (["get", "61"], ["get", "7a"], ["scan"], ["scan", "--values", "--reverse"], ["export"], ["stats"], ["stats", "--json"], ["check"], ["check", "--keep-going"], ["dump"], ["dump", "--keep-going"], ["dump", "--text"], ["dump", "--json"], ["mend", "--dry-run"], ["mend", "--dry-run", "--holes"])


def words_over(words, folder):
    return [words[0], folder, *words[1:]]


def seen(folder):
    """Returns each file's bytes and times, and the folder's own."""
    times = [os.stat(folder).st_mtime_ns]
    return times, {name: (bytes_of(folder, name), os.stat(f"{folder}/{name}").st_mtime_ns, os.stat(f"{folder}/{name}").st_ino) for name in os.listdir(folder)}


@check("get, scan, export, stats, check and dump leave every file as it was, in good folders, empty ones and damaged ones")
def unchanged(room):
    torn = log_file([(1, [("61", "31")]), (2, [("62", "32")])])
    stray = {"000009.ldb": b"rubbish", "000001.log": b"", "000007.dbtmp": b"x", "LOG": b"x", "other": b"x", "MANIFEST-000000": b""}
    folders = [
        filled(room, "good"), new_folder(room, "empty"), with_table(room, "one", ONE_TABLE), with_table(room, "damaged", ONE_TABLE[:-1] + b"x"),
        write_directory(room, "torn", Manifest(log=2, next_file=3), {"000002.log": torn[:-1]}), write_directory(room, "stray", None, stray),
        with_table(room, "one with strays", ONE_TABLE, **stray), write_directory(room, "no lock", Manifest(log=2, next_file=3), {"000002.log": torn}),
    ]  # fmt: skip
    for folder in folders:
        before = seen(folder)
        for words in READERS:
            for options in ((), REVERSE):
                ldbtool(*words_over(words, folder), *options)
                want(seen(folder), before, f"{os.path.basename(folder)} behind {words}")


@check("beside a process that has the database open they print what is there, and its work goes on")
def beside(room):
    folder = new_folder(room)
    with at_hand(folder) as ran:
        want_next(ran, b"open new\nput 61 31\nput 62 32\ncompact all\nput 63 33\n", b"ok\n" * 5)
        before = seen(folder)
        want_printed(["get", folder, "61"], 0, "31")
        want_printed(["scan", "--values", folder], 0, "61 31", "62 32", "63 33")
        want_printed(["export", folder], 0, "put 61 31", "put 62 32", "put 63 33")
        for words in READERS:
            ldbtool(*words_over(words, folder))
        want(seen(folder), before, "the files")
        want_next(ran, b"put 61 39\nget 61\n", b"ok\nvalue 39\n")
        want_printed(["get", folder, "61"], 0, "39")


@check("in a folder that is read-only they print the same")
def read_only(room):
    program, how = as_a_user(room)
    folder = filled(room)
    wanted = [ldbtool(*words_over(words, folder)).stdout for words in READERS]
    for path in (*[f"{folder}/{name}" for name in os.listdir(folder)], folder):
        os.chmod(path, 0o555 if path == folder else 0o444)
        if how:
            os.chown(path, how["user"], how["group"])
    before = seen(folder)
    for words, printed in zip(READERS, wanted):
        ran = subprocess.run([program, *words_over(words, folder)], capture_output=True, timeout=SECONDS, **how)
        want((ran.stdout, ran.stderr), (printed, b""), f"{words} of a read-only folder")
    want(seen(folder), before, "the files")
    os.chmod(folder, 0o755)


# ---- streams


@check("a get, a scan, an export or a dump whose output fails behind any byte has written the bytes before, and ends with status 1")
def failing_outputs(room):
    folder = filled(room)
    for words in (["get", folder, "6b6579"], ["scan", "--values", folder], ["scan", "--json", "--reverse", folder], ["export", folder], ["dump", "--json", folder]):
        whole = ldbtool(*words).stdout
        for count in range(0, len(whole) + 2, 1 if len(whole) < 100 else 7):
            want_beginning(room, words, b"", whole, count)


@check("a scan or an export whose pipe is closed ends with status 1, without a word")
def closed_pipe(room):
    folder = new_folder(room)
    want_answers(folder, lines("open new", *[f"put {n:08x} {'ab' * 500}" for n in range(300)]), "; ".join(["ok"] * 301))
    for words in (["scan", "--values", folder], ["export", folder], ["scan", "--values", "--reverse", "--json", folder]):
        ran = subprocess.run(["sh", "-c", '"$@" | head -n 1; exit 0', "sh", *[under_test(), *words]], capture_output=True, timeout=SECONDS)
        want((ran.stdout.count(b"\n"), ran.stderr), (1, b""), f"{words[0]} into head")
    reading, writing = os.pipe()
    os.close(reading)
    for words in (["get", folder, "00000001"], ["scan", folder]):
        ran = subprocess.run([under_test(), *words], stdout=writing, stderr=subprocess.PIPE, timeout=SECONDS)
        want((ran.returncode, ran.stderr), (1, b""), f"{words[0]} into a closed pipe")
    os.close(writing)
    for words in (["get", folder, "00000001"], ["scan", folder], ["export", folder]):
        with open("/dev/full", "wb") as full:
            ran = subprocess.run([under_test(), *words], stdout=full, stderr=subprocess.PIPE, timeout=SECONDS)
        want((ran.returncode, ran.stderr[:9]), (1, b"ldbtool: "), f"{words} to /dev/full")


@check("a get of a missing key says nothing, and a wrong folder is said on standard error")
def statuses(room):
    folder = filled(room)
    want_ran(ldbtool("get", folder, "6163"), 4, b"", "a missing key")
    for words in (["get", f"{room}/none", "61"], ["scan", f"{room}/none"], ["export", f"{room}/none"], ["stats", f"{room}/none"]):
        want_fault(ldbtool(*words), 1, f"{words}")
    two = table_file([("61", 2, "32"), ("62", 1, "31")])
    table = write_directory(room, "table", Manifest(log=3, next_file=6, last_sequence=2, tables=[(6, 5, len(two), ("61", 2), ("62", 1))]), {"000003.log": b"", "000005.ldb": two})
    want_printed(["scan", "--values", table], 0, "61 32", "62 31")
