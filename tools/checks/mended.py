"""Checks of tools/checks/program about `mend`: what a power loss leaves with zeros, made by hand
from the format (docs/FORMATS.md), and damage that isn't of that kind."""
import fcntl
import os

from files import BLOCK, Manifest, bytes_of, log_file, log_of, new_folder, record, write_directory
from listed import check
from running import ldbtool, lines, want, want_answers, want_printed, want_ran, want_refused

# three batches, with where each ends; the last value ends in a zero
THREE = log_file([(1, [("61", "31")]), (2, [("62", "32")]), (3, [("63", "3300")])])
ENDS = (0, 24, 48, 73)
PAIRS = ("61 31", "62 32", "63 3300")
REVERSED = "ldbtool.ReverseBytewiseComparator"

# each command that reads or opens, and what it is given
COMMANDS = (["get", "DIR", "61"], ["scan", "DIR"], ["export", "DIR"], ["check", "DIR"], ["dump", "DIR"], ["run", "DIR"], ["import", "DIR"], ["compact", "DIR"], ["put", "DIR", "64", "34"], ["del", "DIR", "61"])


def files_of(log, manifest=None):
    """Returns the files of a directory with this log."""
    return {"CURRENT": b"MANIFEST-000001\n", "MANIFEST-000001": manifest or Manifest(log=2, next_file=9).file(), "000002.log": log}


def state(folder):
    """Returns the bytes of each file but LOCK."""
    return {name: bytes_of(folder, name) for name in os.listdir(folder) if name != "LOCK"}


def want_state(folder, files, what):
    want(state(folder), files, f"the files behind {what}")


def want_mended(room, name, files, printed, left, *options):
    """Checks that a dry run says it and changes nothing, that `mend` does it, and that nothing is
    left to do."""
    folder = write_directory(room, name, None, files)
    want_printed(["mend", "--dry-run", *options, folder], 0, *printed)
    want(sorted(os.listdir(folder)), sorted(files), f"the names behind a dry run over {name}")
    want_state(folder, files, f"a dry run over {name}")
    want_printed(["mend", *options, folder], 0, *printed)
    want_state(folder, {**files, **left}, f"a mend of {name}")
    want_printed(["mend", *options, folder], 0, "nothing to mend")
    want_state(folder, {**files, **left}, f"a second mend of {name}")
    return folder


def is_torn(rest):
    """Says whether a file ends before the fragment does that begins here."""
    return len(rest) < 7 or len(rest) < 7 + rest[4] + 256 * rest[5]


@check("mend cuts a log at each place where a power loss may cut it and leave zeros, and what was written before is there")
def cut_logs(room):
    for kept in range(len(THREE)):
        for zeros in (1, 6, 7, 8, 30, 600)[kept % 6 :: 6]:
            log = THREE[:kept] + bytes(zeros)
            whole = max(number for number, end in enumerate(ENDS) if log[:end] == THREE[:end])
            at = ENDS[whole]
            folder = write_directory(room, f"{kept} {zeros}", None, files_of(log))
            ran = ldbtool("mend", folder)
            front = bytes_of(folder, "000002.log")
            # (a record that the file's end cuts off is a torn tail, and stays)
            if is_torn(log[at:]):
                want((ran.stdout, front), (b"nothing to mend\n", log), f"{kept} bytes and {zeros} zeros")
            else:
                ends = len(log) - max(at, len(log.rstrip(b"\0")))
                want(ran.stdout, lines(f"000002.log at {at} zeros {ends} broken {len(log) - at - ends}"), f"{kept} bytes and {zeros} zeros")
                want(front, log[:at], f"the log of {kept} bytes and {zeros} zeros")
            want_printed(["scan", "--values", folder], 0, *PAIRS[:whole])


@check("mend cuts the MANIFEST and the logs, each behind its last whole record, and prints a line for each")
def cut_both(room):
    manifest = Manifest(log=2, next_file=9).file()
    rows = [
        ("a log", files_of(THREE + bytes(9)), ["000002.log at 73 zeros 9 broken 0"], {"000002.log": THREE}),
        ("part of a record", files_of(THREE[:70] + bytes(9)), ["000002.log at 48 zeros 9 broken 22"], {"000002.log": THREE[:48]}),
        ("no record", files_of(bytes(500)), ["000002.log at 0 zeros 500 broken 0"], {"000002.log": b""}),
        ("a MANIFEST", files_of(THREE, manifest + bytes(40)), ["MANIFEST-000001 at 41 zeros 40 broken 0"], {"MANIFEST-000001": manifest}),
        ("both, and a second log", {**files_of(THREE + bytes(9), manifest + bytes(7)), "000005.log": record(b"\x04" + bytes(7) + b"\0\0\0\0") + bytes(12)},
         ["MANIFEST-000001 at 41 zeros 7 broken 0", "000002.log at 73 zeros 9 broken 0", "000005.log at 19 zeros 12 broken 0"],
         {"MANIFEST-000001": manifest, "000002.log": THREE, "000005.log": record(b"\x04" + bytes(7) + b"\0\0\0\0")}),
    ]  # fmt: skip
    for name, files, printed, left in rows:
        folder = want_mended(room, name, files, printed, left)
        want(ldbtool("check", folder).stdout[:5], b"good\n", f"a check of {name}")
    first = log_of([b"x" * 40_000])
    want_mended(room, "over blocks", files_of(first[: BLOCK + 700] + bytes(6_600)), ["000002.log at 32768 zeros 6600 broken 700"], {"000002.log": first[:BLOCK]})


@check("logs that aren't in use are left alone, and so is every other file")
def left_alone(room):
    strays = {"000001.log": bytes(50), "MANIFEST-000009": bytes(50), "000007.ldb": bytes(50), "000002.dbtmp": b"x", "other": bytes(50)}
    folder = write_directory(room, "folder", None, {**files_of(THREE + bytes(9)), **strays})
    want_printed(["mend", folder], 0, "000002.log at 73 zeros 9 broken 0")
    want({name: text for name, text in state(folder).items() if name in strays}, {name: text for name, text in strays.items() if name != "000002.dbtmp"}, "the others")


@check("where nothing is to mend, no file is changed, and it is said in words")
def nothing(room):
    for name, files in (("good", files_of(THREE)), ("torn", files_of(THREE[:-3])), ("torn, with zeros", files_of(THREE[:60] + bytes(12))), ("an empty log", files_of(b""))):
        want_mended(room, name, files, ["nothing to mend"], {})
    for name, files in (("empty", {}), ("no database", {"other": b"x"})):
        folder = write_directory(room, name, None, files)
        ran = ldbtool("mend", folder)
        want((ran.returncode, ran.stdout, ran.stderr), (0, b"nothing to mend\n", f"ldbtool: {folder}: no CURRENT here: no database, or an empty one\n".encode()), name)
        want_state(folder, files, f"a mend of {name}")


def flipped(text, place):
    return text[:place] + bytes([text[place] ^ 1]) + text[place + 1 :]


# damage that no power loss leaves so: the files, and what is said of the file and the byte
OTHERS = [
    ("a flipped bit in the middle, with whole records behind it", files_of(flipped(THREE, 30)), "/000002.log: fragment at 24: "),
    ("one in the first record, and zeros at the end", files_of(flipped(THREE, 20) + bytes(3_000)), "/000002.log: fragment at 0: "),
    ("one in the last record, behind which nothing stands", files_of(flipped(THREE[:48], 40)), "/000002.log: fragment at 24: "),
    ("zeros, and a byte behind them", files_of(THREE + bytes(600) + b"x"), "/000002.log: fragment at 73: "),
    ("a length past the block", files_of(THREE + bytes(4) + b"\xff\xff\x01" + bytes(30)), "/000002.log: fragment at 73: "),
    ("a flipped bit in the MANIFEST", files_of(THREE, flipped(Manifest(log=2, next_file=9).file(), 20)), "/MANIFEST-000001: fragment at 0: "),
    ("one in the MANIFEST, and a log to mend", files_of(THREE + bytes(9), flipped(Manifest(log=2, next_file=9).file(), 20)), "/MANIFEST-000001: fragment at 0: "),
    ("one in a log, and a MANIFEST to mend", files_of(flipped(THREE, 30), Manifest(log=2, next_file=9).file() + bytes(9)), "/000002.log: damaged at byte 24"),
    ("one in a log, and another log to mend", {**files_of(flipped(THREE, 30)), "000005.log": bytes(20)}, "/000002.log: fragment at 24: "),
    ("a CURRENT that names nothing", {**files_of(THREE + bytes(9)), "CURRENT": b"x\n"}, "/CURRENT: "),
    ("a MANIFEST that isn't there", {**files_of(THREE), "CURRENT": b"MANIFEST-000004\n"}, "/MANIFEST-000004: isn't there"),
]  # fmt: skip


@check("any other damage stays Corrupt for mend and for an open, with the file and the byte, and no file is changed")
def other_damage(room):
    for name, files, said in OTHERS:
        folder = write_directory(room, name, None, files)
        for words in (["mend", "--dry-run", folder], ["mend", folder]):
            ran = ldbtool(*words)
            want((ran.returncode, ran.stdout, said in ran.stderr.decode()), (1, b"refused 5 Corrupt\n", True), f"{words[:-1]} of {name}: {ran.stderr}")
            want_state(folder, files, f"{words[:-1]} of {name}")
        for words in (["run", "--mend", folder], ["import", "--mend", folder], ["compact", "--mend", folder]):
            ran = ldbtool(*words, script=b"open\n")
            want((ran.returncode, ran.stdout, b": refused 5 Corrupt: " in ran.stderr, said in ran.stderr.decode()), (1, b"", True, True), f"{words[:-1]} of {name}: {ran.stderr}")
            want_state(folder, files, f"{words[:-1]} of {name}")
        want_answers(folder, "open; close", "refused 5 Corrupt; refused 16 NotOpen")
        want_state(folder, files, f"an open of {name}")


@check("a refusal for zeros at the end says so in words and names the command, whatever was asked for; another one doesn't")
def hints(room):
    for number, (log, manifest, file) in enumerate([(THREE + bytes(20), None, "000002.log"), (THREE, Manifest(log=2, next_file=9).file() + bytes(20), "MANIFEST-000001")]):
        for words in COMMANDS:
            folder = write_directory(room, f"{number} {words[0]}", None, files_of(log, manifest))
            ran = ldbtool(*[folder if it == "DIR" else it for it in words], script=b"open\n" if words[0] == "run" else b"put 6d 31\n")
            wanted = [f"ldbtool: {folder}: {file} ends in 20 zeros, as a power loss leaves them on ext4", f"ldbtool: {folder}: `ldbtool mend {folder}` cuts them off, and nothing that was synced"]
            want(ran.stderr.decode().splitlines()[-2:], wanted, f"what {words[0]} says at its end")
            want_state(folder, files_of(log, manifest), f"a refused {words[0]}")
    folder = write_directory(room, "reversed", None, files_of(THREE + bytes(20), Manifest(log=2, next_file=9, comparator=REVERSED).file()))
    said = ldbtool("get", "--order", "reverse", folder, "61").stderr.decode()
    want(f"`ldbtool mend --order reverse {folder}`" in said, True, f"the command over another order: {said}")
    want_printed(["mend", "--order", "reverse", folder], 0, "000002.log at 73 zeros 20 broken 0")
    for name, files, _ in OTHERS:
        folder = write_directory(room, name, None, files)
        for words in (["check", folder], ["get", folder, "61"], ["mend", folder]):
            said = ldbtool(*words).stderr.decode()
            want([it for it in said.splitlines() if "ldbtool mend " in it and "--holes" not in it], [], f"what {words[0]} of {name} advises")


@check("with --holes a log is cut where zeros stand within it, as is said beside; and the refusal names that only where it helps")
def holes(room):
    batches = [(number, [(f"{number:02x}", "ee" * 300)]) for number in range(1, 20)]
    log = log_file(batches)
    size = len(log) // len(batches)
    # from the end of the fourth record to the end of its sector of 512 bytes
    begin, end = 4 * size, (4 * size // 512 + 1) * 512
    left = log[:begin] + bytes(end - begin) + log[end:]
    whole = len(batches) - 1 - end // size
    files = files_of(left)
    folder = write_directory(room, "folder", None, files)
    for words in (["check", folder], ["get", folder, "01"], ["mend", folder]):
        ran = ldbtool(*words)
        said = ran.stderr.decode()
        want((ran.returncode, f"`ldbtool mend --holes {folder}`" in said), (1, True), f"what {words[0]} advises: {said}")
        want_state(folder, files, f"a refused {words[0]}")
    said = f"ldbtool: {folder}: whole records of 000002.log after byte {begin}, which go too: {whole}\n"
    printed = f"000002.log at {begin} zeros 0 broken {len(log) - begin}"
    for options, wanted in ((["--dry-run"], left), ([], log[:begin])):
        ran = ldbtool("mend", "--holes", *options, folder)
        want((ran.returncode, ran.stdout, ran.stderr.decode()), (0, lines(printed), said), f"mend --holes {options}")
        want(bytes_of(folder, "000002.log"), wanted, f"the log behind mend --holes {options}")
    want_printed(["scan", "--count", folder], 0, "4")
    want_mended(room, "zeros at the end", files_of(THREE), ["nothing to mend"], {}, "--holes")
    ran = ldbtool("mend", "--holes", write_directory(room, "flipped", None, files_of(flipped(log, 20))))
    want((ran.returncode, ran.stdout), (1, b"refused 5 Corrupt\n"), "a flipped bit")


@check("run, import and compact mend first with --mend, and say on standard error what was cut")
def first(room):
    rows = [
        (["run", "--mend"], b"open\nget 62\nput 64 34\nclose\n", lines("ok", "value 32", "ok", "ok")),
        (["import", "--mend"], b"put 64 34\n", lines("taken 1")),
        (["compact", "--mend"], b"", lines("ok")),
    ]  # fmt: skip
    for words, script, printed in rows:
        folder = write_directory(room, words[0], None, files_of(THREE[:70] + bytes(9)))
        ran = ldbtool(*words, folder, script=script)
        said = f"ldbtool: {folder}: 000002.log was cut at byte 48: 9 bytes of zeros, 22 of a record cut short\n"
        want((ran.returncode, ran.stdout, ran.stderr.decode()), (0, printed, said), words[0])
        want(ldbtool("check", folder).stdout[:5], b"good\n", f"a check behind {words[0]}")
        good = write_directory(room, f"good {words[0]}", None, files_of(THREE))
        want_ran(ldbtool(*words, good, script=script), 0, printed, f"{words[0]} of a good one")
    folder = new_folder(room, "new")
    want_ran(ldbtool("run", "--mend", folder, script=b"open new\nput 61 31\n"), 0, lines("ok", "ok"), "a new database")
    made = f"{room}/made"
    want_ran(ldbtool("import", "--create", "--mend", made, script=b"put 61 31\n"), 0, lines("taken 1"), "a folder that is made")


@check("mend takes the lock, so another process's database is left alone")
def locked(room):
    folder = write_directory(room, "folder", None, {**files_of(THREE + bytes(9)), "LOCK": b""})
    with open(f"{folder}/LOCK", "r+b") as lock:
        fcntl.lockf(lock, fcntl.LOCK_EX)
        want_ran(ldbtool("mend", folder), 1, lines("refused 18 Locked"), "a mend beside another process")
        want_refused(["run", "--mend", folder], "18 Locked", script=b"open\n")
        want_printed(["mend", "--dry-run", folder], 0, "000002.log at 73 zeros 9 broken 0")
        want_state(folder, files_of(THREE + bytes(9)), "all of these")
    want_printed(["mend", folder], 0, "000002.log at 73 zeros 9 broken 0")
