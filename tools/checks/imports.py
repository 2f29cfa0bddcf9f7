"""Checks of tools/checks/program about `import`, `compact`, and `run` with `--strict` and `--work`:
what is accepted, what is said, and what is left in the folder."""
import os
import pty
import re
import select
import subprocess
import time

from browsing import REVERSE, WORDS, filled, in_order
from files import Manifest, log_file, new_folder, write_directory
from folders import OPTIONS
from listed import Wrong, check
from running import SECONDS, ldbtool, lines, under_test, want, want_answers, want_printed, want_ran, want_refused, want_report, want_refused
from streams import at_hand, failing_behind, want_next

BAD = "refused 20 BadLine"


def want_import(folder, operations, status, *printed, options=()):
    want_printed(["import", *options, folder], status, *printed, script=lines(*operations))


def want_pairs(folder, *pairs, options=()):
    want_printed(["scan", "--values", *options, folder], 0, *pairs)


# ---- imports


@check("import takes puts and deletes, makes a database where there is none, and tells how many")
def imports(room):
    folder = new_folder(room)
    want_import(folder, [], 0, "taken 0")
    want_report(folder, "good", "last-sequence 0", "log 2 0 clean")
    want_import(folder, ["put 61 31", "put 62 -", "put - 33", "del 63", "put 61 34"], 0, "taken 5")
    want_pairs(folder, "- 33", "61 34", "62 -")
    want_import(folder, ["del -", "put 6B 4C", "del 62"], 0, "taken 3")
    want_pairs(folder, "61 34", "6b 4c")
    # the last line needs no newline
    want_printed(["import", folder], 0, "taken 2", script=b"del 61\nput 62 32")
    want_pairs(folder, "62 32", "6b 4c")
    want(ldbtool("check", folder).stdout[:5], b"good\n", "a check")


@check("what was imported counts in the order of its lines, whatever the batches are")
def batches(room):
    operations = [f"{'del' if n % 7 == 3 else 'put'} {n * 5 % 23:02x}{'' if n % 7 == 3 else f' {n:04x}'}" for n in range(1_500)]
    held = {}
    for line in operations:
        verb, key, *value = line.split()
        held.pop(key, None)
        held.update({key: value[0]} if verb == "put" else {})
    wanted = [f"{key} {held[key]}" for key in sorted(held)]
    for number, options in enumerate(([], ["--batch", "1"], ["--batch", "7", "--sync"], ["--batch", "1499"], ["--batch=1500"], ["--batch", "65536"], ["--write-buffer", "300", "--batch", "10"])):
        folder = new_folder(room, f"{number}")
        want_import(folder, operations, 0, "taken 1500", options=options)
        want_pairs(folder, *wanted)
        report = ldbtool("check", folder).stdout.decode()
        want(report.startswith("good\nlast-sequence 1500\n"), True, f"a check behind {options}: {report[:100]}")


# lines that no import takes
NONE = ["", "put", "put 61", "del", "get 61", "open", "close", "put 61 31 32", "del 61 31", "put  61 31", "put 61 31 ", "put 6 31", "put 6x 31", "PUT 61 31", "write put 61 31",
        "write", "work 1", "compact all", "put 61 31\r", "refused 5 Corrupt", "taken 1", "sync"]  # fmt: skip


@check("a line that is none ends an import: whole batches in front of it are taken, and no line behind it is")
def bad_lines(room):
    for number, line in enumerate(NONE):
        folder = new_folder(room, f"{number}")
        want_import(folder, ["put 61 31", line, "put 62 32"], 1, BAD, "taken 0")
        want_pairs(folder)
        want_import(folder, ["put 61 31", "put 62 32", "put 63 33", line, "put 64 34"], 1, BAD, "taken 2", options=["--batch", "2"])
        want_pairs(folder, "61 31", "62 32")
    folder = new_folder(room)
    want_printed(["import", "--batch", "1", folder], 1, BAD, "taken 1", script=b"put 61 31\n\xff\xfe\nput 62 32\n")
    want_pairs(folder, "61 31")
    want_import(folder, [*[f"put {n:04x} 31" for n in range(2_500)], "x"], 1, BAD, "taken 2000")
    want(ldbtool("scan", folder).stdout.count(b"\n"), 2_001, "keys behind it")


@check("what the database refuses ends an import, and it isn't opened where another has it, or where it isn't one of this order")
def refused(room):
    folder = new_folder(room)
    longer = "61" * 65_536
    want_import(folder, ["put 61 31", "put 62 32", f"put {longer} 31", "put 63 33"], 1, "refused 11 KeyTooLong", "taken 2", options=["--batch", "1"])
    want_import(folder, ["put 64 34", f"del {longer}"], 1, "refused 11 KeyTooLong", "taken 0")
    want_pairs(folder, "61 31", "62 32")
    with at_hand(folder) as ran:
        want_next(ran, b"open\n", b"ok\n")
        want_import(folder, ["put 65 35"], 1, "refused 18 Locked", "taken 0")
        want_printed(["compact", folder], 1, "refused 18 Locked")
    want_import(folder, ["put 65 35"], 1, "refused 6 Unsupported", "taken 0", options=REVERSE)
    want_pairs(folder, "61 31", "62 32")
    damaged = write_directory(room, "damaged", None, {"CURRENT": b"MANIFEST-000009\n"})
    want_import(damaged, ["put 65 35"], 1, "refused 5 Corrupt", "taken 0")
    full = write_directory(room, "full", Manifest(log=2, next_file=3, last_sequence=2**56 - 3), {"000002.log": b""})
    want_import(full, ["put 61 31", "put 62 32", "put 63 33"], 1, "refused 14 SequenceFull", "taken 2", options=["--batch", "2"])


@check("an import keeps its log small by work, in batches of a mebibyte at most, and leaves tables that are merged")
def worked(room):
    folder = new_folder(room)
    value = "5a" * 1_000
    operations = [f"put {n:08x} {value}" for n in range(12_000)]
    want_import(folder, operations, 0, "taken 12000", options=["--batch", "65536"])
    report = ldbtool("check", folder).stdout.decode().splitlines()
    want((report[:2], any(it.startswith("table ") for it in report)), (["good", "last-sequence 12000"], True), "a check")
    logs = sum(os.stat(f"{folder}/{name}").st_size for name in os.listdir(folder) if name.endswith(".log"))
    want(logs < 2 * 4_194_304, True, f"logs of {logs} bytes")
    want(ldbtool("scan", folder).stdout.count(b"\n"), 12_000, "keys")


@check("an export that is imported into an empty folder has the same pairs, in both orders and whatever the options")
def copies(room):
    for number, (order, options) in enumerate((((), ()), (REVERSE, ()), ((), ("--batch", "1", "--write-buffer", "1")), ((), ("--batch", "3", "--block-bytes", "1", "--file-bytes", "1")))):
        old, new = filled(room, f"old {number}", *order), new_folder(room, f"new {number}")
        exported = ldbtool("export", *order, old).stdout
        want_printed(["import", *order, *options, new], 0, f"taken {len(WORDS)}", script=exported)
        for words in (["export"], ["scan", "--values"], ["scan", "--reverse", "--json", "--values"], ["scan", "--text", "--values"]):
            want(ldbtool(*words, *order, new).stdout, ldbtool(*words, *order, old).stdout, f"{words} of the copy")
        want(ldbtool("check", *order, new).stdout[:5], b"good\n", "a check of the copy")
    old, new = filled(room), new_folder(room, "piped")
    ran = subprocess.run(["sh", "-c", '"$0" export "$1" | "$0" import "$2"', under_test(), old, new], capture_output=True, timeout=SECONDS)
    want((ran.returncode, ran.stdout, ran.stderr), (0, f"taken {len(WORDS)}\n".encode(), b""), "a copy through a pipe")
    want_pairs(new, *[f"{key} {WORDS[key]}" for key in in_order()])


@check("an export that is refused says so by its status, and in a pipe the shell's pipefail hands that on")
def cut_copy(room):
    log = log_file([(1, [("61", "31")])])
    damaged = write_directory(room, "damaged", Manifest(log=2, next_file=3), {"000002.log": b"\x00" + log[1:] + log})
    want_refused(["export", damaged], "5 Corrupt")
    piped = 'set -o pipefail; "$0" export "$1" | "$0" import "$2"'
    ran = subprocess.run(["bash", "-c", piped, under_test(), damaged, new_folder(room)], capture_output=True, timeout=SECONDS)
    want((ran.returncode, ran.stdout, b"refused 5 Corrupt" in ran.stderr), (1, b"taken 0\n", True), "a copy through a pipe")


@check("on a disk that is full an import tells how many are kept, and at most one batch beyond them counts")
def full_disk(room):
    operations = [f"put {n:04x} {'5a' * 60}" for n in range(200)]
    cut = 0
    for count in (*range(0, 1_300, 89), 3_000, 5_000, 8_000, 20_000, 60_000):
        folder = new_folder(room, f"{count}")
        ran = subprocess.run([under_test(), "import", "--batch", "9", *OPTIONS, folder], input=lines(*operations), capture_output=True, preexec_fn=failing_behind(count), timeout=SECONDS)
        told = ran.stdout.decode().splitlines()
        taken = int(re.fullmatch(r"taken (\d+)", told[-1])[1])
        want((ran.returncode, told[:-1]) in ((0, []), (1, ["refused 2 Io"])), True, f"files of {count} bytes: {ran.returncode}, {told}")
        cut += ran.returncode
        found = ldbtool("scan", folder).stdout.decode().splitlines()
        if found == ["refused 3 NoDatabase"]:
            found = []
        kept = (taken, min(taken + 9, 200)) if ran.returncode else (200,)
        if found != [f"{n:04x}" for n in range(len(found))] or len(found) not in kept:
            raise Wrong(f"files of {count} bytes: {taken} were taken, and {len(found)} are there")
    want(cut >= 10, True, f"{cut} of the disks were full")


@check("an import or a compaction that can't say how it ended ends with status 1, and what it did is there")
def failing_outputs(room):
    folder = new_folder(room)
    for words, typed in ((["import", folder], b"put 61 31\nput 62 32\n"), (["compact", folder], b"")):
        with open("/dev/full", "wb") as full:
            ran = subprocess.run([under_test(), *words], input=typed, stdout=full, stderr=subprocess.PIPE, timeout=SECONDS)
        want((ran.returncode, ran.stderr[:9]), (1, b"ldbtool: "), f"{words[0]} to a device without room")
        want_pairs(folder, "61 31", "62 32")
    want([it.split()[0] for it in ldbtool("check", folder).stdout.decode().splitlines()], ["good", "last-sequence", "table", "log"], "a check behind it")
    reading, writing = os.pipe()
    os.close(reading)
    ran = subprocess.run([under_test(), "import", folder], input=b"del 61\n", stdout=writing, stderr=subprocess.PIPE, timeout=SECONDS)
    os.close(writing)
    want((ran.returncode, ran.stderr), (1, b""), "an import into a closed pipe")
    want_pairs(folder, "62 32")


# ---- compactions


@check("compact merges all tables into level 6, or a level's into the next, and leaves the same pairs")
def compacts(room):
    folder = filled(room)
    want_printed(["compact", folder], 0, "ok")
    report = ldbtool("check", folder).stdout.decode().splitlines()
    want([it.split()[:2] for it in report[2:]], [["table", "6"], ["log", report[-1].split()[1]]], "tables and logs behind it")
    want(report[2].split()[3], str(len(WORDS)), "entries behind it")
    want_pairs(folder, *[f"{key} {WORDS[key]}" for key in in_order()])
    want_printed(["compact", folder], 0, "ok")
    want_pairs(folder, *[f"{key} {WORDS[key]}" for key in in_order()])
    levels = new_folder(room, "levels")
    want_answers(levels, "open new; put 61 31; work 9; work 9; put 62 32; work 9; work 9; close", "ok; ok; worked; worked; ok; worked; worked; ok", "--write-buffer", "1")
    for level in range(6):
        want_printed(["compact", "--level", str(level), levels], 0, "ok")
        found = {it.split()[1] for it in ldbtool("check", levels).stdout.decode().splitlines() if it.startswith("table ")}
        want(found, {str(level + 1)}, f"the levels of tables behind --level {level}")
        want_pairs(levels, "61 31", "62 32")
    want_printed(["compact", "--level", "0", levels], 0, "ok")


@check("compact takes away deleted pairs and files of no use, and is refused where there is no database")
def compacts_deleted(room):
    folder = new_folder(room)
    want_import(folder, [*[f"put {n:04x} {'5a' * 500}" for n in range(1_000)], *[f"del {n:04x}" for n in range(1, 1_000)]], 0, "taken 1999")
    want_printed(["compact", folder], 0, "ok")
    want_pairs(folder, f"0000 {'5a' * 500}")
    size = sum(os.stat(f"{folder}/{name}").st_size for name in os.listdir(folder))
    want(size < 2_000, True, f"{size} bytes behind it")
    empty = new_folder(room, "empty")
    for options in ((), ("--level", "0"), REVERSE):
        want_printed(["compact", *options, empty], 1, "refused 3 NoDatabase")
    want_printed(["compact", *REVERSE, folder], 1, "refused 6 Unsupported")
    want_printed(["compact", write_directory(room, "damaged", None, {"CURRENT": b"MANIFEST-000009\n"})], 1, "refused 5 Corrupt")
    turned = filled(room, "turned", *REVERSE)
    want_printed(["compact", *REVERSE, turned], 0, "ok")
    want_pairs(turned, *[f"{key} {WORDS[key]}" for key in in_order(True)], options=REVERSE)


# ---- scripts


# a script, and what --strict answers to it, with its status
STRICT = [
    ("", "", 0),
    ("open new; put 61 31; get 61", "ok; ok; value 31", 0),
    ("open; put 61 31", "refused 3 NoDatabase", 3),
    ("open new; put 61 31; x; put 62 32", "ok; ok; refused 20 BadLine", 3),
    ("open new; put 61 31; next 1; put 62 32", "ok; ok; refused 9 NoIterator", 3),
    ("open new; get 61; compact 9; get 61", "ok; none; refused 19 BadLevel", 3),
    ("open new; close; close", "ok; ok; refused 16 NotOpen", 3),
    ("open new; iter; first 1; next 1", "ok; iter 1; end; refused 10 NoPlace", 3),
]


@check("run --strict ends at the first refusal with status 3, and the database is closed")
def strict(room):
    for number, (script, answers, status) in enumerate(STRICT):
        folder = new_folder(room, f"{number}")
        given, wanted = ([it.strip() for it in text.split(";")] if text else [] for text in (script, answers))
        want_printed(["run", "--strict", folder], status, *wanted, script=lines(*given))
        if "put 61" in script and "NoDatabase" not in answers:
            # it is closed, and what was written before the refusal is there
            want_answers(folder, "open; get 61; get 62", "ok; value 31; none")
        loose = new_folder(room, f"loose {number}")
        want(ldbtool("run", loose, script=lines(*given)).returncode, 0, "without it")
    with at_hand(new_folder(room), "--work", "auto") as ran:
        want_next(ran, b"open new\nput 61 31\nx\nget 61\n", lines("ok", "ok", BAD, "value 31"))


@check("run --work auto answers as without it, and works behind each write that was done")
def work_auto(room):
    writes = [f"write {' '.join(f'put {n:04x} {m:02x}{chr(53) * 398}' for n in range(m * 40, m * 40 + 60))}" for m in range(60)]
    script = ["open any", *writes, "get 0000", "iter", "first 1", "close"]
    with_it, without = new_folder(room, "with"), new_folder(room, "without")
    ran = [ldbtool("run", *options, "--write-buffer", "20000", folder, script=lines(*script)) for folder, options in ((with_it, ("--work", "auto")), (without, ()))]
    want((ran[0].returncode, ran[0].stdout, ran[0].stderr), (0, ran[1].stdout, b""), "the answers")
    tables = [it.count(b"\ntable ") for it in (ldbtool("check", folder).stdout for folder in (with_it, without))]
    want((tables[0] > 3, tables[1]), (True, 0), f"tables: {tables}")
    want(ldbtool("export", with_it).stdout, ldbtool("export", without).stdout, "the pairs")
    both = new_folder(room, "both")
    want_printed(["run", "--work", "auto", "--strict", both], 3, "ok", "ok", BAD, script=lines("open new", "put 61 31", "x", "put 62 32"))
    want_printed(["run", "--strict", "--work=auto", both], 0, "ok", "value 31", script=lines("open", "get 61"))


# ---- a terminal


HINT = b"ldbtool: begin with `open` or `open new`; keys and values are hexadecimal; Ctrl-D ends; `ldbtool help run` lists the commands\r\n"
IMPORT_HINT = b"ldbtool: lines are `put K V` and `del K`; keys and values are hexadecimal; Ctrl-D ends\r\n"


def at_terminal(words, typed, **how):
    """Runs a command at its own terminal, types this into it, and returns what is seen there, and
    the status."""
    ours, theirs = pty.openpty()
    streams = {"stdin": theirs, "stdout": theirs, "stderr": theirs, **how}
    seen, end = b"", time.monotonic() + SECONDS
    with subprocess.Popen([under_test(), *words], **streams) as ran:
        os.close(theirs)
        os.write(ours, typed)
        while time.monotonic() < end:
            if not select.select([ours], [], [], 0.1)[0]:
                if ran.poll() is not None:
                    break
                continue
            try:
                more = os.read(ours, 4_096)
            except OSError:
                break
            if not more:
                break
            seen += more
        status = ran.wait(SECONDS)
    os.close(ours)
    return seen, status


@check("at a terminal a run and an import begin with a word on what may be typed, and in a pipe they don't")
def hint(room):
    folder = new_folder(room)
    seen, status = at_terminal(["run", folder], b"open new\nput 61 31\nget 61\n\x04")
    want((status, seen.count(HINT), b"value 31\r\n" in seen), (0, 1, True), f"a run at a terminal: {seen}")
    want_ran(ldbtool("run", folder, script=b"open\nget 61\n"), 0, b"ok\nvalue 31\n", "a run in a pipe")
    for how in ({"stdin": subprocess.DEVNULL}, {"stderr": subprocess.DEVNULL}):
        seen, status = at_terminal(["run", folder], b"\x04", **how)
        want((status, seen.count(b"ldbtool:")), (0, 0), f"a run with {how}: {seen}")
    seen, status = at_terminal(["import", folder], b"put 62 32\n\x04")
    want((status, seen.count(IMPORT_HINT), b"taken 1\r\n" in seen), (0, 1, True), f"an import at a terminal: {seen}")
    want_ran(ldbtool("import", folder, script=b"del 62\n"), 0, b"taken 1\n", "an import in a pipe")
    for words in (["check", folder], ["scan", folder], ["compact", folder]):
        seen, status = at_terminal(words, b"\x04")
        # (a check ends with its sums)
        want((status, seen.count(b"ldbtool:")), (0, int(words[0] == "check")), f"{words[0]} at a terminal: {seen}")
    empty = new_folder(room, "empty")
    want(at_terminal(["check", empty], b"\x04")[0].count(b"tables with"), 0, "sums of an empty folder")
