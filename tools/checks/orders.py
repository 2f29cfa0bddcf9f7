"""Checks of tools/checks/program under the reverse order of bytes, and of what a directory of one
order says under the other."""
import os

from files import Manifest, bytes_of, log_file, new_folder, write_directory
from judged import pairs_of
from listed import Wrong, check
from machine import Machine, after_all, word
from running import ldbtool, lines, said_beside, want, want_answers, want_entries, want_ran, want_report
from scripts import SCRIPTS, VERBS, WORKED
from sessions import SESSIONS
from told import words_of

REVERSE = ("--order", "reverse")
BYTES = ("--order", "bytes")
UNSUPPORTED = "refused 6 Unsupported"

# These don't ask for the order: the scripts have them in both.
OF_BOTH = ("refused 20 BadLine", "refused 19 BadLevel")


@check("reverse: a new database names its order in a MANIFEST of 48 bytes")
def first_files(room):
    folder = new_folder(room)
    want_answers(folder, "open new; close", "ok; ok", *REVERSE)
    # a record of 41 bytes after its checksum, and in it the name, of 33
    manifest = bytes_of(folder, "MANIFEST-000001")
    edit = bytes.fromhex("0121") + b"ldbtool.ReverseBytewiseComparator" + bytes.fromhex("020203030400")
    want((len(manifest), manifest[4:7].hex(), manifest[7:]), (48, "290001", edit), "the MANIFEST")
    want_report(folder, "good", "last-sequence 0", "log 2 0 clean", options=REVERSE)


@check("reverse: a proper prefix comes last, in a walk and in a search")
def prefix_last(room):
    folder = new_folder(room)
    script = "open new; put 61 31; put 6161 32; put 62 33; compact all; iter; first 1; next 1; next 1; next 1; seek 1 6162; seek 1 60"
    answers = "ok; ok; ok; ok; ok; iter 1; at 62 33; at 6161 32; at 61 31; end; at 6161 32; end"
    want_answers(folder, script, answers, *REVERSE)
    want_answers(folder, "open", UNSUPPORTED, *BYTES)
    want_answers(folder, "open", UNSUPPORTED)
    want_entries(folder, "table 6 5 62 3 put 33", "table 6 5 6161 2 put 32", "table 6 5 61 1 put 31", options=REVERSE)


@check("reverse: a directory of either order is refused under the other by run, check and dump, and stays as it was")
def elsewhere(room):
    for mine, other in ((REVERSE, BYTES), (BYTES, REVERSE)):
        folder = new_folder(room, mine[1])
        want_answers(folder, "open new; put 61 31; put 62 32; compact all; put 63 33; close", "ok; ok; ok; ok; ok; ok", *mine)
        before = {name: bytes_of(folder, name) for name in os.listdir(folder)}
        for mode in ("open", "open any"):
            want_answers(folder, f"{mode}; get 61", f"{UNSUPPORTED}; refused 16 NotOpen", *other)
        want_report(folder, UNSUPPORTED, status=1, options=other)
        want_entries(folder, UNSUPPORTED, status=1, options=other)
        want({name: bytes_of(folder, name) for name in os.listdir(folder)}, before, "the files")
        want_answers(folder, "open; get 61; get 62; get 63", "ok; value 31; value 32; value 33", *mine)


@check("reverse: a MANIFEST without the name of an order is that of bytes, and is refused under the other")
def unnamed(room):
    logs = {"000002.log": log_file([(1, [("61", "31")])])}
    folder = write_directory(room, "folder", Manifest(log=2, next_file=3, comparator=None), logs)
    want_report(folder, UNSUPPORTED, status=1, options=REVERSE)
    want_entries(folder, UNSUPPORTED, status=1, options=REVERSE)
    want_answers(folder, "open; open any", f"{UNSUPPORTED}; {UNSUPPORTED}", *REVERSE)
    want_report(folder, "good", "last-sequence 1", "log 2 1 clean")
    want_answers(folder, "open; get 61", "ok; value 31")
    # (an open writes a MANIFEST, which names the order)
    want_report(folder, UNSUPPORTED, status=1, options=REVERSE)


@check("reverse: a table of bytes' order under the other's name is found by a check")
def turned_table(room):
    folder = new_folder(room)
    want_answers(folder, "open new; put 61 31; put 62 32; compact all; close", "ok; ok; ok; ok; ok")
    table = bytes_of(folder, "000005.ldb")
    edges = [(6, 5, len(table), ("61", 1), ("62", 2))]
    for name, status, report in (
        ("leveldb.BytewiseComparator", 0, ("good", "last-sequence 2", "table 6 5 2")),
        ("ldbtool.ReverseBytewiseComparator", 1, ("refused 5 Corrupt",)),
    ):
        manifest = Manifest(log=6, next_file=7, last_sequence=2, tables=edges, comparator=name)
        copy = write_directory(room, name, manifest, {"000005.ldb": table})
        want_report(copy, *report, status=status, options=BYTES if status == 0 else REVERSE)


# ---- the scripts of the order of bytes


def held(states):
    """Returns the pairs that a directory may have, as its dump's newest entries make them."""
    return [{word(key): word(value) for key, value in state.pairs.items()} for state in states]


def run_turned(folder, options, script, answers, states):
    """Runs a script whose answers under the order of bytes are known, compares it with the model,
    and returns its states."""
    commands, known = [[it.strip() for it in text.split(";")] for text in (script, answers)]
    ran = ldbtool("run", *REVERSE, *options.split(), folder, script=lines(*commands))
    found = ran.stdout.decode().splitlines()
    want((ran.returncode, len(found), said_beside(ran.stdout, ran.stderr)), (0, len(commands), b""), f"the script {script}")
    of_both = [it in OF_BOTH for it in known]
    want([a for a, it in zip(found, of_both) if it], [a for a, it in zip(known, of_both) if it], f"lines of {script}")
    told = [(line, answer) for line, answer, it in zip(commands, found, of_both) if not it]
    states, fault = after_all([line for line, _ in told], [answer for _, answer in told], states)
    if fault:
        raise Wrong(f"{fault[0]!r} of {script!r} was answered {fault[1]!r}")
    # the end of a script closes what is open, and the next program counts from 1 again
    closed = [state.after("close", "ok")[0] if state.is_open else state for state in states]
    return [state.changed(last_snapshot=0, last_iterator=0) for state in closed]


def want_turned(folder, options, parts):
    """Runs scripts over one folder, each with its answers under the order of bytes."""
    states = [Machine(turned=True)]
    for script, answers in parts:
        states = run_turned(folder, options, script, answers, states)
    want(pairs_of(ldbtool("dump", *REVERSE, folder).stdout.decode()) in held(states), True, f"the entries behind {parts[-1][0]}")
    if os.listdir(folder) and states[0].is_made:
        want(ldbtool("check", *REVERSE, folder).stdout[:5], b"good\n", f"a check behind {parts[-1][0]}")


@check("reverse: every script is answered as the model says that has its keys turned round, and leaves what that has")
def scripts(room):
    taken = [("", [it]) for it in SCRIPTS] + [(options, [(script, answers)]) for options, script, answers, _ in WORKED]
    taken += [(options, [(script, answers) for script, answers, _, _ in parts]) for _, options, parts in SESSIONS]
    for number, (options, parts) in enumerate(taken):
        want_turned(new_folder(room, f"folder {number}"), options, parts)


@check("reverse: the option stands in the help and on the manual page, and takes `bytes` and `reverse` alone")
def told(room):
    folder = new_folder(room)
    for verb in VERBS:
        help_text = ldbtool("help", verb).stdout.decode()
        want("--order <ORDER>" in help_text and "[default: bytes]" in help_text, True, f"the help of {verb} tells --order")
        for order in ("bytes", "reverse"):
            want(ldbtool(*words_of(verb, folder), f"--order={order}").returncode in (0, 1), True, f"{verb} --order={order}")
        for order in ("", "byte", "REVERSE", "bytes "):
            ran = ldbtool(*words_of(verb, folder), f"--order={order}")
            want((ran.returncode, ran.stdout, ran.stderr != b""), (2, b"", True), f"{verb} --order={order}")
