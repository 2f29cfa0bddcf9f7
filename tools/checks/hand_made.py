"""Checks of tools/checks/program over directories that were made by hand."""
import os

from files import ONE_TABLE, Manifest, bytes_of, hexadecimal, internal_key, log_file, new_folder, record, with_table, write_directory
from listed import check
from running import ldbtool, want, want_answers, want_entries, want_report


@check("a log that was cut anywhere is read up to its last whole record")
def cut_logs(room):
    folder = new_folder(room)
    want_answers(folder, "open new; put 61 31", "ok; ok")
    log = bytes_of(folder, "000002.log")
    for count in range(len(log) + 1):
        cut = write_directory(room, f"cut {count}", Manifest(log=2, next_file=3), {"000002.log": log[:count]})
        whole = count == len(log)
        tail = "clean" if count in (0, len(log)) else "torn"
        want_report(cut, "good", f"last-sequence {int(whole)}", f"log 2 {int(whole)} {tail}")
        found = "value 31" if whole else "none"
        want_answers(cut, "open; get 61; put 62 32; close; open; get 61; get 62", f"ok; {found}; ok; ok; ok; {found}; value 32")


# the edit of a new MANIFEST without a table (log 3, next file 6, last sequence 1), and that of
# ONE_TABLE as the table 5 of level 6
NUMBERS = hexadecimal("02 03 03 06 04 01")
ADDED = hexadecimal("07 06 05 b0 01") + 2 * (b"\x09" + internal_key("61", 1))

# the records of a MANIFEST, the file that is cut, its length, and the length from which on the
# directory is consistent
CUTS = [
    ([NUMBERS], "MANIFEST-000001", 13, 13),
    ([NUMBERS], "000003.log", 44, 0),
    ([NUMBERS, ADDED], "MANIFEST-000001", 45, 13),
    ([NUMBERS, ADDED], "000003.log", 44, 0),
]


@check("of a MANIFEST or a log cut to any length an open takes what a check accepts")
def cut_files(room):
    deletes = log_file([(2, [("61", None)]), (3, [("61", None)])])
    for number, (edits, name, length, accepted) in enumerate(CUTS):
        whole = {"CURRENT": b"MANIFEST-000001\n", "MANIFEST-000001": b"".join(map(record, edits)), "000003.log": deletes, "000005.ldb": ONE_TABLE}
        want(len(whole[name]), length, f"the length of {name}")
        for count in range(length + 1):
            folder = write_directory(room, f"{number} {count}", None, {**whole, name: whole[name][:count]})
            checked = ldbtool("check", folder).stdout.split(b"\n")[0]
            want(checked, b"good" if count >= accepted else b"refused 5 Corrupt", f"a check of {count} bytes of {name}")
            want_answers(folder, "open any", "ok" if count >= accepted else "refused 5 Corrupt")


@check("sequences and file numbers that are used up")
def used_up(room):
    last = write_directory(room, "last", Manifest(log=2, next_file=3, last_sequence=2**56 - 2), {"000002.log": b""})
    full = "refused 14 SequenceFull"
    want_answers(last, "open; write put 61 31 put 62 32; put 61 31; put 62 32; write; get 61", f"ok; {full}; ok; {full}; ok; value 31")
    want_answers(last, "open; put 62 32; get 61; get 62", f"ok; {full}; value 31; none")
    spent = write_directory(room, "spent", Manifest(log=2, next_file=2**62 - 1), {"000002.log": b""})
    want_answers(spent, "open; open any; get 61", "refused 15 NumbersSpent; refused 15 NumbersSpent; refused 16 NotOpen")
    # an open takes two numbers
    two = write_directory(room, "two", Manifest(log=2, next_file=2**62 - 2), {})
    want_answers(two, "open; put 61 31; close; open", "ok; ok; ok; refused 15 NumbersSpent")


@check("a table is checked, dumped, and read")
def table(room):
    folder = with_table(room, "folder", ONE_TABLE)
    want_report(folder, "good", "last-sequence 1", "table 6 5 1", "log 3 0 clean")
    want_entries(folder, "table 6 5 61 1 put 31")
    want_answers(folder, "open; get 61; get 62; iter; last 1; prev 1; put 61 -; get 61", "ok; value 31; none; iter 1; at 61 31; end; ok; value -")


@check("a table with any byte changed is refused")
def changed_bytes(room):
    for place in range(len(ONE_TABLE)):
        changed = ONE_TABLE[:place] + bytes([ONE_TABLE[place] ^ 1]) + ONE_TABLE[place + 1 :]
        folder = with_table(room, f"byte {place}", changed)
        want_report(folder, "refused 5 Corrupt", status=1)
        want_entries(folder, "refused 5 Corrupt", status=1)


@check("entries are printed by level, number and key, then those of the logs as they were written")
def order_of_entries(room):
    folder = with_table(room, "folder", ONE_TABLE, **{"000004.log": log_file([(2, [("63", "33"), ("62", None)]), (4, [("-", "-")])])})
    want_entries(folder, "table 6 5 61 1 put 31", "log 4 63 2 put 33", "log 4 62 3 delete", "log 4 - 4 put -")
    want_report(folder, "good", "last-sequence 4", "table 6 5 1", "log 3 0 clean", "log 4 2 clean")


@check("tails, deletes, the empty key and an empty value are printed as such")
def kinds_of_lines(room):
    log = log_file([(2, [("-", None)]), (3, [("ff", "-")]), (4, [("62", "32")])])[:-1]
    folder = with_table(room, "folder", ONE_TABLE, **{"000004.log": log})
    want_report(folder, "good", "last-sequence 3", "table 6 5 1", "log 3 0 clean", "log 4 2 torn")
    want_entries(folder, "table 6 5 61 1 put 31", "log 4 - 2 delete", "log 4 ff 3 put -")


@check("an empty folder, and other people's files in one")
def empty_folders(room):
    folder = new_folder(room)
    want_report(folder, "empty")
    want_entries(folder)
    want(os.listdir(folder), [], "files behind a check and a dump")
    with open(f"{folder}/notes.txt", "wb") as file:
        file.write(b"mine")
    want_report(folder, "empty")
    want_answers(folder, "open new; put 61 31; close; open", "ok; ok; ok; ok")
    want(bytes_of(folder, "notes.txt"), b"mine", "another's file")


@check("a directory that contradicts itself is refused, with status 1")
def contradictions(room):
    cases = {
        "current alone": {"CURRENT": b"MANIFEST-000007\n"},
        "current without a newline": {"CURRENT": b"MANIFEST-000001"},
        "a log alone": {"000003.log": b""},
        "a table alone": {"000003.ldb": ONE_TABLE},
    }
    for name, found in cases.items():
        folder = write_directory(room, name, None, found)
        want_report(folder, "refused 5 Corrupt", status=1)
        want_entries(folder, "refused 5 Corrupt", status=1)
        want_answers(folder, "open; open any; get 61", "refused 5 Corrupt; refused 5 Corrupt; refused 16 NotOpen")
