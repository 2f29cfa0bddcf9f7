"""Checks of LDBTOOL and LevelDB under the reverse order of bytes, which LevelDB is told by a
comparator of that name.

The checks over directories and by turns run again so. Each side refuses the other's directory under
the order that it isn't in.
"""
from beside import (
    CHECKS,
    Programs,
    check,
    in_reverse,
    ldbtool,
    leveldb,
    leveldb_reads,
    new_folder,
    prints,
    run,
    short,
    want,
    want_answers,
    want_lines,
    want_map,
)

for name, function in [it for it in CHECKS if it[0].startswith(("directories", "turns"))]:
    check(f"reverse: {name}")(in_reverse(function))

# a key, keys that begin with it, and others about them: least first in the order of bytes
KEYS = ["-", "00", "0000", "61", "6100", "6161", "61ff", "62", "fe", "ff", "ff00", "ffff"]
LINES = [f"put {key} {number:02x}" for number, key in enumerate(KEYS)]


@check("reverse: LevelDB reads what `ldbtool` writes, and `ldbtool` what LevelDB writes, a prefix last, from logs and from tables")
@in_reverse
def prefixes(room):
    wanted = [(key, f"{number:02x}") for number, key in reversed(list(enumerate(KEYS)))]
    walk = ["iter 1", *[f"at {key} {value}" for key, value in wanted], "end"]
    for compacts in (False, True):
        ours, theirs = new_folder(room, f"ours {compacts}"), new_folder(room, f"theirs {compacts}")
        script = ["open new", *LINES, *["compact all"] * compacts, "close"]
        want_answers(ours, script, ["ok"] * len(script), "a script that writes")
        leveldb("write", theirs, lines=LINES)
        if compacts:
            leveldb("compact", theirs)
        for folder in (ours, theirs):
            found = leveldb_reads(folder)
            want(list(found.items()) == wanted, f"LevelDB walks {short(str(list(found)))}")
            want_answers(folder, ["open", "iter", "first 1", *["next 1"] * len(KEYS)], ["ok", *walk], "a script that walks")
            back = "".join(f"{key} {value}\n" for key, value in reversed(wanted))
            want_lines(leveldb("dump", folder, "--backwards"), back, "LevelDB backwards")
            want(prints("check", folder).startswith("good\n"), "a check")


@check("reverse: neither opens a directory of one order under the other, and both leave it as it is")
def apart(room):
    folder = new_folder(room)
    in_reverse(lambda _: leveldb("write", folder, lines=LINES))(room)
    for verb in ("check", "dump"):
        ran = ldbtool(verb, folder)
        want((ran.returncode, ran.stdout) == (1, "refused 6 Unsupported\n"), f"ldbtool {verb}: {short(ran.stdout)}")
    want_answers(folder, ["open", "open any"], ["refused 6 Unsupported"] * 2, "the order of bytes")
    ran = run([Programs.leveldb, "dump", folder])
    want(ran.returncode == 1 and "comparator" in ran.stderr, f"LevelDB under the order of bytes: {short(ran.stdout + ran.stderr)}")
    want_map(in_reverse(lambda _: leveldb_reads(folder))(room), {line.split()[1]: line.split()[2] for line in LINES})
