"""Checks of tools/checks/program over folders with files, links and folders of other programs.

Nothing outside the folder is written, and what isn't a database's is ignored. What can't be looked
at is told by its name.
"""
import os
import resource
import subprocess

from files import new_folder
from folders import as_a_user, typing
from listed import check
from running import SECONDS, ldbtool, lines, under_test, want, want_answers, want_printed
from whys import limited, where

LINK = "is a symbolic link, and nothing is written through one"

# names that no file of a database has, and what a link of each leads to
LINKS = [
    ("loop", "loop"), ("nowhere", "missing/file"), ("a", "b"), ("b", "a"), ("long", "x" * 300),
    ("12345.log", "12345.log"), ("000001.txt", "000001.txt"),
]  # fmt: skip

# names of a database's files, with numbers that the next files would get
NEXT = [
    *[f"MANIFEST-{number:06}" for number in range(1, 12)],
    *[f"{number:06}.{ending}" for number in range(12, 20) for ending in ("log", "ldb")],
]  # fmt: skip


def database(room, name="folder"):
    folder = new_folder(room, name)
    want_answers(folder, "open new; put 61 31; close", "ok; ok; ok")
    return folder


def want_used(folder):
    """Each command works on it, and it is compacted and opened again."""
    want_printed(["get", folder, "61"], 0, "31")
    script = "open; put 62 32; compact all; get 62; close; open; get 61; close"
    want_answers(folder, script, "ok; ok; ok; value 32; ok; ok; value 31; ok")
    want_printed(["scan", "--values", folder], 0, "61 31", "62 32")
    want(ldbtool("check", folder).stdout.splitlines()[0], b"good", "check")


@check("names of other programs are ignored, whatever they are and lead to")
def other_names(room):
    folder = database(room)
    for name, target in LINKS:
        os.symlink(target, f"{folder}/{name}")
    os.mkdir(f"{folder}/lost")
    os.mkfifo(f"{folder}/pipe")
    with open(f"{folder}/{'x' * 255}", "wb"):
        pass
    before = {name for name, _ in LINKS} | {"lost", "pipe", "x" * 255}
    want_used(folder)
    want(before - set(os.listdir(folder)), set(), "what is gone")


@check("a link that may not be followed is ignored, or told by its name if that is a database's")
def not_permitted(room):
    program, how = as_a_user(room)
    hidden = new_folder(room, "hidden")
    with open(f"{hidden}/file", "wb"):
        pass
    told = "000077.ldb: can't be listed: Permission denied (os error 13)"
    for name, printed, said in (("theirs", b"31\n", []), ("000077.ldb", b"", [told])):
        folder = database(room, f"with {name}")
        os.symlink(f"{hidden}/file", f"{folder}/{name}")
        os.chmod(folder, 0o755)
        os.chmod(hidden, 0)
        ran = subprocess.run([program, "get", folder, "61"], capture_output=True, timeout=SECONDS, **how)
        os.chmod(hidden, 0o755)
        want((ran.stdout, where(ran, folder)), (printed, said), f"a link {name}")


@check("a link to itself under a database's name is told by its name")
def named_loops(room):
    for name in ("CURRENT", "000050.ldb", "000051.log", "MANIFEST-000052", "000053.dbtmp"):
        folder = database(room, f"with {name}")
        if name == "CURRENT":
            os.remove(f"{folder}/{name}")
        os.symlink(name, f"{folder}/{name}")
        for words in (["get", folder, "61"], ["check", folder], ["compact", folder]):
            ran, told = ldbtool(*words), f"{name}: can't be listed: Too many levels of symbolic links (os error 40)"
            # (a get says it on standard error alone)
            printed = b"" if words[0] == "get" else lines("refused 2 Io")
            want((ran.stdout, where(ran, folder)), (printed, [told]), f"{words[0]}: {name}")


@check("a number that a folder, a pipe or a link to nothing has is given to no file")
def taken_numbers(room):
    makers = [("folders", os.mkdir), ("pipes", os.mkfifo), ("links", lambda path: os.symlink("missing/file", path))]
    for what, make in makers:
        for begun in (new_folder, database):
            folder = begun(room, f"{what} of {begun.__name__}")
            for name in NEXT:
                if not os.path.exists(f"{folder}/{name}"):
                    make(f"{folder}/{name}")
            want_answers(folder, "open any; put 61 31; put 62 32; close", "ok; ok; ok; ok")
            want_used(folder)
            written = [it for it in NEXT if os.path.isfile(f"{folder}/{it}") and begun is new_folder]
            want(written, [], f"what was written among the {what}")


@check("nothing is written through a link: the call is refused, and the link is named")
def links(room):
    outside = new_folder(room, "outside")
    for target in ("missing", "there"):
        with open(f"{outside}/there", "wb") as file:
            file.write(b"theirs")
        folder = database(room, f"to {target}")
        with typing(folder) as session:
            session.give(["open", "put 62 32"])
            for number in range(5, 40):
                for ending in ("log", "ldb", "dbtmp"):
                    if not os.path.lexists(f"{folder}/{number:06}.{ending}"):
                        os.symlink(f"{outside}/{target}", f"{folder}/{number:06}.{ending}")
            session.give(["compact all", "get 61"])
        want(session.answers, ["ok", "ok", "refused 2 Io", "refused 7 Broken"], f"a link to {target}")
        want((os.listdir(outside), open(f"{outside}/there", "rb").read()), (["there"], b"theirs"), "what is outside")
        if target == "missing":
            want_used(folder)


@check("a LOCK that is a link is refused and named, and nothing is made or locked where it leads")
def linked_lock(room):
    outside = new_folder(room, "outside")
    for target in ("missing", "there"):
        with open(f"{outside}/there", "wb") as file:
            file.write(b"theirs")
        folder = new_folder(room, f"to {target}")
        os.symlink(f"{outside}/{target}", f"{folder}/LOCK")
        ran = ldbtool("run", folder, script=lines("open new"))
        told = [f"LOCK: {LINK}"]
        want((ran.stdout, where(ran, folder)), (lines("refused 2 Io"), told), f"a LOCK that leads to {target}")
        want((os.listdir(outside), open(f"{outside}/there", "rb").read()), (["there"], b"theirs"), "what is outside")


@check("a table is read through a link")
def linked_table(room):
    folder, outside = database(room), new_folder(room, "outside")
    want_printed(["compact", folder], 0, "ok")
    table = next(name for name in os.listdir(folder) if name.endswith(".ldb"))
    os.rename(f"{folder}/{table}", f"{outside}/{table}")
    os.symlink(f"{outside}/{table}", f"{folder}/{table}")
    want_used(folder)
    want(os.listdir(outside), [table], "what is outside")


@check("more tables are read, walked and merged than the process may have files open")
def few_descriptors(room):
    folder = new_folder(room, "tables")
    script = ["open new", *[f"put {number:04x} {number:04x}" for number in range(1, 401)], "compact all", "close"]
    want_answers(folder, lines(*script), "; ".join(["ok"] * len(script)), "--file-bytes", "1")
    pairs = [f"{number:04x} {number:04x}" for number in range(1, 401)]
    for most in (256, 32, 12):
        how = {"capture_output": True, "timeout": SECONDS, "preexec_fn": limited(resource.RLIMIT_NOFILE, most)}
        ran = subprocess.run([under_test(), "scan", "--values", folder], **how)
        want((ran.returncode, ran.stdout), (0, lines(*pairs)), f"a scan with {most} descriptors")
        script = ["open", "iter", "first 1", *["next 1"] * 400]
        script += ["put 0003 33", "compact all", "get 0003", "get 0004", "close"]
        ran = subprocess.run([under_test(), "run", "--file-bytes", "1", folder], input=lines(*script), **how)
        wanted = ["ok", "iter 1", *[f"at {it}" for it in pairs], "end", "ok", "ok", "value 33", "value 0004", "ok"]
        want((ran.returncode, ran.stdout), (0, lines(*wanted)), f"a session with {most} descriptors")
        pairs[2] = "0003 33"
    want(ldbtool("check", folder).stdout.splitlines()[0], b"good", "check")


@check("a process that opens again finds what another one has made of the folder")
def between(room):
    folder = new_folder(room)
    with typing(folder) as session:
        session.give(["open any", "write sync put 61 31", "close"])
        want_printed(["compact", folder], 0, "ok")
        session.give(["open", "get 61", "put 62 32", "close"])
        want_answers(folder, "open; del 61; put 63 33; compact all; close", "ok; ok; ok; ok; ok")
        session.give(["open", "get 61", "get 62", "get 63", "close"])
    wanted = ["ok"] * 4 + ["value 31", "ok", "ok", "ok", "none", "value 32", "value 33", "ok"]
    want(session.answers, wanted, "the answers")
    want_printed(["scan", "--values", folder], 0, "62 32", "63 33")
