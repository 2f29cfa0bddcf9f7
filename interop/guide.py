"""Checks of docs/GUIDE.md where LevelDB is needed: its recipes with plyvel, and its example of a
refusal. `tools/checks/guided.py` has the others."""
import os
import re

from beside import Programs, check, files_of, ldbtool, new_folder, prints, want
from examples import ran_recipe, text_of

PAIRS = 3_000

# What the guide says of zeros that a power loss left.
ZEROS = "checksum 49258fd2 found, 00000000 wanted"


def compressed(room):
    """Makes `node`, a database whose tables plyvel has compressed."""
    import plyvel

    database = plyvel.DB(f"{room}/node", create_if_missing=True)
    for number in range(PAIRS):
        database.put(f"key {number:06}".encode(), b"value " * 20)
    database.compact_range()
    database.close()
    return f"{room}/node"


@check("guide: a compressed folder is refused in the words that the guide shows")
def example(room):
    folder = compressed(room)
    ran = ldbtool("check", folder)
    found = (ran.stdout + ran.stderr).replace(folder, "node")
    shown = re.search(r"^    \$ ldbtool check node\n((?:    .*\n)+)", text_of("docs/GUIDE.md"), re.M)[1]
    # (advice may follow)
    want(without_numbers(found).startswith(without_numbers(re.sub("^    ", "", shown, flags=re.M))), f"it says {found}")


def without_numbers(text):
    """Returns the words without the numbers of files and places, which depend on the data."""
    text = re.sub(r"table \d+ \d+", "table L N", text)
    return re.sub(r"\d{6}\.ldb: block at \d+", "N.ldb: block at N", text)


@check("guide: its recipe copies the pairs of a compressed folder")
def uncompressed(room):
    folder = compressed(room)
    before = sorted(os.listdir(folder))
    ran = ran_recipe(5, os.path.abspath(Programs.ldbtool), room)
    want(ran.stdout == f"taken {PAIRS}\n", f"it prints {ran.stdout}{ran.stderr}")
    pairs = prints("export", f"{room}/plain").splitlines()
    want(len(pairs) == PAIRS and pairs[1] == f"put {b'key 000001'.hex()} {(b'value ' * 20).hex()}", f"{len(pairs)} pairs")
    want(sorted(os.listdir(folder)) == before, "the folder is as it was")


@check("guide: its recipe opens a folder again whose log ends in zeros")
def zeros(room):
    folder = new_folder(room, "go")
    want(prints("run", folder, "open new\nwrite sync put 61 31\n") == "ok\nok\n", "a database")
    with open(f"{folder}/{files_of(folder, '.log')[-1]}", "ab") as log:
        log.write(bytes(24))
    ran = ldbtool("check", folder)
    want("refused 5 Corrupt" in ran.stdout and ZEROS in ran.stderr, f"a check says {ran.stdout}{ran.stderr}")
    ran = ran_recipe(6, os.path.abspath(Programs.ldbtool), room)
    want(ran.stdout.startswith("good\n"), f"it prints {ran.stdout}{ran.stderr}")
    want(prints("export", f"{room}/gone") == "put 61 31\n", "the pair is there")
