"""Checks of tools/checks/program about docs/GUIDE.md and README.md: what they tell a user to type,
and the words that they quote. Recipes that need plyvel are run by interop/guide.py."""
import glob
import os
import re

from examples import ran_recipe, recipes_of_guide, text_of
from files import bytes_of, new_folder
from listed import check
from repository import texts
from running import ldbtool, lines, under_test, want, want_ran
from streams import at_hand, want_next

# What a recipe prints on standard output over the folder that `prepared` makes.
PRINTED = {
    1: "sound\n",
    2: "absent\n",
    3: "2\n",
    4: "taken 3\nok\nsame\n",
    8: "",
    9: "taken 1\n",
    10: "",
}
PAIRS = [("user:1", "Ada"), ("user:2", "Bob"), ("zip", "99")]


def hexed(text):
    return text.encode().hex()


def prepared(room):
    """Makes what the recipes work on: `db`, `bad` with one of two tables damaged, `lines` with a
    bad line, `commands`, and `cut` with zeros at a log's end."""
    script = lines(*(f"put {hexed(key)} {hexed(value)}" for key, value in PAIRS))
    want_ran(ldbtool("import", new_folder(room, "db"), script=script), 0, b"taken 3\n", "an import")
    two = lines("open new", "put 61 31", "put 62 32", "compact all")
    want_ran(ldbtool("run", "--file-bytes", "1", new_folder(room, "bad"), script=two), 0, lines(*["ok"] * 4), "tables")
    text = bytearray(bytes_of(room, "bad/000005.ldb"))
    text[10] ^= 1
    put(f"{room}/bad/000005.ldb", bytes(text))
    numbered = [f"put {number:08x} 31" for number in range(2_503)]
    numbered[2_500] = "no command"
    put(f"{room}/lines", lines(*numbered))
    put(f"{room}/commands", lines("put 6b 31", "put 6c 32"))
    want_ran(ldbtool("import", new_folder(room, "cut"), script=lines("put 6b 31")), 0, b"taken 1\n", "an import")
    log = max(glob.glob(f"{room}/cut/*.log"), key=os.path.getsize)
    with open(log, "ab") as file:
        file.write(bytes(9))


def put(path, text):
    with open(path, "wb") as file:
        file.write(text)


def values_of(folder):
    return ldbtool("scan", "--text", "--values", folder).stdout.decode().splitlines()


@check("the recipes of the guide do what they say")
def recipes(room):
    prepared(room)
    for number, wanted in PRINTED.items():
        want(ran_recipe(number, under_test(), room).stdout, wanted, f"what recipe {number} prints")
    want(values_of(f"{room}/new"), [" ".join(it) for it in PAIRS], "the copy of recipe 4")
    want(values_of(f"{room}/db")[:3], ["end 1", "k 1", "l 2"], "what recipe 8 wrote")
    want(values_of(f"{room}/saved"), ["b 2"], "what recipe 9 saved")
    said = ran_recipe(11, under_test(), room).stdout.splitlines()
    want([it.partition(" zeros ")[2] for it in said[:2]], ["9 broken 0"] * 2, "what recipe 11 cuts")
    want(said[2:3], ["good"], "what recipe 11 leaves")
    want(sorted(recipes_of_guide()), list(range(1, 12)), "the numbers of the recipes")


@check("the guide's recipe for an import with a bad line takes all the others")
def import_goes_on(room):
    prepared(room)
    ran = ran_recipe(7, under_test(), room)
    want(ran.stdout.splitlines()[-1], "taken 2", "what the second import took")
    want("taken 2500" in ran.stdout.splitlines(), True, "the first one took 2500")
    want(len(values_of(f"{room}/in")), 2_502, "how many pairs are there")


@check("the guide's recipe for the night leaves a database that somebody has open")
def not_at_night(room):
    prepared(room)
    with at_hand(f"{room}/db") as ran:
        want_next(ran, b"open\n", b"ok\n")
        want(ran_recipe(10, under_test(), room).stdout, "in use: try later\n", "what recipe 10 prints")


@check("the words that the guide tells to look for are the program's")
def quoted_words(_room):
    sources = "".join(text_of(it) for it in texts() if it.startswith("crates/") and it.endswith(".rt"))
    sources = re.sub(r"\\\n\s*", "", sources)
    rows = re.findall(r"^\| `([^`]*)`(?:, with other numbers)? \| (?:\d|status)", text_of("docs/GUIDE.md"), re.M)
    want(len(rows) >= 12, True, f"{len(rows)} rows are all")
    for words in rows:
        # (numbers are found while it runs; the system says what is wrong with a device)
        plain = re.sub(r" [0-9a-f]{8} found.*", "", words)
        want(plain in sources or plain == "No space left on device", True, f"a source has {plain!r}")


@check("the lines of Rattle in the README stand in crates/embed")
def quoted_lines(_room):
    source = re.sub(r"\n +", "\n", text_of("crates/embed/src/main.rt"))
    blocks = [it for it in re.findall(r"(?:^    .*\n)+", text_of("README.md"), re.M) if ";\n" in it]
    want(len(blocks), 1, "how many blocks of Rattle")
    want(re.sub(r"(^|\n) +", r"\1", blocks[0]) in source, True, "the block is in the program")
