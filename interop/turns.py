"""Checks of LDBTOOL and LevelDB by turns on one directory: each writes, flushes and compacts by its
own rules.

The directory has what was written to it. After each turn both must find exactly that.
"""
import random

from beside import check, files_of, joined, leveldb, leveldb_reads, new_folder, pairs_of, prints, want, want_lines, want_map
from layout import Layout

SEEDS = (1, 2, 3)
TURNS = 80
KEYS = 400

# sizes so small that each turn fills memory tables, and levels down to the fourth
SIZES = ["--write-buffer", "2048", "--level0-files", "2", "--base-bytes", "6000", "--file-bytes", "2000", "--block-bytes", "400"]


def changes(chance, pairs):
    """Returns lines that put and delete keys, and keeps the result in the map."""
    lines = []
    for _ in range(chance.randrange(1, 60)):
        key = f"{chance.randrange(KEYS):03d}".encode().hex()
        if chance.random() < 0.25:
            pairs.pop(key, None)
            lines.append(f"del {key}")
        else:
            pairs[key] = chance.randbytes(chance.randrange(200)).hex() or "-"
            lines.append(f"put {key} {pairs[key]}")
    return lines


def our_turn(folder, chance, pairs):
    """Returns a script that writes, with pieces of work between, at times compacts, and works on
    for a while, perhaps not to the end."""
    script = ["open any"]
    for line in changes(chance, pairs):
        script.append(line)
        if chance.random() < 0.3:
            script.append(f"work {chance.randrange(30)}")
    if chance.random() < 0.1:
        script.append(f"compact {chance.choice((0, 1, 2, 3, 'all'))}")
    script += [f"work {chance.choice((1, 7, 1000))}" for _ in range(chance.choice((0, 5, 60)))]
    answers = prints("run", folder, joined(script), SIZES).splitlines()
    wrong = [line for line in answers if line not in ("ok", "worked", "idle")]
    want(len(answers) == len(script) and not wrong, f"a turn of ours is answered {wrong[:3]}, {len(answers)} of {len(script)} lines")


def their_turn(folder, chance, pairs):
    leveldb("write", folder, lines=changes(chance, pairs))
    if chance.random() < 0.1:
        leveldb("compact", folder)


def want_both(folder, pairs, turn, whole):
    """Checks that both find what was written, and that a check accepts the directory. If it must be
    whole, the report must be what LevelDB's own files say."""
    layout, report = Layout(folder), prints("check", folder)
    if whole:
        want_lines(report, layout.report(), f"turn {turn}")
    want(report.startswith("good\n"), f"turn {turn}: a check says {report.splitlines()[:1]}")
    want_map(pairs_of(prints("dump", folder)), pairs)
    want_map(leveldb_reads(folder), pairs)
    return layout


@check("turns: LevelDB and `ldbtool` write, flush and compact on one directory, and both find exactly what was written")
def turns(room):
    for seed in SEEDS:
        chance, pairs, levels = random.Random(seed), {}, set()
        folder = new_folder(room, str(seed))
        for turn in range(TURNS):
            (our_turn if turn == 0 or chance.random() < 0.6 else their_turn)(folder, chance, pairs)
            levels |= {level for level, _ in want_both(folder, pairs, f"{turn} of {seed}", turn % 10 == 9).tables}
        want({0, 1, 2} <= levels, f"seed {seed}: tables lay in the levels {sorted(levels)} alone")
        script = "open\n" + "work 100000\n" * 200
        answers = prints("run", folder, script, SIZES).splitlines()
        want(answers[-1] == "idle", f"seed {seed}: work doesn't come to its end")
        layout = want_both(folder, pairs, f"the last of {seed}", True)
        want(files_of(folder, ".ldb") == sorted(f"{number:06d}.ldb" for _, number in layout.tables), f"seed {seed}: a table is left")
