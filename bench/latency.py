"""How long the slowest of N writes take, by the work after each, and LevelDB's beside them."""
import os
import shutil
import statistics
import subprocess
import time

from charts import latency_chart
from pages import LATENCY, latency_of, put_between
from sides import ROOM, ROOT, fail, headline, load, measured, number_of, proved_program, say, twin

# The work after each write: pieces of so many entries, and all that there is to do.
SHARES = ("0", "8", "24", "100", "all")


def ways(number):
    """Returns each way of writing, by its name: the program with its words."""
    ours, theirs = proved_program(), twin("LevelDB")
    named = {"0": "none", "all": "all that there is"}
    found = {f"ours, {named.get(it) or f'{it} entries'}": [ours, "latency", it, str(number)] for it in SHARES}
    return {**found, "LevelDB, by its thread": [theirs, "latency", str(number)]}


def written(command, folder):
    """Measures writes to an empty folder: the nanoseconds within which a half, 99 in 100, 999 in
    1,000 and all of them end, and the seconds of all."""
    os.makedirs(folder)
    begun = time.monotonic()
    ran = subprocess.run([*command, folder], stdout=subprocess.PIPE, text=True)
    seconds = time.monotonic() - begun
    if ran.returncode or not ran.stdout.startswith("latency "):
        fail(f"{os.path.basename(command[0])} {' '.join(command[1:])} ended with status {ran.returncode}")
    return [int(it.partition("=")[2]) for it in ran.stdout.splitlines()[0].split()[1:]], seconds


def all_written(commands, number, rounds):
    """Measures each way by turns. It stops if LevelDB finds anything else in one of the folders."""
    taken, found = {}, {}
    for turn in range(rounds):
        for name, command in commands.items():
            folder = f"{ROOM}/latency"
            shutil.rmtree(folder, ignore_errors=True)
            # what the run before left unwritten must not slow this one
            os.sync()
            taken.setdefault(name, []).append(written(command, folder))
            if turn == 0:
                found[name] = measured([twin("LevelDB"), "readseq", str(number), folder])[0]
            shutil.rmtree(folder)
    if len(set(found.values())) > 1:
        fail(f"latency: LevelDB finds in the folders {found}")
    return taken


def rows_of(commands, number, rounds):
    rows = []
    for name, runs in all_written(commands, number, rounds).items():
        times, seconds = zip(*runs)
        rows.append((name, [statistics.median(it) for it in zip(*times)], statistics.median(seconds)))
        say(f"{name}: {rows[-1][1]} ns, {rows[-1][2]:.1f} s")
    return rows


def show():
    number, rounds = number_of("N", 1_000_000), number_of("ROUNDS", 3)
    commands, begun = ways(number), load()
    rows = rows_of(commands, number, rounds)
    text = latency_of(rows)
    print(text)
    told = headline(f"Microseconds of {number:,} writes of drawn keys", rounds, begun)
    put_between(f"{ROOT}/docs/SPEED.md", LATENCY, told + "\n\n" + text)
    with open(f"{ROOT}/docs/latency.svg", "w", encoding="utf-8") as file:
        file.write(latency_chart(rows, number))
