"""What tools/faults/refusals and tools/checks/program ask of a directory in which something was
refused. A check must accept it, and it must hold what the plain model has."""
import subprocess

from listed import Wrong
from machine import word
from running import SECONDS, lines, under_test


def ran(*words, script=()):
    """Returns the status of the program, and the lines that it printed."""
    done = subprocess.run([under_test(), *words], input=lines(*script), capture_output=True, timeout=SECONDS)
    return done.returncode, done.stdout.decode().splitlines()


def held(folder, count):
    """Returns what an iteration over the directory finds."""
    status, answers = ran("run", folder, script=["open any", "iter", "first 1", *["next 1"] * count])
    if status or answers[:2] != ["ok", "iter 1"] or "end" not in answers:
        raise Wrong(f"a walk answers {answers[-3:]}, status {status}")
    return answers[2 : answers.index("end")]


def pairs_of(dump):
    """Returns the pairs that the newest entries of a dump make."""
    newest = {}
    for line in dump.splitlines():
        words = line.split()
        at = 3 if words[0] == "table" else 2
        key, sequence = words[at], int(words[at + 1])
        if sequence > newest.get(key, (-1,))[0]:
            newest[key] = (sequence, words[at + 3] if words[at + 2] == "put" else None)
    return {key: value for key, (_, value) in newest.items() if value is not None}


def want_held(folder, states):
    """Checks that the directory is whole, and holds what one of the states has, with the in-doubt
    batch or without."""
    status, report = ran("check", folder)
    if status or report[:1] not in (["good"], ["empty"]):
        raise Wrong(f"a check answers {report[:2]}, status {status}")
    maps = [it for state in states for it in (state.pairs, state.doubt) if it is not None]
    wanted = [[f"at {word(key)} {word(it[key])}" for key in sorted(it)] for it in maps]
    found = held(folder, max(map(len, wanted)) + 1)
    if found not in wanted:
        raise Wrong(f"the directory holds {found}, and not {wanted[0]}")
