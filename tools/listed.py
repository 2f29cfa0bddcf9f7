"""Named checks, of tools/ and of interop/: a list of them, and how a tool runs those that are asked
for."""
import argparse
import tempfile
import time
from concurrent.futures import ThreadPoolExecutor

CHECKS = []


class Wrong(Exception):
    """Says what a check found instead of what it wants."""


def check(name):
    """Puts a function into the list. It is given an empty folder, and may return a note to
    print."""

    def keep(function):
        CHECKS.append((name, function))
        return function

    return keep


def parser(description):
    """Reads the words of a command that runs checks; the tool adds its own."""
    made = argparse.ArgumentParser(description=description)
    made.add_argument("--only", metavar="WORD", default="", help="run only the checks whose name holds this")
    made.add_argument("--list", action="store_true", help="print the names of the checks, and run none")
    return made


def chosen(checks, word):
    return [(name, function) for name, function in checks if word.lower() in name.lower()]


def holds(tool, name, function):
    """Runs one check in its own folder, says how it ended, and returns whether it holds."""
    begun = time.monotonic()
    with tempfile.TemporaryDirectory(prefix=f"{tool}-") as room:
        try:
            said = function(room)
        except Exception as fault:  # pylint: disable=broad-except
            told = str(fault) if isinstance(fault, Wrong) else f"{type(fault).__name__}: {str(fault)[:2000]}"
            print(f"{tool}: WRONG  {name}: {told}", flush=True)
            return False
    seconds = time.monotonic() - begun
    print(f"{tool}: holds  {name}{f': {said}' if said else ''}{f', {seconds:.0f} s' if seconds >= 5 else ''}", flush=True)
    return True


def outcomes_of(tool, checks, at_once=1):
    """Runs checks, so many side by side, and returns whether each holds."""
    if at_once == 1:
        return [holds(tool, *it) for it in checks]
    with ThreadPoolExecutor(at_once) as pool:
        return list(pool.map(lambda it: holds(tool, *it), checks))


def run_checks(tool, given, checks, at_once=1):
    """Runs the checks that are asked for, or prints their names, and returns the command's
    status."""
    wanted = chosen(checks, given.only)
    if given.list:
        print(*[name for name, _ in wanted], sep="\n")
        return 0
    if not wanted:
        return refuse(f"{tool}: no check has {given.only!r} in its name")
    return summed(outcomes_of(tool, wanted, at_once))


def summed(outcomes):
    """Prints the last line, and returns the command's status."""
    print(f"{outcomes.count(True)} passed, {outcomes.count(False)} failed")
    return 0 if all(outcomes) else 1


def refuse(why):
    """Says why nothing was run, which counts as a failure."""
    print(why)
    return summed([False])
