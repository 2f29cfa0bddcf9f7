"""Builds the libraries of the repository side by side, each as soon as those below it stand.

`rt` alone builds what is below a crate one by one, and two of its runs in one checkout wait for
each other if they share a library. So each library is built in one of some copies below build/. A
copy is lent the libraries of this checkout, and returns the one that it built, with the work that
is kept of its proof. Nothing is proved twice.
"""
import contextlib
import fcntl
import functools
import importlib.util
import os
import shutil
import subprocess
import sys
import time
from contextlib import ExitStack

from repository import ROOT, RT, below, copied, is_program, lanes, lend, texts


def libraries(named):
    """Returns the libraries among these crates and below them, lowest first."""
    found = []
    for it in named:
        found += [other for other in [*below(it), it] if other not in found]
    return [it for it in found if not is_program(it)]


@functools.cache
def kit():
    """Returns what a library is made from, as the kit computes it, once for each crate and not once
    for each way to it."""
    path = f"{os.path.dirname(os.path.realpath(RT))}/rtlib.py"
    made = importlib.util.module_from_spec(importlib.util.spec_from_file_location("rtlib", path))
    made.__spec__.loader.exec_module(made)
    made.Crate.stamp = functools.cache(made.Crate.stamp)
    return made, {}


def stands(crate):
    """Says whether this checkout has the library of the text as it was when first asked. (If a kit
    can't tell, rt itself will.)"""
    try:
        rtlib, known = kit()
        return rtlib.Crate(f"{ROOT}/crates/{crate}", ROOT, known).is_built()
    except (AttributeError, TypeError, OSError):
        return False


@functools.cache
def sizes():
    """Returns how many bytes of text each crate has."""
    found = {}
    for path in texts():
        folder, _, rest = path.partition("/")
        crate = rest.partition("/")[0]
        if folder == "crates":
            found[crate] = found.get(crate, 0) + os.path.getsize(f"{ROOT}/{path}")
    return found


def longest_first(named):
    """Returns the libraries, those with the longest chain of others above them first."""
    behind = {}
    for it in reversed(named):
        behind[it] = sizes()[it] + max([0, *(behind[other] for other in behind if it in below(other))])
    return sorted(named, key=lambda it: -behind[it])


def started(crate, copy, jobs):
    """Runs `rt lib` in the crate's folder of a copy, over what stands and is kept here; its words
    go to a file. (Four jobs take half as many seconds of processors again, so it has one job if
    others run beside it.)"""
    for it in below(crate):
        lend(it, copy)
    kept, to = f"{ROOT}/crates/{crate}/out/incremental", f"{copy}/crates/{crate}/out/incremental"
    if os.path.isdir(kept) and not os.path.isdir(to):
        shutil.copytree(kept, to, symlinks=True)
    with open(f"{ROOT}/build/libraries/{crate}", "w", encoding="utf-8") as words:
        return subprocess.Popen([RT, "lib", "--jobs", str(jobs)], cwd=f"{copy}/crates/{crate}", stdin=subprocess.DEVNULL, stdout=words, stderr=words)


def take(crate, copy, *parts):
    """Takes over parts of what a copy has made of a library, once no rt works in the crate's folder
    here."""
    folder = f"{ROOT}/crates/{crate}"
    os.makedirs(f"{folder}/out", exist_ok=True)
    held = os.open(folder, os.O_RDONLY)
    try:
        fcntl.flock(held, fcntl.LOCK_EX)
        for part in parts:
            if os.path.isdir(f"{copy}/crates/{crate}/out/{part}"):
                shutil.rmtree(f"{folder}/out/{part}", ignore_errors=True)
                os.rename(f"{copy}/crates/{crate}/out/{part}", f"{folder}/out/{part}")
    finally:
        os.close(held)


@contextlib.contextmanager
def ended(running):
    """Ends the processes that are still there if it is left before their end."""
    try:
        yield
    finally:
        for process in running():
            process.terminate()
        for process in running():
            process.wait()


def build(named, at_once=None):
    """Builds the libraries among these crates and below them, and returns whether all stand. It
    prints a line for each as it is done: its own seconds, and those since the start."""
    os.makedirs(f"{ROOT}/build/libraries", exist_ok=True)
    wanted = libraries(named)
    done = {it for it in wanted if stands(it)}
    left, running, failed, begun = longest_first([it for it in wanted if it not in done]), {}, [], time.monotonic()
    at_once = at_once or lanes()
    if done:
        print(f"libraries: {len(done)} of {len(wanted)} stand", flush=True)
    with ExitStack() as stack:
        free = [stack.enter_context(copied("libraries")) for _ in range(min(at_once, len(left)))]
        stack.enter_context(ended(lambda: [it for it, *_ in running.values()]))
        while running or (left and not failed):
            ready = [it for it in left if not failed and all(other in done for other in below(it))][: len(free)]
            jobs = max(1, at_once // max(1, len(ready) + len(running)))
            for i, crate in enumerate(ready):
                left.remove(crate)
                copy = free.pop()
                # (all wait for the first, which has the longest chain above it)
                running[crate] = started(crate, copy, max(jobs, min(2, at_once)) if i == 0 else jobs), copy, time.monotonic()
            time.sleep(0.5)
            for crate in [it for it, (process, *_) in running.items() if process.poll() is not None]:
                process, copy, since = running.pop(crate)
                free.append(copy)
                if process.returncode:
                    # (the finished part of its proof is kept all the same)
                    take(crate, copy, "incremental")
                    failed.append(crate)
                    print(f"libraries: {crate} isn't proved: build/libraries/{crate} says why", file=sys.stderr, flush=True)
                    continue
                take(crate, copy, "rlib", "incremental")
                done.add(crate)
                now = time.monotonic()
                print(f"[{len(done)} of {len(wanted)}] {crate}, {now - since:.0f} s, after {now - begun:.0f} s", flush=True)
    return not failed
