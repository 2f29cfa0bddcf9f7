"""What the tools share: the crates, their edits, and copies of the repository."""
import contextlib
import functools
import os
import shutil
import signal
import subprocess
import sys
import tempfile

sys.dont_write_bytecode = True
ROOT = os.path.dirname(os.path.dirname(os.path.realpath(__file__)))
RT = shutil.which(os.environ.get("RT") or "rt") or os.environ.get("RT") or "/opt/rattle/bin/rt"

# The most memory of a check: so as many run side by side as there are processors, if memory allows.
# (By itself rt reckons twice that for `engine`, which then waits for nearly all edits below it.)
MEMORY_OF_A_CHECK = 5 << 30


def lanes():
    """Returns how many checks run side by side: as the environment says, or as processors and
    memory allow."""
    memory = os.sysconf("SC_PHYS_PAGES") * os.sysconf("SC_PAGE_SIZE")
    said = os.environ.get("RT_JOBS", "")
    return int(said) if said.isdigit() and int(said) else max(1, min(len(os.sched_getaffinity(0)), memory // MEMORY_OF_A_CHECK))


@functools.cache
def crates(root=ROOT):
    """Returns the crates of crates.txt, lowest first, each with the libraries that it names."""
    found = {}
    with open(f"{root}/crates.txt", encoding="utf-8") as lines:
        for line in lines:
            words, _, libraries = line.partition("#")[0].partition(":")
            if words.split():
                found[words.split()[0]] = libraries.split()
    return found


@functools.cache
def below(crate, root=ROOT):
    """Returns the crates of the repository on which this one stands."""
    found = []
    for it in crates(root).get(crate, []):
        if it in crates(root):
            found += [other for other in [*below(it, root), it] if other not in found]
    return found


def edits(folder, root=ROOT):
    """Returns the edits of a folder, in the order of their names."""
    path = f"{root}/{folder}"
    names = sorted(os.listdir(path)) if os.path.isdir(path) else []
    return [f"{folder}/{it}" for it in names if it.endswith(".edit")]


def edits_of(crate, root=ROOT):
    """Returns all edits of a crate: those that the gate may try, and those that only
    tools/proofs/bugs tries."""
    return [*edits(f"crates/{crate}/must-fail", root), *edits(f"bugs/{crate}", root)]


def is_program(crate):
    return os.path.isfile(f"{ROOT}/crates/{crate}/src/main.rt")


def asked(words):
    """Returns the crates that the command's words name, or all."""
    unknown = [it for it in words if it not in crates()]
    if unknown:
        sys.exit(f"{os.path.basename(sys.argv[0])}: crates.txt names no crate {unknown[0]}")
    return words or list(crates())


def texts():
    """Returns the files that git knows or would, whoever owns the checkout."""
    listing = ["git", "-c", f"safe.directory={ROOT}", "ls-files", "-z", "--cached", "--others", "--exclude-standard"]
    found = subprocess.check_output(listing, cwd=ROOT, text=True).split("\0")
    return [it for it in found if it and os.path.isfile(f"{ROOT}/{it}")]


@contextlib.contextmanager
def copied(name, built=()):
    """Makes a copy of the files that git knows or would, with the libraries of the named crates
    that stand in this checkout. It is gone at the end."""
    signal.signal(signal.SIGTERM, lambda *_: sys.exit(143))
    os.makedirs(f"{ROOT}/build", exist_ok=True)
    copy = tempfile.mkdtemp(prefix=f"{name}-", dir=f"{ROOT}/build")
    try:
        for path in texts():
            os.makedirs(os.path.dirname(f"{copy}/{path}"), exist_ok=True)
            shutil.copy2(f"{ROOT}/{path}", f"{copy}/{path}")
        for crate in built:
            lend(crate, copy)
        yield copy
    finally:
        try:
            shutil.rmtree(copy)
        finally:
            # (what is left if a signal came in the midst of that)
            shutil.rmtree(copy, ignore_errors=True)


def lend(crate, copy):
    """Gives a copy the crate's library if it stands in this checkout. Links will do, since nothing
    writes its files where they lie."""
    library = f"{ROOT}/crates/{crate}/out/rlib"
    if os.path.isfile(f"{library}/stamp"):
        shutil.rmtree(f"{copy}/crates/{crate}/out/rlib", ignore_errors=True)
        shutil.copytree(library, f"{copy}/crates/{crate}/out/rlib", symlinks=True, copy_function=os.link)
