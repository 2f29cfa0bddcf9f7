"""The programs that bench/run compares, one run of a workload on one of them, and the machine."""
import os
import re
import shutil
import statistics
import subprocess
import sys
import textwrap
import time

ROOT = os.path.dirname(os.path.dirname(os.path.abspath(__file__)))
ROOM = f"{ROOT}/build/bench"
MEASURE = f"{ROOM}/measure"

# The most characters of a line of prose in a page.
WIDTH = 100

# Each twin: its source, the file that shows that its library is there, Debian's packages of that,
# and what it is linked with.
TWINS = {
    "LevelDB": ("leveldb_twin.cc", "/usr/include/leveldb/db.h", "libleveldb-dev", "-lleveldb"),
    "RocksDB": ("rocksdb_twin.cc", "/usr/include/rocksdb/db.h", "librocksdb-dev", "-lrocksdb"),
    "LMDB": ("lmdb_twin.cc", "/usr/include/lmdb.h", "liblmdb-dev", "-llmdb"),
    "goleveldb": (
        "goleveldb_twin.go",
        "/usr/share/gocode/src/github.com/syndtr/goleveldb/leveldb/db.go",
        "golang-go golang-github-syndtr-goleveldb-dev",
        None,
    ),
}

# the folder of each workload (empty, filled by fillrandom, or that one settled), and whether it
# writes
WORKLOADS = {
    "fillseq": ("empty", True),
    "fillbatch": ("empty", True),
    "fillrandom": ("empty", True),
    "fillsync": ("empty", True),
    "overwrite": ("settled", True),
    "snapshotreads": ("settled", True),
    "deleterandom": ("settled", True),
    "settle": ("filled", True),
    "open": ("filled", True),
    "readrandom": ("settled", False),
    "readmissing": ("settled", False),
    "readnear": ("settled", False),
    "readhot": ("settled", False),
    "readseq": ("settled", False),
    "readreverse": ("settled", False),
    "seekrandom": ("settled", False),
}


def say(text):
    print(f"bench: {text}", flush=True)


def fail(text):
    sys.exit(f"bench: {text}")


def number_of(name, default):
    text = os.environ.get(name, "") or str(default)
    if not text.isdigit() or int(text) == 0:
        fail(f"{name} is {text}, and no number from 1 on")
    return int(text)


# ---- the programs


def compiler_of(source, program, library):
    """Returns the command that makes a program, and what it adds to the environment."""
    if source.endswith(".go"):
        places = {"GO111MODULE": "off", "GOPATH": "/usr/share/gocode", "GOCACHE": f"{ROOM}/go", "GOFLAGS": ""}
        return ["go", "build", "-o", program, source], places
    flags = ["-std=c++17", "-O2", "-DNDEBUG", "-Wall", "-Wextra"]
    return ["g++", *flags, "-o", program, source, *([library] if library else [])], {}


def build(source, program, library=None):
    """Compiles a program of this folder if it isn't newer than its source and what that
    includes."""
    folder = os.path.dirname(source)
    sources = [source, *(f"{folder}/{it}" for it in os.listdir(folder) if it.endswith(".h"))]
    if os.path.isfile(program) and os.path.getmtime(program) > max(map(os.path.getmtime, sources)):
        return
    say(f"building {os.path.relpath(program, ROOT)}")
    command, places = compiler_of(source, program, library)
    if not shutil.which(command[0]):
        fail(f"{command[0]} is missing: apt-get install {'golang-go' if command[0] == 'go' else command[0]}")
    if subprocess.run(command, env={**os.environ, **places}).returncode:
        fail(f"{source} was not built")


def build_measure():
    os.makedirs(ROOM, exist_ok=True)
    build(f"{ROOT}/bench/measure.cc", MEASURE)


def twin(name):
    """Returns the program over another database, and builds it if it isn't there."""
    source, seen, packages, library = TWINS[name]
    os.makedirs(ROOM, exist_ok=True)
    if not os.path.isfile(seen):
        fail(f"{name} is missing: apt-get install {packages}")
    program = f"{ROOM}/{os.path.splitext(source)[0]}"
    build(f"{ROOT}/bench/{source}", program, library)
    return program


def proved_program():
    """Returns the program under test. `rt run` makes it, or only runs it if nothing has changed."""
    given = os.environ.get("BENCH")
    if given:
        return os.path.abspath(given)
    rt = os.environ.get("RT") or shutil.which("rt")
    if not rt:
        fail("rt, the command of the Rattle toolchain, is not on PATH: put the kit's bin/ there (README.md names the kit)")
    say(f"proving and building bench, as far as it has changed: an hour or two from nothing ({ROOM}/bench.log)")
    with open(f"{ROOM}/bench.log", "w", encoding="utf-8") as log:
        words = {"cwd": f"{ROOT}/crates/bench", "stdin": subprocess.DEVNULL, "stdout": log, "stderr": log}
        if subprocess.run([rt, "run"], **words).returncode:
            fail(f"bench was not built: {ROOM}/bench.log says why")
    return f"{ROOT}/crates/bench/out/bench"


# ---- one run


def measured(command, silent=False):
    """Runs a program, and returns its output, the seconds of wall time and of processors, and the
    MB that it took. What a silent one prints goes to /dev/null and isn't read."""
    ran = subprocess.run([MEASURE, *(["--silent"] if silent else []), *command], stdout=subprocess.PIPE, text=True)
    if ran.returncode:
        fail(f"{os.path.basename(command[0])} {' '.join(command[1:])} ended with status {ran.returncode}")
    *lines, figures = ran.stdout.splitlines()
    wall, processor, memory = map(int, figures.split())
    return "\n".join(lines), (wall / 1e6, processor / 1e6, memory / 1024)


class Side:
    """One of the programs, with the folders that it has made."""

    def __init__(self, name, program, number):
        self.name, self.program, self.number, self.room = name, program, number, f"{ROOM}/{name}"
        self.remove()
        os.makedirs(f"{self.room}/empty")

    def remove(self):
        shutil.rmtree(self.room, ignore_errors=True)

    def prepare(self):
        for name, before, workload in (("filled", "empty", "fillrandom"), ("settled", "filled", "settle")):
            shutil.copytree(f"{self.room}/{before}", f"{self.room}/{name}")
            measured([self.program, workload, str(self.number), f"{self.room}/{name}"])

    def take_files(self, other):
        for name in ("filled", "settled"):
            shutil.copytree(f"{other.room}/{name}", f"{self.room}/same-{name}")

    def run(self, workload, base=None, how=()):
        """Runs a workload on the folder of that name, or on the workload's own folder. A workload
        that writes gets a copy."""
        usual, writes = WORKLOADS[workload]
        folder = f"{self.room}/{base or usual}"
        if not writes:
            return measured([self.program, workload, str(self.number), folder, *how])
        copy = f"{self.room}/copy"
        shutil.copytree(folder, copy)
        # what the copy left unwritten must not slow the run
        os.sync()
        found = measured([self.program, workload, str(self.number), copy, *how])
        shutil.rmtree(copy)
        return found


def by_turns(name, runs, rounds):
    """Runs what each side has by turns, and returns the medians of what each took. It stops if two
    outputs differ."""
    taken = {side: [] for side in runs}
    for turn in range(rounds):
        lines = {}
        for side in [*runs][turn % len(runs) :] + [*runs][: turn % len(runs)]:
            lines[side], figures = runs[side]()
            taken[side].append(figures)
        for side, line in lines.items():
            if line != lines["ours"]:
                fail(f"{name}: ours prints {lines['ours']!r}, and {side} {line!r}")
    found = {side: tuple(map(statistics.median, zip(*figures))) for side, figures in taken.items()}
    say(f"{name}: {'; '.join(f'{side} {it[0]:.3f} s, of processors {it[1]:.3f} s' for side, it in found.items())}")
    return found


def compared(workload, sides, rounds, behind="", base=None):
    """Returns a row: the name, and what this database and LevelDB take."""
    name = f"{workload}{behind}"
    runs = {side: lambda it=it: it.run(workload, base) for side, it in zip(("ours", "LevelDB"), sides)}
    return (name, *by_turns(name, runs, rounds).values())


# ---- where it was run


def version_of(name):
    """Returns the version of Debian's package of a library, or the one in LevelDB's header."""
    _, seen, packages, _ = TWINS[name]
    if name == "LevelDB":
        with open(seen, encoding="utf-8") as file:
            return ".".join(re.findall(r"k(?:Major|Minor)Version = (\d+)", file.read()))
    asked = ["dpkg-query", "-W", "-f", "${Version}", packages.split()[-1]]
    found = subprocess.run(asked, stdout=subprocess.PIPE, text=True).stdout if shutil.which("dpkg-query") else ""
    return found or "of no package"


def machine():
    with open("/proc/cpuinfo", encoding="utf-8") as file:
        model = re.search(r"model name\s*: (.*)", file.read())
    with open("/proc/meminfo", encoding="utf-8") as file:
        memory = int(re.search(r"MemTotal:\s*(\d+)", file.read()).group(1)) / 2**20
    name = model.group(1) if model else os.uname().machine
    return f"{len(os.sched_getaffinity(0))} processors, {name}, {memory:.0f} GB, Linux {os.uname().release}"


def load():
    return os.getloadavg()[0]


def headline(size, rounds, begun, names=("LevelDB",)):
    """Says what was run, where and when, in lines as a page has them. `begun` is the machine's load
    when the run began."""
    versions = ", ".join(f"{it} {version_of(it)}" for it in names)
    runs = f"medians of {rounds} runs" if rounds > 1 else "one run"
    told = (
        f"{size}, {runs}, on {time.strftime('%Y-%m-%d')}; {machine()}; {versions}. "
        f"The load of the machine was {begun:.1f} when it began and {load():.1f} when it ended."
    )
    return textwrap.fill(told, WIDTH, break_long_words=False, break_on_hyphens=False)
