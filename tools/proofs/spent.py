"""Counts what provers pay, crate by crate: the processor seconds of those that an `rt ci` starts,
read from /proc while they run."""
import os
import threading

from repository import crates

TICKS = os.sysconf("SC_CLK_TCK")
EVERY = 1.0

PROOF, TESTS, EDITS = "proof", "tests", "edits"

# a crate that every gate proves, in half a minute
MEASURE = "ikey"


def words_of(process):
    with open(f"/proc/{process}/cmdline", "rb") as it:
        return it.read().decode(errors="replace").split("\0")


def fields_of(process):
    with open(f"/proc/{process}/stat", encoding="utf-8", errors="replace") as it:
        return it.read().rpartition(")")[2].split()


def used_by(process):
    """Returns when it started, and the seconds that it and what it waited for have used."""
    fields = fields_of(process)
    return int(fields[19]), sum(map(int, fields[11:15])) / TICKS


def is_below(process, run):
    """Says whether the run started the process, or a process that the run started."""
    while int(process) > 1 and int(process) != run:
        process = fields_of(process)[1]
    return int(process) == run


class Spent(threading.Thread):
    """Watches the provers of a run in a folder until it is told to stop."""

    def __init__(self, run, root):
        super().__init__(daemon=True)
        # (by process, since others may try edits at the same time: the folder of an edit doesn't
        # say whose it is)
        self.process, self.root = run, root
        self.ended = threading.Event()
        # by process and start: the crate, what it was for, and its seconds
        self.seen = {}

    def run(self):
        while not self.ended.wait(EVERY):
            for process in filter(str.isdigit, os.listdir("/proc")):
                try:
                    self.look(process)
                except (OSError, ValueError, IndexError):
                    # (it has ended)
                    pass

    def look(self, process):
        words = words_of(process)
        if os.path.basename(words[0]) != "rattle" or "--crate-name" not in words:
            return
        folder = os.readlink(f"/proc/{process}/cwd")
        if "/rt-edit-" in folder and is_below(process, self.process):
            what = EDITS
        elif folder.startswith(f"{self.root}/crates/"):
            what = TESTS if "--test" in words else PROOF
        else:
            return
        start, seconds = used_by(process)
        self.seen[int(process), start] = words[words.index("--crate-name") + 1], what, start, seconds

    def paid(self):
        """Returns the seconds of each crate's proof, of its tests' proof and of each of its edits,
        in their order, if there are any."""
        self.ended.set()
        if self.is_alive():
            self.join()
        found = {}
        for crate, kind, _, seconds in sorted(self.seen.values(), key=lambda it: it[2]):
            found.setdefault(crate, {what: [] for what in (PROOF, TESTS, EDITS)})[kind].append(seconds)
        return {it: found[it] for it in crates() if it in found}

    def rows(self):
        """Returns a line for each crate of which something was proved: its proof, the proof of its
        tests, the first of its edits and each further one."""
        for crate, paid in self.paid().items():
            first, further = paid[EDITS][:1], paid[EDITS][1:]
            tried = f"{first[0]:.0f} + {sum(further) / max(1, len(further)):.0f}" if first else "-"
            shown = [f"{sum(paid[it]):.0f}" if paid[it] else "-" for it in (PROOF, TESTS)]
            yield f"| `{crate}` | {shown[0]} | {shown[1]} | {tried} |"

    def told(self):
        """Returns the minutes of all proofs, of those of tests and of edits, and the seconds of the
        crate by which machines are compared."""
        paid = self.paid()
        sums = [sum(sum(it[what]) for it in paid.values()) / 60 for what in (PROOF, TESTS, EDITS)]
        measure = f"{sum(paid[MEASURE][PROOF]):.0f} s" if MEASURE in paid else "none"
        return f"{sums[0]:.0f} of them proofs, {sums[1]:.0f} those of tests, {sums[2]:.0f} edits; {MEASURE} took {measure}"
