"""Keeps the results of tries of a crate's edits below build/tried, for runs of tools/proofs/bugs
that were stopped.

A result stands under two sums: that of all that the prover reads when it judges the crate
(tools/proofs/refused.py), without its edits, and that of the edit's own text. So an edit that was
added or mended later is tried, and the others aren't. Only what was refused is kept.
"""
import hashlib
import json
import os

from refused import sum_of
from repository import ROOT

PLACE = f"{ROOT}/build/tried"


def key_of(path):
    with open(path, "rb") as file:
        return f"{os.path.basename(path)} {hashlib.sha256(file.read()).hexdigest()}"


class Tried:
    """Holds the kept results of one crate, as a copy has it."""

    def __init__(self, crate, copy):
        self.path, self.sum = f"{PLACE}/{crate}.json", sum_of(crate, copy, [])
        self.lines = self.read()

    def read(self):
        try:
            with open(self.path, encoding="utf-8") as file:
                found = json.load(file)
            return found["lines"] if found["sum"] == self.sum else {}
        except (OSError, ValueError, KeyError, TypeError):
            return {}

    def of(self, path):
        """Returns what was said of an edit, if it was refused."""
        return self.lines.get(key_of(path))

    def keep(self, path, line):
        """Keeps what was said of an edit that was refused. (Other runs may do so for the same
        crate; what one loses is tried again.)"""
        self.lines[key_of(path)] = line
        os.makedirs(PLACE, exist_ok=True)
        with open(f"{self.path}.{os.getpid()}", "w", encoding="utf-8") as file:
            json.dump({"sum": self.sum, "lines": self.lines}, file)
        os.replace(file.name, self.path)

    def forget(self):
        """Removes all that was kept of the crate."""
        self.lines = {}
        if os.path.exists(self.path):
            os.remove(self.path)
