"""Bugs of the store over a folder, for tools/faults/turns to find.

No contract refuses them, since none says what a folder returns. Each is planted into a copy of the
crates, and ldbtool is made of that without its proof (bench/unproved).
"""
import os
import subprocess

from listed import Wrong
from repository import copied

FOLDER = "crates/store/src/folder.rt"

FORGETS_NOT = [("        self.kept.clear();\n", "")]

# of each bug what it replaces by what, wherever that stands in folder.rt
PLANTS = {
    "a folder that keeps its files open past the lock": FORGETS_NOT,
    "a folder whose reader takes any file of a name": [("Some(seen) => *seen == found,", "Some(_) => true,")],
}


def made_with(room, name):
    """Makes ldbtool with this bug, and answers where it is."""
    program = f"{room}/ldbtool"
    with copied("turns") as copy:
        path = f"{copy}/{FOLDER}"
        with open(path, encoding="utf-8") as file:
            text = file.read()
        for old, new in PLANTS[name]:
            if old not in text:
                raise Wrong(f"{FOLDER} has no {old!r} any more")
            text = text.replace(old, new)
        with open(path, "w", encoding="utf-8") as file:
            file.write(text)
        ran = subprocess.run([f"{copy}/bench/unproved", program, "ldbtool"], capture_output=True, text=True)
        if not os.path.isfile(program):
            raise Wrong(f"it wasn't made: {ran.stdout[-1000:]} {ran.stderr[-1000:]}")
    return program
