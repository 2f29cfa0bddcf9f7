"""Records what a program did to the files of a folder, call by call, and what it answered.

It runs over a shim that records that (recording_calls.c). It is given a script line by line, each
once the line before it is answered.
"""
import collections
import os
import struct
import subprocess
import threading
from dataclasses import dataclass

from listed import Wrong
from running import said_beside

SECONDS = 60

# before the lines of another process, which stand in one line of a script, with commas between them
OTHER = "other: "


class Ended(Wrong):
    """A program that was recorded ended before its script did, since it was refused."""


# what stands before an entry's texts: its kind, flags, inode, place, and the lengths of the two
HEAD = struct.Struct("=IIQQII")
Entry = collections.namedtuple("Entry", "flags file place first second")


@dataclass(frozen=True)
class Opened:
    """An open that makes a file if none has the name, and may empty it. Inodes tell files apart."""

    name: str
    file: int
    empties: bool


@dataclass(frozen=True)
class Wrote:
    file: int
    place: int
    text: bytes


@dataclass(frozen=True)
class Moved:
    old: str
    new: str


@dataclass(frozen=True)
class Removed:
    name: str


@dataclass(frozen=True)
class Synced:
    """A file, or the folder itself."""

    file: int


@dataclass(frozen=True)
class Locked:
    file: int


@dataclass(frozen=True)
class Answered:
    lines: int


# of each kind of entry, the call that it stands for
CALLS = {
    1: lambda it: Opened(it.first.decode(), it.file, bool(it.flags)),
    2: lambda it: Wrote(it.file, it.place, it.first),
    3: lambda it: Moved(it.first.decode(), it.second.decode()),
    4: lambda it: Removed(it.first.decode()),
    5: lambda it: Synced(it.file),
    6: lambda it: Answered(it.first.count(b"\n")),
    7: lambda it: Locked(it.file),
}


def calls_in(path):
    """The calls of a record, by the entries that recording_calls.c puts there."""
    with open(path, "rb") as file:
        text = file.read()
    found, at = [], 0
    while at < len(text):
        kind, flags, inode, place, first, second = HEAD.unpack_from(text, at)
        middle = at + HEAD.size + first
        entry = Entry(flags, inode, place, text[at + HEAD.size : middle], text[middle : middle + second])
        found.append(CALLS[kind](entry))
        at = middle + second
    return found


def files_in(folder):
    """Each file of a folder by its name: its inode, and what it holds."""
    found = {}
    for it in os.scandir(folder):
        with open(it.path, "rb") as file:
            found[it.name] = it.inode(), file.read()
    return found


class Recording:
    """A folder as it was, what runs of a program did there since, and what these answered."""

    def __init__(self, shim, folder, record, **environment):
        self.folder, self.record = os.path.abspath(folder), record
        self.environment = {**os.environ, "LD_PRELOAD": shim, "RECORD_FILE": record, "FOLDER": self.folder, **environment}
        self.inode = os.stat(folder).st_ino
        self.start = files_in(folder)
        self.script, self.answers = [], []

    def run(self, words, script):
        """Runs a program over the folder. A line that begins with OTHER is another run of it."""
        command = [*words, self.folder]
        with subprocess.Popen(command, stdin=subprocess.PIPE, stdout=subprocess.PIPE, stderr=subprocess.PIPE, env=self.environment) as process:
            killer = threading.Timer(SECONDS, process.kill)
            killer.start()
            try:
                answers = self.answers_to(process, words, script)
                said = process.communicate()
            finally:
                killer.cancel()
        if process.returncode == 1 and not said[0]:
            raise Ended(f"it ended with status 1, and said {said[1]}")
        if process.returncode or said[0] or said_beside("\n".join(answers).encode(), said[1]):
            raise Wrong(f"it ended with status {process.returncode}, and said {said}")

    def answers_to(self, process, words, script):
        """Gives a program its lines one by one, and answers what it says to each, until it ends."""
        answers = []
        try:
            for line in script:
                if line.startswith(OTHER):
                    self.run(words, line.removeprefix(OTHER).split(", "))
                    continue
                process.stdin.write(f"{line}\n".encode())
                process.stdin.flush()
                answers.append(process.stdout.readline().decode().rstrip("\n"))
                self.script.append(line)
                self.answers.append(answers[-1])
        except BrokenPipeError:
            pass
        return answers

    def calls(self):
        return calls_in(self.record)
