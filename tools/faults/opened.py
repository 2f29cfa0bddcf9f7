"""Opens folders that are made of names and bytes, and says what is in them. It uses ldbtool and, if
it is there, LevelDB behind its command line (interop/leveldb_driver.cc)."""
import os
import shutil
import subprocess
import tempfile

from judged import held, ran
from listed import Wrong
from machine import text_of
from promises import Found
from running import ldbtool

# more pairs than any session has
MOST = 30


def written(folder, files):
    """Puts files into a folder."""
    for name, text in files.items():
        with open(f"{folder}/{name}", "wb") as file:
            file.write(text)


def bytes_in(folder):
    """Returns the bytes of each file of a folder."""
    found = {}
    for name in os.listdir(folder):
        with open(f"{folder}/{name}", "rb") as file:
            found[name] = file.read()
    return found


class LevelDB:
    """Runs LevelDB over one folder after the other. It writes into what it opens."""

    def __init__(self, program):
        self.process = subprocess.Popen([program, "maps"], stdin=subprocess.PIPE, stdout=subprocess.PIPE, text=True)

    def found(self, folder):
        self.process.stdin.write(f"{folder}\n")
        self.process.stdin.flush()
        pairs = {}
        for line in self.process.stdout:
            words = line.rstrip("\n").split(" ")
            if words[0] == "refused":
                return Found(f"LevelDB refuses it: {line.strip()}")
            if words[0] == "end":
                return Found(pairs=pairs)
            pairs[text_of(words[0])] = text_of(words[1])
        raise Wrong("LevelDB ended")

    def end(self):
        self.process.stdin.close()
        self.process.stdout.close()
        self.process.wait()


def found_by_ldbtool(folder):
    """Returns what a check says, and what is there after an open, which writes into the folder."""
    status, report = ran("check", folder)
    if status or report[:1] not in (["good"], ["empty"]):
        return Found(f"a check answers {report[:2]}, status {status}")
    try:
        pairs = dict(line.split(" ")[1:] for line in held(folder, MOST))
    except Wrong as fault:
        return Found(str(fault))
    sequence = int(report[1].split(" ")[1]) if report[0] == "good" else 0
    logs = [int(line.split(" ")[1]) for line in report if line.startswith("log ")]
    return Found(pairs={text_of(key): text_of(value) for key, value in pairs.items()}, sequence=sequence, live_logs=tuple(logs))


class Opener:
    """Opens each state once, however often it comes."""

    def __init__(self, room, beside=None):
        self.room, self.known, self.leveldb = room, {}, LevelDB(beside) if beside else None

    def __enter__(self):
        return self

    def __exit__(self, *_):
        if self.leveldb:
            self.leveldb.end()

    def found(self, files):
        """Returns what ldbtool finds, which must be what LevelDB finds."""
        key = hash(frozenset(files.items()))
        if key not in self.known:
            self.known[key] = self.opened(files)
        return self.known[key]

    def opened(self, files):
        ours = self.opened_by(found_by_ldbtool, files)
        if self.leveldb and not ours.refusal:
            theirs = self.opened_by(self.leveldb.found, files)
            if theirs.pairs != ours.pairs:
                return Found(theirs.refusal or f"LevelDB finds {len(theirs.pairs)} pairs, and not the {len(ours.pairs)} of ours")
        return ours

    def mended(self, files):
        """Returns the files as `ldbtool mend` leaves them. Where it cuts one, a check refuses them
        before, and names that command; a dry run says the same, and changes nothing."""
        folder = tempfile.mkdtemp(prefix="mended-", dir=self.room)
        written(folder, files)
        planned, checked = ldbtool("mend", "--dry-run", folder), ldbtool("check", folder)
        if bytes_in(folder) != files:
            raise Wrong("a dry run of mend or a check changes a file")
        done = ldbtool("mend", folder)
        left = bytes_in(folder)
        shutil.rmtree(folder)
        if (done.returncode, done.stdout) != (0, planned.stdout):
            raise Wrong(f"mend prints {done.stdout}, status {done.returncode}, behind a dry run's {planned.stdout}: {done.stderr}")
        is_named = f"`ldbtool mend {folder}`" in checked.stderr.decode()
        if is_named != (done.stdout != b"nothing to mend\n") or is_named != (checked.returncode != 0):
            raise Wrong(f"mend prints {done.stdout}, and the check before it says {checked.stderr}, status {checked.returncode}")
        return {name: text for name, text in left.items() if name != "LOCK" or name in files}

    def opened_by(self, reader, files):
        folder = tempfile.mkdtemp(prefix="state-", dir=self.room)
        written(folder, files)
        found = reader(folder)
        shutil.rmtree(folder)
        return found
